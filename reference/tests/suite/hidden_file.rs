//! Two stores that differ only in the bytes of a file which no label held or
//! reached may read: every call answers the same on both, also where the file
//! is open for reading from the start.

use crate::console::{Console, FILE_LABEL, FILE_LENGTH, FREE, PROCESS_DESCRIPTOR, PROCESS_LABEL};
use crate::random::Chance;

const KEY: usize = 3;

/// The test console with other bytes in /key, which each process already has
/// open, for reading and for both.
fn holding(key: &[u8; 4]) -> Console {
    let mut console = Console::talking();
    console.set_bytes(KEY, key);
    console.set_bits(KEY, 0o777);
    for process in 0..3 {
        for (descriptor, mode) in [(0, 1), (1, 3)] {
            let number = 2 * process + descriptor;
            let open_file = [KEY as u32, mode, 0, 1];
            console.open_files[4 * number..][..4].copy_from_slice(&open_file);
            let column = PROCESS_DESCRIPTOR + descriptor;
            console.set_process_field(process, column, number as u32 + 1);
        }
    }
    // Programs move 0 to 1, 1 to 2 and 2 to 0: none of these may read label 3.
    for label in 0..3 {
        let next = (label + 1) % 3;
        console.policy[256 + 16 * label..][..16].fill(next as u8);
    }
    console
}

/// That the two are equal but for the hidden bytes, and altogether once the
/// file's slot was freed.
fn assert_alike(one: &Console, other: &Console, freed: bool) {
    let mut masked = other.clone();
    if !freed {
        let hidden = 512 * KEY..512 * KEY + one.file(KEY)[FILE_LENGTH] as usize;
        masked.contents[hidden.clone()].copy_from_slice(&one.contents[hidden]);
    }
    assert_eq!(*one, masked);
}

/// The same call by chance on both, the answers and buffers compared; its
/// number and refusal.
fn call_both(stores: &mut [Console; 2], chance: &mut Chance) -> (u8, u32) {
    let mut request = chance.request();
    if request.call == 16 {
        request.call = 11; // else there is soon nobody left
    }
    if chance.below(8) == 0 {
        request.call = 20; // else few of them are granted
    }
    let (path, data) = (chance.path(), chance.data(request.call));
    let size = chance.below(10);
    let [first, second] = stores.each_mut().map(|store| {
        let mut buffer = vec![3; size];
        let answer = store.call(request, path.as_bytes(), &data, &mut buffer);
        (answer, buffer)
    });
    assert_eq!(first, second);
    let [borrowed, other] = stores
        .each_mut()
        .map(|store| store.borrow(request.process, request.descriptor, size as u32));
    assert_eq!(borrowed, other);
    (request.call, first.0.refusal)
}

#[test]
fn a_file_open_from_the_start_shows_nothing() {
    let mut chance = Chance(6);
    let (mut refused, mut renamed, mut freed_in) = (0, 0, 0);
    for _ in 0..40 {
        let mut stores = [holding(b"\x01\x02\x03\x04"), holding(b"\xff\x00AB")];
        let mut freed = false;
        for _ in 0..200 {
            match call_both(&mut stores, &mut chance) {
                (11, 10) => refused += 1,
                (20, 0) => renamed += 1,
                _ => {}
            }
            freed |= stores[0].kind(KEY) == FREE;
            assert_alike(&stores[0], &stores[1], freed);
        }
        freed_in += usize::from(freed);
    }
    assert!(refused > 100, "{refused}");
    assert!(renamed > 20, "{renamed}");
    assert!(freed_in < 40, "{freed_in}");
}

/// The claim is not empty: a label that may read the file tells them apart.
#[test]
fn a_label_that_may_read_tells_them_apart() {
    let [mut one, mut other] = [holding(b"\x01\x02\x03\x04"), holding(b"\xff\x00AB")];
    for store in [&mut one, &mut other] {
        assert_eq!(store.read(0, 0, 4), Err((10, 0)));
        let (label, key) = (store.process(0)[PROCESS_LABEL], store.file(KEY)[FILE_LABEL]);
        store.policy[(16 * label + key) as usize] = 4;
    }
    assert_ne!(one.read(0, 0, 4), other.read(0, 0, 4));
}

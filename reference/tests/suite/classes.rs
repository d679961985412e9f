//! All bits and all kinds of callers, held against the rule.

use crate::console::{Console, PROCESS_USER};

/// A caller's user and group, where the files' are 10 and 1.
type Caller = (u32, u32);

const SUPERUSER: Caller = (0, 9);
const CALLERS: [Caller; 5] = [SUPERUSER, (10, 1), (10, 9), (20, 1), (20, 9)];

/// A console on which the labels forbid nothing and process 2 is the caller.
fn called_by((user, group): Caller) -> Console {
    let mut console = Console::open_policy();
    console.set_process_field(2, PROCESS_USER, user);
    console.set_group(2, group);
    console
}

/// The caller's digit of the bits.
fn rights(caller: Caller, bits: u32) -> u32 {
    match caller {
        SUPERUSER => 7,
        (10, _) => bits / 64,
        (_, 1) => bits / 8 % 8,
        _ => bits % 8,
    }
}

/// The refusal, with its stop number, of one who lacks the wanted rights.
fn unless(rights: u32, wanted: u32, stop: u32) -> Option<(u32, u32)> {
    (rights & wanted != wanted).then_some((9, stop))
}

/// Each console that a caller may find, by the bits.
fn for_all(slot: usize, check: impl Fn(&mut Console, u32, Caller, u32)) {
    for caller in CALLERS {
        for bits in 0..512 {
            let mut console = called_by(caller);
            console.set_bits(slot, bits);
            check(&mut console, rights(caller, bits), caller, bits);
        }
    }
}

#[test]
fn opening() {
    for_all(2, |console, rights, caller, bits| {
        for (mode, wanted) in [(1, 4), (2, 2), (3, 6), (4, 2)] {
            let refused = console.open(2, "/fares/now", mode).err();
            let expected = unless(rights, wanted, 0);
            assert_eq!(refused, expected, "{caller:?} {bits:o} {mode}");
        }
    });
}

#[test]
fn executing() {
    for_all(2, |console, rights, caller, bits| {
        let rights = match caller {
            SUPERUSER => u32::from(bits & 0o111 != 0),
            _ => rights,
        };
        let refused = console.execute(2, "/fares/now").err();
        assert_eq!(refused, unless(rights, 1, 0), "{caller:?} {bits:o}");
    });
}

#[test]
fn searching_and_listing() {
    for_all(1, |console, rights, caller, bits| {
        let refused = console.stat(2, "/fares/now").err();
        assert_eq!(refused, unless(rights, 1, 2), "{caller:?} {bits:o}");
        let refused = console.list(2, "/fares", 0).err();
        assert_eq!(refused, unless(rights, 4, 0), "{caller:?} {bits:o}");
    });
}

#[test]
fn making_and_taking_names() {
    for_all(1, |console, rights, caller, bits| {
        let expected = unless(rights, 1, 2).or(unless(rights, 2, 0));
        let created = console.create(2, "/fares/x", 0).err();
        assert_eq!(created, expected, "{caller:?} {bits:o}");
        let unlinked = console.unlink(2, "/fares/now").err();
        assert_eq!(unlinked, expected, "{caller:?} {bits:o}");
    });
}

#[test]
fn changing_bits() {
    for_all(2, |console, _, (user, group), bits| {
        let expected = if user == 20 { Some((9, 0)) } else { None };
        let refused = console.change_bits(2, "/fares/now", 0).err();
        assert_eq!(refused, expected, "{user} {group} {bits:o}");
    });
}

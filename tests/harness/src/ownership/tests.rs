//! The instruments themselves: what is supposed, what stays, what a history tells.

use super::kept::Kept;
use super::ledger::Ledger;
use super::situation::*;
use crate::action::{Action, Borrow};
use crate::call::Call;
use crate::chance::Chance;
use mritvelja::calls::{self, CLOSE, DUPLICATE, EXIT, FORK, OPEN};
use mritvelja::layout::*;
use mritvelja::{Answer, Tables};

/// Situations with the one left out, as many as stores by chance have a place for.
fn situations(left_out: Option<Supposition>) -> Vec<Situation> {
    let mut chance = Chance::new(9);
    let random = (0..100).filter_map(|_| Situation::random(&mut chance, left_out));
    random.collect()
}

#[test]
fn a_situation_is_as_supposed() {
    let situations = situations(None);
    assert!(situations.len() > 50);
    for situation in situations {
        assert_eq!(situation.failing(), []);
        assert!(situation.is_placed());
    }
}

#[test]
fn a_control_leaves_out_one_supposition() {
    for (left_out, name) in SUPPOSITIONS {
        let situations = situations(Some(left_out));
        assert!(situations.len() > 30, "{name}");
        for situation in situations {
            let failing = situation.failing();
            match left_out {
                Supposition::NoOtherCaller => assert_eq!(failing, []),
                _ => assert_eq!(failing, [left_out]),
            }
            assert!(situation.is_placed());
        }
    }
}

/// Every word and byte that stays is looked at, and no other is.
#[test]
fn what_stays_is_seen_to_change() {
    for situation in situations(None) {
        let kept = Kept::of(&situation);
        let Situation {
            foo, entry, bar, ..
        } = situation;
        let after = |change: &dyn Fn(&mut Tables)| {
            let mut tables = situation.tables.clone();
            change(&mut tables);
            kept.changed(&situation, &tables)
        };
        let foo_word = |column: usize| after(&|tables| tables.file_mut(foo)[column] ^= 1);
        assert_eq!(foo_word(FILE_KIND), Some("foo's kind"));
        assert_eq!(foo_word(FILE_OWNER), Some("foo's owner"));
        for column in FILE_GROUP..FILE_WIDTH {
            assert_eq!(foo_word(column), None);
        }
        for byte in 0..DIRENT_WIDTH {
            let change = |tables: &mut Tables| tables.dirent_mut(foo, entry)[byte] ^= 1;
            // The name may be another, as after a rename.
            let seen = (byte == NAME).then_some("what foo's entry names");
            assert_eq!(after(&change), seen);
        }
        for column in 0..FILE_WIDTH {
            let change = |tables: &mut Tables| tables.file_mut(bar)[column] ^= 1;
            assert_eq!(after(&change), Some("bar's record"));
        }
        let change = |tables: &mut Tables| tables.block_mut(bar)[BLOCK - 1] ^= 1;
        assert_eq!(after(&change), Some("bar's bytes"));
    }
}

fn call(process: u8, call: u8) -> Action {
    Action::Call(Call {
        process,
        call,
        descriptor: 0,
        number: 0,
        path: Vec::new(),
        data: Vec::new(),
        buffer: Vec::new(),
    })
}

fn answer(refusal: u32, value: u32) -> Answer {
    Answer {
        refusal,
        stop: 0,
        value,
        name_length: 0,
        name: [0; 16],
        fields: [0; 8],
    }
}

/// Tables in which the first processes hold so many descriptors.
fn holding(counts: &[usize]) -> Tables {
    let mut tables = Tables::empty();
    for (process, &count) in counts.iter().enumerate() {
        tables.descriptors_mut(process)[..count].fill(1);
    }
    tables
}

/// Two opens, a duplicate, a fork, the child closes and opens, and forks, both exit.
#[test]
fn a_history_tells_what_is_held() {
    let mut ledger = Ledger::start(&holding(&[]));
    let history: [(u8, u8, u32, &[usize]); 9] = [
        (1, OPEN, 0, &[0, 1]),
        (1, OPEN, 1, &[0, 2]),
        (1, DUPLICATE, 2, &[0, 3]),
        (1, FORK, 3, &[0, 3, 0, 3]),
        (3, CLOSE, 0, &[0, 3, 0, 2]),
        (3, OPEN, 0, &[0, 3, 0, 3]),
        (3, FORK, 4, &[0, 3, 0, 3, 3]),
        (1, EXIT, 0, &[0, 0, 0, 3, 3]),
        (3, EXIT, 0, &[0, 0, 0, 0, 3]),
    ];
    let mut before = holding(&[]);
    for (process, number, value, held) in history {
        let action = call(process, number);
        ledger.note(&action, &answer(13, 0));
        assert_eq!(ledger.wrong(&before), None);
        ledger.note(&action, &answer(0, value));
        let after = holding(held);
        assert!(ledger.wrong(&before).is_some());
        assert_eq!(ledger.wrong(&after), None);
        before = after;
    }
    let terms = ledger.terms;
    let gained = [terms.opened, terms.duplicated, terms.copied];
    assert_eq!(gained, [3, 1, 6]);
    assert_eq!([terms.closed, terms.dropped], [1, 6]);
}

#[test]
fn a_number_given_out_again_starts_from_its_fork() {
    let mut ledger = Ledger::start(&holding(&[1, 0, 0, 2]));
    ledger.note(&call(3, EXIT), &answer(0, 0));
    assert_eq!(ledger.wrong(&holding(&[1])), None);
    ledger.note(&call(0, FORK), &answer(0, 3));
    assert_eq!(ledger.wrong(&holding(&[1, 0, 0, 1])), None);
}

#[test]
fn other_calls_have_no_term() {
    let tables = holding(&[2, 1]);
    let mut ledger = Ledger::start(&tables);
    let others = [calls::READ, calls::WRITE, calls::SEEK, calls::EXECUTE];
    for number in others {
        ledger.note(&call(1, number), &answer(0, 1));
    }
    let borrow = Borrow {
        process: 1,
        descriptor: 0,
        count: 4,
    };
    ledger.note(&Action::Borrow(borrow), &answer(0, 4));
    assert_eq!(ledger.wrong(&tables), None);
}

//! What the stores made by chance have: shows that the generator gets there.

use crate::rom;
use crate::tree::{self, Lost, Way};
use mritvelja::layout::*;
use mritvelja::Tables;

type Test = fn(&Tables) -> bool;

const FEATURES: [(&str, Test); 33] = [
    ("a directory 8 names deep", eight_deep),
    ("a directory with 16 names", full_directory),
    ("no free slot", no_free_slot),
    ("no free open file", no_free_open_file),
    ("no free process", no_free_process),
    ("an open file with several references", shared_open_file),
    ("an open file without a name", unnamed),
    ("a reader whose label may not read", |tables| {
        unentitled(tables, READ, &[1, 3])
    }),
    ("a writer whose label may not write", |tables| {
        unentitled(tables, WRITE, &[2, 3, 4])
    }),
    ("a version at the wrap", at_wrap),
    ("a transition", has_transition),
    ("an owner with fewer rights than others", owner_below_others),
    ("a group with fewer rights than others", group_below_others),
    ("a link to a plain file", |tables| link_to(tables, PLAIN)),
    ("a link to a directory", |tables| link_to(tables, DIRECTORY)),
    ("a link to the root", link_to_root),
    ("a link to a directory 8 names deep", link_to_eight_deep),
    ("a link to a link", link_to_link),
    ("a link that takes 8 follows", takes_eight),
    ("a link that takes more", takes_more),
    ("links in a ring", ring),
    ("a link that leads nowhere", leads_nowhere),
    ("a link's text with a run of slashes", run_of_slashes),
    ("a factory part of no bytes", |tables| tables.rom.is_empty()),
    ("one prompt", |tables| {
        rom::prompts(&tables.rom).count() == 1
    }),
    ("16 prompts", |tables| {
        rom::prompts(&tables.rom).count() == PROMPTS
    }),
    ("a prompt of no bytes", |tables| prompt_of(tables, 0)),
    ("a prompt of 512 bytes", |tables| prompt_of(tables, BLOCK)),
    ("a prompt open", prompt_open),
    ("a link to /rom", |tables| link_into_rom(tables, DIRECTORY)),
    ("a link to a prompt", |tables| link_into_rom(tables, PLAIN)),
    ("\"rom\" in another directory", rom_elsewhere),
    ("16 names in the root", |tables| {
        tables.file(ROOT)[FILE_LENGTH] == DIRENTS as u32
    }),
];

pub struct Features([u64; FEATURES.len()]);

impl Default for Features {
    fn default() -> Features {
        Features([0; FEATURES.len()])
    }
}

impl Features {
    pub fn count(&mut self, tables: &Tables) {
        for (count, (_, test)) in self.0.iter_mut().zip(FEATURES) {
            *count += u64::from(test(tables));
        }
    }

    pub fn print(&self) {
        println!("\nsound stores, before the first call, with");
        for (count, (name, _)) in self.0.iter().zip(FEATURES) {
            println!("{count:>7}  {name}");
        }
    }
}

fn eight_deep(tables: &Tables) -> bool {
    tree::stored_nodes(tables)
        .iter()
        .any(|node| node.depth == NAMES && tables.is_kind(node.slot, DIRECTORY))
}

/// So many follows are taken for a ring.
const ENDLESS: usize = 200;

/// Whether some link passes, by its text and by where that leads in so many follows.
fn some_link(
    tables: &Tables,
    most: usize,
    pass: impl Fn(&[u8], Result<Way, Lost>) -> bool,
) -> bool {
    (0..SLOTS).any(|slot| {
        let text = || tables.bytes(slot);
        tables.is_kind(slot, LINK) && pass(text(), tree::way(tables, text(), most))
    })
}

fn link_to(tables: &Tables, kind: u32) -> bool {
    some_link(tables, FOLLOWS, |_, way| {
        way.is_ok_and(|way| rom::is_stored(way.slot) && tables.is_kind(way.slot, kind))
    })
}

fn link_to_root(tables: &Tables) -> bool {
    some_link(tables, FOLLOWS, |_, way| {
        way.is_ok_and(|way| way.slot == ROOT)
    })
}

fn link_to_eight_deep(tables: &Tables) -> bool {
    let nodes = tree::stored_nodes(tables);
    let deep = |slot| {
        let mut deep = nodes.iter().filter(|node| node.depth == NAMES);
        deep.any(|node| node.slot == slot) && tables.is_kind(slot, DIRECTORY)
    };
    some_link(tables, FOLLOWS, |_, way| {
        way.is_ok_and(|way| deep(way.slot))
    })
}

fn link_to_link(tables: &Tables) -> bool {
    some_link(tables, FOLLOWS, |_, way| {
        way.is_ok_and(|way| way.follows > 0)
    })
}

/// Following the link itself is one more than following its text.
fn takes_eight(tables: &Tables) -> bool {
    some_link(tables, FOLLOWS, |_, way| {
        way.is_ok_and(|way| way.follows + 1 == FOLLOWS)
    })
}

fn takes_more(tables: &Tables) -> bool {
    some_link(tables, ENDLESS, |_, way| {
        way.is_ok_and(|way| way.follows + 1 > FOLLOWS)
    })
}

fn ring(tables: &Tables) -> bool {
    some_link(tables, ENDLESS, |_, way| way == Err(Lost::TooManyFollows))
}

fn leads_nowhere(tables: &Tables) -> bool {
    some_link(tables, ENDLESS, |_, way| way == Err(Lost::Missing))
}

fn run_of_slashes(tables: &Tables) -> bool {
    some_link(tables, FOLLOWS, |text, _| {
        text.windows(2).any(|pair| pair == b"//")
    })
}

fn full_directory(tables: &Tables) -> bool {
    (0..SLOTS).any(|slot| {
        tables.is_kind(slot, DIRECTORY) && tables.file(slot)[FILE_LENGTH] == DIRENTS as u32
    })
}

fn no_free_slot(tables: &Tables) -> bool {
    (0..SLOTS).all(|slot| !tables.is_kind(slot, FREE))
}

fn no_free_open_file(tables: &Tables) -> bool {
    (0..OPEN_FILES).all(|open_file| tables.open_file(open_file)[OPEN_REFERENCES] > 0)
}

fn no_free_process(tables: &Tables) -> bool {
    (0..PROCESSES).all(|process| tables.process(process)[PROCESS_USED] == 1)
}

fn shared_open_file(tables: &Tables) -> bool {
    (0..OPEN_FILES).any(|open_file| tables.open_file(open_file)[OPEN_REFERENCES] > 1)
}

fn unnamed(tables: &Tables) -> bool {
    (0..SLOTS).any(|slot| tables.is_kind(slot, PLAIN) && tables.file(slot)[FILE_LINKS] == 0)
}

/// Whether a process holds a file open in one of the modes that its label has not this right over.
fn unentitled(tables: &Tables, right: u32, modes: &[u32]) -> bool {
    let without = |process: usize, word: u32| {
        let open_file = tables.open_file(word as usize - 1);
        let over = rom::file(tables, open_file[OPEN_SLOT] as usize)[FILE_LABEL] as usize;
        let label = tables.process(process)[PROCESS_LABEL] as usize;
        modes.contains(&open_file[OPEN_MODE]) && u32::from(tables.rights(label, over)) & right == 0
    };
    (0..PROCESSES).any(|process| {
        let mut held = tables.descriptors(process).iter();
        held.any(|&word| word > 0 && without(process, word))
    })
}

fn at_wrap(tables: &Tables) -> bool {
    (0..SLOTS).any(|slot| tables.file(slot)[FILE_VERSION] == u32::MAX)
}

fn has_transition(tables: &Tables) -> bool {
    tables.policy[RIGHTS_SIZE..]
        .iter()
        .any(|&label| label != NO_TRANSITION)
}

/// Whether a file gives a class not all that it gives the others.
fn is_below_others(tables: &Tables, shift: u32) -> bool {
    (0..SLOTS).any(|slot| {
        let bits = tables.file(slot)[FILE_BITS];
        bits & !(bits >> shift) & 7 != 0
    })
}

fn owner_below_others(tables: &Tables) -> bool {
    is_below_others(tables, 6)
}

fn group_below_others(tables: &Tables) -> bool {
    is_below_others(tables, 3)
}

fn prompt_of(tables: &Tables, length: usize) -> bool {
    rom::prompts(&tables.rom).any(|prompt| prompt.len() == length)
}

fn prompt_open(tables: &Tables) -> bool {
    let mut slots = (0..OPEN_FILES).map(|open_file| tables.open_file(open_file)[OPEN_SLOT]);
    slots.any(|slot| !rom::is_stored(slot as usize))
}

fn link_into_rom(tables: &Tables, kind: u32) -> bool {
    some_link(tables, FOLLOWS, |_, way| {
        way.is_ok_and(|way| !rom::is_stored(way.slot) && rom::is_kind(tables, way.slot, kind))
    })
}

fn rom_elsewhere(tables: &Tables) -> bool {
    let below_root = |node: &tree::Node| node.depth > 1 && node.path.ends_with(b"/rom");
    tree::nodes(tables).iter().any(below_root)
}

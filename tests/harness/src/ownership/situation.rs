//! What the first claim is about, and what it supposes.

use mritvelja::layout::*;
use mritvelja::Tables;

/// A directory foo whose entry names bar, and a user whose processes call. They are slots:
/// a path may come to lead elsewhere.
#[derive(Clone)]
pub struct Situation {
    pub tables: Tables,
    /// A, whose processes call.
    pub user: u32,
    pub foo: usize,
    /// Which entry of foo names bar.
    pub entry: usize,
    pub bar: usize,
}

#[derive(Clone, Copy, Debug, PartialEq, Eq)]
pub enum Supposition {
    UserNotZero,
    BarNotRoot,
    BarDirectory,
    BarNotEmpty,
    BarOfAnother,
    NoWriteOfGroup,
    NoWriteOfOthers,
    /// Of the calls, and so of no table.
    NoOtherCaller,
}

use Supposition::*;

/// Each, and what holds where it is left out.
pub const SUPPOSITIONS: [(Supposition, &str); 8] = [
    (UserNotZero, "A is user 0"),
    (BarNotRoot, "bar is slot 0: the entry is empty"),
    (BarDirectory, "bar is a plain file"),
    (BarNotEmpty, "bar is empty"),
    (BarOfAnother, "bar is A's"),
    (NoWriteOfGroup, "A may write bar by the bits of its group"),
    (NoWriteOfOthers, "A may write bar by the bits of others"),
    (NoOtherCaller, "processes of other users call too"),
];

/// How far the bits of the class lie that judges a process at a file.
pub const OWNER: u32 = 6;
pub const GROUP: u32 = 3;
pub const OTHERS: u32 = 0;

impl Situation {
    /// What the claim supposes of the tables and does not hold.
    pub fn failing(&self) -> Vec<Supposition> {
        let tables = &self.tables;
        let bar = tables.file(self.bar);
        let writes = |class| self.judged_by(class) && bar[FILE_BITS] >> class & WRITE != 0;
        let holds = [
            (UserNotZero, self.user != 0),
            (BarNotRoot, self.bar != ROOT),
            (BarDirectory, bar[FILE_KIND] == DIRECTORY),
            (BarNotEmpty, bar[FILE_LENGTH] != 0),
            (BarOfAnother, bar[FILE_OWNER] != self.user && !writes(OWNER)),
            (NoWriteOfGroup, !writes(GROUP)),
            (NoWriteOfOthers, !writes(OTHERS)),
        ];
        let failing = holds.into_iter().filter(|&(_, holds)| !holds);
        failing.map(|(supposition, _)| supposition).collect()
    }

    /// Whether foo is a directory whose entry names bar: without it there is nothing to claim.
    pub fn is_placed(&self) -> bool {
        let tables = &self.tables;
        tables.is_kind(self.foo, DIRECTORY) && tables.dirent_slot(self.foo, self.entry) == self.bar
    }

    /// Whether the class judges one of A's processes at bar.
    pub fn judged_by(&self, class: u32) -> bool {
        processes_of(&self.tables, self.user)
            .any(|process| class_at(&self.tables, process, self.bar) == class)
    }
}

/// The processes in use of a user.
pub fn processes_of(tables: &Tables, user: u32) -> impl Iterator<Item = usize> + '_ {
    let processes = tables.processes_in_use();
    processes.filter(move |&process| tables.process(process)[PROCESS_USER] == user)
}

/// The one class whose bits judge a process at a file: its owner, else its group, else others.
fn class_at(tables: &Tables, process: usize, slot: usize) -> u32 {
    let (who, file) = (tables.process(process), tables.file(slot));
    if who[PROCESS_USER] == file[FILE_OWNER] {
        OWNER
    } else if who[PROCESS_GROUP] == file[FILE_GROUP] {
        GROUP
    } else {
        OTHERS
    }
}

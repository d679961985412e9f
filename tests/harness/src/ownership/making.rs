//! Situations by chance.

use super::situation::Supposition::*;
use super::situation::*;
use crate::chance::Chance;
use crate::generate::random_store;
use mritvelja::layout::*;
use mritvelja::Tables;

const USERS: [u32; 5] = [10, 20, 30, 65_535, 0];
const GROUPS: [u32; 4] = [1, 0, 10, 65_535];
/// A group that no process has.
const NOBODYS: u32 = 77;
/// What a class of bits may do: mostly search, and write where it may.
const RIGHTS: [u32; 6] = [7, 7, 7, 5, 3, 6];

impl Situation {
    /// One in a store by chance, if that has a place for it. The supposition that is left
    /// out does not hold in it, and all others do.
    pub fn random(chance: &mut Chance, left_out: Option<Supposition>) -> Option<Situation> {
        let tables = random_store(chance);
        let (foo, entry) = place(chance, &tables, left_out)?;
        let bar = tables.dirent_slot(foo, entry);
        let user = match left_out {
            Some(UserNotZero) => 0,
            _ => chance.pick(&USERS[..4]),
        };
        let mut situation = Situation {
            tables,
            user,
            foo,
            entry,
            bar,
        };
        situation.cast(chance);
        situation.own(chance, left_out);
        situation.shut(chance, left_out);
        Some(situation)
    }

    /// Makes one process A's, and most others.
    fn cast(&mut self, chance: &mut Chance) {
        let used: Vec<usize> = self.tables.processes_in_use().collect();
        let one = chance.pick(&used);
        for process in used {
            let user = match process == one || chance.percent(70) {
                true => self.user,
                false => self.another(chance),
            };
            let record = self.tables.process_mut(process);
            record[PROCESS_USER] = user;
            record[PROCESS_GROUP] = chance.pick(&GROUPS);
        }
    }

    /// Gives bar to whom it must belong, and foo often to A.
    fn own(&mut self, chance: &mut Chance, left_out: Option<Supposition>) {
        if chance.percent(60) {
            self.tables.file_mut(self.foo)[FILE_OWNER] = self.user;
            self.tables.file_mut(self.foo)[FILE_BITS] = 0o777;
        }
        let one = processes_of(&self.tables, self.user).next();
        let group = one.map_or(0, |process| self.tables.process(process)[PROCESS_GROUP]);
        let owner = self.stranger(chance);
        let bar = self.tables.file_mut(self.bar);
        bar[FILE_OWNER] = match left_out {
            Some(BarOfAnother) => self.user,
            _ => owner,
        };
        bar[FILE_GROUP] = match left_out {
            Some(NoWriteOfGroup) => group,
            Some(NoWriteOfOthers) => NOBODYS,
            _ => chance.pick(&GROUPS),
        };
    }

    fn another(&self, chance: &mut Chance) -> u32 {
        let others = USERS.map(|other| if other == self.user { 40 } else { other });
        chance.pick(&others)
    }

    /// Another user, often one with a process.
    fn stranger(&self, chance: &mut Chance) -> u32 {
        let users = self.tables.processes_in_use();
        let users = users.map(|process| self.tables.process(process)[PROCESS_USER]);
        let strangers: Vec<u32> = users.filter(|&user| user != self.user).collect();
        if strangers.is_empty() || chance.one_in(3) {
            return self.another(chance);
        }
        chance.pick(&strangers)
    }

    /// Gives bar bits by which A has no write right, but by the class that is left out.
    fn shut(&mut self, chance: &mut Chance, left_out: Option<Supposition>) {
        let mut bits = 0;
        for class in [OWNER, GROUP, OTHERS] {
            let left_out = matches!(
                (class, left_out),
                (GROUP, Some(NoWriteOfGroup)) | (OTHERS, Some(NoWriteOfOthers))
            );
            let rights = chance.pick(&RIGHTS);
            let shut = match self.judged_by(class) {
                _ if left_out => 7,
                true => rights & !WRITE,
                false => rights,
            };
            bits |= shut << class;
        }
        self.tables.file_mut(self.bar)[FILE_BITS] = bits;
    }
}

/// A directory and its entry that can name bar.
fn place(
    chance: &mut Chance,
    tables: &Tables,
    left_out: Option<Supposition>,
) -> Option<(usize, usize)> {
    let fits = |place: usize| {
        let (foo, entry) = (place / DIRENTS, place % DIRENTS);
        if !tables.is_kind(foo, DIRECTORY) {
            return false;
        }
        let bar = tables.dirent_slot(foo, entry);
        let is_empty = tables.file(bar)[FILE_LENGTH] == 0;
        match left_out {
            Some(BarNotRoot) => bar == ROOT && foo != ROOT && !is_empty,
            Some(BarDirectory) => tables.is_kind(bar, PLAIN) && !is_empty,
            _ => {
                let empty = left_out == Some(BarNotEmpty);
                bar != ROOT && tables.is_kind(bar, DIRECTORY) && is_empty == empty
            }
        }
    };
    let place = chance.pick_where(SLOTS * DIRENTS, fits)?;
    Some((place / DIRENTS, place % DIRENTS))
}

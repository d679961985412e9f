//! What the first claim says stays.

use super::situation::Situation;
use mritvelja::layout::*;
use mritvelja::Tables;

pub struct Kept {
    foo_kind: u32,
    foo_owner: u32,
    bar_record: [u32; FILE_WIDTH],
    bar_block: [u8; BLOCK],
}

impl Kept {
    pub fn of(situation: &Situation) -> Kept {
        let Situation {
            tables, foo, bar, ..
        } = situation;
        Kept {
            foo_kind: tables.file(*foo)[FILE_KIND],
            foo_owner: tables.file(*foo)[FILE_OWNER],
            bar_record: *tables.file(*bar),
            bar_block: *tables.block(*bar),
        }
    }

    /// What has changed, if anything has.
    pub fn changed(&self, situation: &Situation, tables: &Tables) -> Option<&'static str> {
        let &Situation {
            foo, entry, bar, ..
        } = situation;
        let stays = [
            ("foo's kind", tables.file(foo)[FILE_KIND] == self.foo_kind),
            (
                "foo's owner",
                tables.file(foo)[FILE_OWNER] == self.foo_owner,
            ),
            (
                "what foo's entry names",
                tables.dirent_slot(foo, entry) == bar,
            ),
            ("bar's record", *tables.file(bar) == self.bar_record),
            ("bar's bytes", *tables.block(bar) == self.bar_block),
        ];
        let changed = stays.into_iter().find(|&(_, stays)| !stays);
        changed.map(|(what, _)| what)
    }
}

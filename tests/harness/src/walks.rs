//! What calls did with symbolic links: shows that the calls by chance get there.

use crate::call::Call;
use crate::tree;
use mritvelja::calls::READLINK;
use mritvelja::layout::FOLLOWS;
use mritvelja::{refusals, Answer, Tables};

#[derive(Default)]
pub struct Walks {
    /// Granted calls by the links that their walk followed.
    granted: [u64; FOLLOWS + 1],
    /// Refusal 15 with the number of a name, and without.
    at_name: u64,
    for_depth: u64,
    texts_read: u64,
}

impl Walks {
    /// Counts a call by its answer and the store that it met.
    pub fn count(&mut self, tables: &Tables, call: &Call, answer: &Answer) {
        match (answer.refusal, answer.stop) {
            (refusals::GRANTED, _) => self.count_granted(tables, call),
            (refusals::TOO_DEEP, 0) => self.for_depth += 1,
            (refusals::TOO_DEEP, _) => self.at_name += 1,
            _ => {}
        }
    }

    fn count_granted(&mut self, tables: &Tables, call: &Call) {
        self.texts_read += u64::from(call.call == READLINK);
        let way = call.followed().map(|path| tree::way(tables, path, FOLLOWS));
        if let Some(Ok(way)) = way {
            self.granted[way.follows] += 1;
        }
    }

    /// How often each was met, by its name.
    pub fn counts(&self) -> Vec<(String, u64)> {
        let granted = self.granted.iter().enumerate().skip(1);
        let through =
            granted.map(|(follows, &count)| (format!("granted, links followed: {follows}"), count));
        let others = [
            ("granted: the text of a link", self.texts_read),
            ("refused: a ninth link, at a name", self.at_name),
            ("refused: a directory 9 names deep", self.for_depth),
        ];
        let others = others.map(|(name, count)| (name.to_string(), count));
        through.chain(others).collect()
    }

    pub fn print(&self) {
        println!("\ncalls that met symbolic links");
        for (name, count) in self.counts() {
            println!("{count:>7}  {name}");
        }
    }
}

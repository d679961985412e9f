//! Stores and calls by chance for `crates/recorded`, in its records. The second program carries the calls out, so that
//! later ones fit the store.

// The harness links the proved store, which this program does without: it takes the generator's files alone.
#[allow(dead_code)]
#[path = "../../../harness/src/action.rs"]
mod action;
#[allow(dead_code)]
#[path = "../../../harness/src/building.rs"]
mod building;
#[allow(dead_code)]
#[path = "../../../harness/src/call.rs"]
mod call;
#[allow(dead_code)]
#[path = "../../../harness/src/chance.rs"]
mod chance;
#[allow(dead_code)]
#[path = "../../../harness/src/defects/mod.rs"]
mod defects;
#[allow(dead_code)]
#[path = "../../../harness/src/generate/mod.rs"]
mod generate;
#[allow(dead_code)]
#[path = "../../../harness/src/held.rs"]
mod held;
#[allow(dead_code)]
#[path = "../../../harness/src/rom.rs"]
mod rom;
#[allow(dead_code)]
#[path = "../../../harness/src/sizes.rs"]
mod sizes;
#[allow(dead_code)]
#[path = "../../../harness/src/tree.rs"]
mod tree;

use std::io::Write;

use action::{Action, Borrow};
use call::Call;
use chance::Chance;
use generate::{random_store, CallMaker};
use mritvelja::calls::{parts, Field};
use mritvelja::Tables;
use reference::Request;
use stored::records::{self, BUFFER, ROM_ROOM, ROOM};
use stored::tables::{self, zero, SIZES};

const SEED: u64 = 20_267;
const STORES: usize = 60;
const CALLS: usize = 89;
/// How many bytes but 0 the contents and the factory part of a short store have.
const SHORT: usize = 2_500;
/// One call in so many is made on a store that is not sound.
const UNSOUND: usize = 40;

/// The tables as `crates/recorded` holds them.
fn held(tables: &Tables, before: &Tables) -> Tables {
    Tables {
        files: over(&tables.files, &before.files),
        contents: over(&tables.contents, &before.contents),
        open_files: over(&tables.open_files, &before.open_files),
        processes: over(&tables.processes, &before.processes),
        policy: over(&tables.policy, &before.policy),
        rom: tables.rom.clone(),
    }
}

/// A table in its room: what is past its size stays.
fn over<T: Clone>(table: &[T], before: &[T]) -> Vec<T> {
    let mut held = before.to_vec();
    held[..table.len()].clone_from_slice(table);
    held
}

fn sizes_of(tables: &Tables) -> [usize; 5] {
    [
        tables.files.len(),
        tables.contents.len(),
        tables.open_files.len(),
        tables.processes.len(),
        tables.policy.len(),
    ]
}

fn fits(tables: &Tables) -> bool {
    let mut sizes = sizes_of(tables).into_iter().zip(ROOM);
    sizes.all(|(size, room)| size <= room) && tables.rom.len() <= ROM_ROOM
}

/// The tables with a defect, or of another size; none where the choice does not fit.
fn spoiled(tables: &Tables, chance: &mut Chance) -> Option<Tables> {
    let mut spoiled = tables.clone();
    if chance.one_in(4) {
        sizes::resize(&mut spoiled, chance);
    } else {
        let defects = defects::all();
        let number = chance.below(defects.len());
        (defects[number].make)(&mut spoiled, chance)?;
    }
    fits(&spoiled).then_some(spoiled)
}

/// A store whose tables are short to write down; one in six may be of any length.
fn store(chance: &mut Chance, number: usize) -> Tables {
    loop {
        let tables = random_store(chance);
        let bytes = tables.contents.iter().chain(&tables.rom);
        let length = bytes.filter(|&&byte| byte != 0).count();
        if length < SHORT || number.is_multiple_of(6) {
            return tables;
        }
    }
}

struct Writer {
    out: Vec<u8>,
    held: Tables,
    sizes: [usize; 5],
}

impl Writer {
    fn clear(&mut self) {
        self.out.extend(records::clear());
        self.held = zero(ROOM);
        self.sizes = SIZES;
    }

    /// The records that make the tables these.
    fn tables(&mut self, tables: &Tables) {
        let held = held(tables, &self.held);
        self.out.extend(records::changes(&self.held, &held));
        self.held = held;
        if self.sizes != sizes_of(tables) {
            self.sizes = sizes_of(tables);
            self.out.extend(records::sizes(self.sizes));
        }
    }

    fn action(&mut self, action: &Action) {
        match action {
            Action::Call(call) => self.call(call),
            Action::Borrow(borrow) => self.borrow(borrow),
        }
    }

    fn borrow(&mut self, borrow: &Borrow) {
        let record = records::borrow(borrow.process, borrow.descriptor, borrow.count);
        self.out.extend(record);
    }

    fn call(&mut self, call: &Call) {
        let numbers = [call.process, call.call, call.descriptor];
        let buffer = call.buffer.len();
        self.out.extend(records::call(
            numbers,
            call.number,
            &call.path,
            &call.data,
            buffer,
        ));
    }
}

fn make(tables: &mut Tables, action: &Action) {
    match action {
        Action::Call(call) => make_call(tables, call),
        Action::Borrow(borrow) => {
            tables::borrow(tables, borrow.process, borrow.descriptor, borrow.count);
        }
    }
}

fn make_call(tables: &mut Tables, call: &Call) {
    let request = Request {
        process: call.process,
        call: call.call,
        descriptor: call.descriptor,
        number: call.number,
    };
    let mut buffer = call.buffer.clone();
    tables::call(tables, request, &call.path, &call.data, &mut buffer);
}

/// The action with less of what a call does not look at.
fn short(mut action: Action) -> Action {
    if let Action::Call(call) = &mut action {
        let parts = parts(call.call.into()).unwrap_or_default();
        if !parts.iter().any(|part| part.field() == Field::Data) {
            call.data.truncate(4);
        }
    }
    action
}

/// Whether a call can be written down, with a buffer that `crates/recorded` has.
fn writable(action: &Action) -> bool {
    match action {
        Action::Call(call) => {
            call.path.len() < 256 && call.data.len() < 4096 && call.buffer.len() <= BUFFER
        }
        Action::Borrow(_) => true,
    }
}

fn run_store(writer: &mut Writer, chance: &mut Chance, number: usize) {
    let mut tables = store(chance, number);
    writer.clear();
    writer.tables(&tables);
    let mut maker = CallMaker::new(&tables);
    for _ in 0..CALLS {
        let action = short(maker.action(chance, &tables));
        if !writable(&action) {
            continue;
        }
        if chance.one_in(UNSOUND) {
            if let Some(spoiled) = spoiled(&tables, chance) {
                writer.tables(&spoiled);
                writer.action(&action);
                writer.tables(&tables);
            }
            continue;
        }
        writer.action(&action);
        make(&mut tables, &action);
        writer.held = held(&tables, &writer.held);
        if action.changes_names() {
            maker.refresh(&tables);
        }
    }
}

fn main() -> std::io::Result<()> {
    let mut writer = Writer {
        out: Vec::new(),
        held: zero(ROOM),
        sizes: SIZES,
    };
    let mut chance = Chance::new(SEED);
    for number in 0..STORES {
        run_store(&mut writer, &mut chance, number);
    }
    std::io::stdout().lock().write_all(&writer.out)
}

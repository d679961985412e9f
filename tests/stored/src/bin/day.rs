//! Runs a script on the test console (docs/scripts.md), by the second program:
//! the answers, then how far the run came.

use std::io::{Read, Write};

use mritvelja::test_console;

/// As much as `crates/day` has.
const ROOM: usize = 65_536;

fn main() -> std::io::Result<()> {
    let mut script = Vec::new();
    std::io::stdin().read_to_end(&mut script)?;
    let mut tables = test_console();
    let mut output = vec![0; ROOM];
    let run = reference::replay(
        &mut tables.files,
        &mut tables.contents,
        &mut tables.open_files,
        &mut tables.processes,
        &tables.policy,
        &tables.rom,
        &script,
        u32::MAX,
        &mut output,
    );
    let mut out = std::io::stdout().lock();
    out.write_all(&output[..run.written])?;
    let reason = run.reason.number();
    writeln!(out, "calls={} next={} reason={reason}", run.calls, run.next)
}

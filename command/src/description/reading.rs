//! Reads a description, and names the line that is wrong.

use super::building::Building;
use super::line::Line;
use super::{files, policy, processes, FIRST_LINE, FORMER_FIRST_LINE};
use crate::text;
use mritvelja::Tables;

type Add = fn(&mut Building, &mut Line) -> Result<(), String>;

/// Many times what a line needs: one that is longer is not looked into.
const LONGEST_LINE: usize = 65_536;

/// What a line may begin with.
const KINDS: [(&str, Add); 11] = [
    ("process", processes::process),
    ("rights", policy::rights),
    ("transition", policy::transition),
    ("directory", files::directory),
    ("file", files::file),
    ("link", files::link),
    ("symlink", files::symlink),
    ("unnamed", files::unnamed),
    ("free", files::free),
    ("open", processes::open),
    ("descriptor", processes::descriptor),
];

/// The store that a description is of, or what is wrong with it and where.
pub fn read(description: &[u8]) -> Result<Tables, String> {
    let mut lines = description.split(|&byte| byte == b'\n');
    match lines.next() {
        Some(line) if line == FIRST_LINE.as_bytes() => {}
        Some(line) if line == FORMER_FIRST_LINE.as_bytes() => {
            return Err(format!(
                "line 1 is \"{FORMER_FIRST_LINE}\", a form without groups, not \"{FIRST_LINE}\": \
                 what was bits B is now group 1 bits read,write,execute:B:B, and a process has group 1"
            ))
        }
        _ => return Err(format!("line 1 is not \"{FIRST_LINE}\"")),
    }
    let mut building = Building::new();
    for (line, number) in lines.zip(2..) {
        add(&mut building, number, line).map_err(|why| at(number, &why))?;
    }
    building.finish().map_err(|(number, why)| at(number, why))
}

fn at(number: usize, why: &str) -> String {
    format!("line {number}: {why}")
}

fn add(building: &mut Building, number: usize, bytes: &[u8]) -> Result<(), String> {
    if bytes.len() > LONGEST_LINE {
        return Err(format!("it has more than {LONGEST_LINE} bytes"));
    }
    let Some(mut line) = Line::parse(number, bytes)? else {
        return Ok(());
    };
    let known = KINDS.iter().find(|(kind, _)| kind.as_bytes() == line.kind);
    let (_, add) = known.ok_or_else(|| {
        let kinds = KINDS.map(|(kind, _)| kind).join(", ");
        format!("{} is none of {kinds}", text::readable(&line.kind))
    })?;
    add(building, &mut line)?;
    line.finish()
}

//! `new`: a store file of the test console, of nothing, or of a description.

use crate::arguments::{Contents, Input};
use crate::check;
use crate::description;
use crate::failure::Failure;
use crate::held::{self, Warning};
use crate::input;
use mritvelja::{test_console, Tables};
use std::path::Path;

pub fn new(store: &Path, contents: &Contents) -> Result<Warning, Failure> {
    let tables = match contents {
        Contents::TestConsole => test_console(),
        Contents::Empty => Tables::empty(),
        Contents::Description(input) => described(input)?,
    };
    held::create(store, &tables)
}

fn described(input: &Input) -> Result<Tables, Failure> {
    let refused = |why| input::refused(input, why);
    let tables = description::read(&input::read(input)?).map_err(refused)?;
    // Each line was found right; the verdict on all of them is the proved store's.
    match check::defect(&tables)? {
        None => Ok(tables),
        Some(defect) => Err(refused(defect.to_string())),
    }
}

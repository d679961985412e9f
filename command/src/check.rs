//! `check`: the verdict is the proved store's; the diagnosis says where and why.

use crate::arguments::{Form, Store};
use crate::diagnosis::{self, Defect};
use crate::failure::Failure;
use crate::held;
use crate::json::Json;
use crate::output;
use mritvelja::Tables;
use std::path::Path;

/// Says whether a store is sound, and answers that.
pub fn check(store: &Store, form: Form) -> Result<bool, Failure> {
    let defect = defect(&held::read(store)?)?;
    let is_sound = defect.is_none();
    match (form, defect) {
        (Form::Text, None) => output::print_line("sound")?,
        (Form::Text, Some(defect)) => output::print_line(defect)?,
        (Form::Json, defect) => output::print_line(verdict(defect))?,
    }
    Ok(is_sound)
}

fn verdict(defect: Option<Defect>) -> Json {
    let mut fields = vec![("sound", defect.is_none().into())];
    if let Some(Defect { clause, place }) = defect {
        fields.push(("clause", clause.into()));
        fields.push(("where", place.into()));
    }
    Json::Object(fields)
}

/// Refuses a store that is not sound.
pub fn require_sound(store: &Path, tables: &Tables) -> Result<(), Failure> {
    match defect(tables)? {
        None => Ok(()),
        Some(defect) => Err(Failure::of(store, defect.to_string())),
    }
}

/// What is wrong with a store, nothing if it is sound.
pub fn defect(tables: &Tables) -> Result<Option<Defect>, Failure> {
    agreed(mritvelja::sound(tables), diagnosis::first_defect(tables))
}

/// The verdict, which the diagnosis must not contradict.
fn agreed(is_sound: bool, defect: Option<Defect>) -> Result<Option<Defect>, Failure> {
    match (is_sound, defect) {
        (true, None) => Ok(None),
        (false, Some(defect)) => Ok(Some(defect)),
        (true, Some(defect)) => Err(Failure::new(
            "internal error",
            format!("the store is sound, but the diagnosis says: {defect}"),
        )),
        (false, None) => Err(Failure::new(
            "internal error",
            "the store is not sound, but the diagnosis finds nothing wrong",
        )),
    }
}

#[cfg(test)]
mod tests {
    use super::*;
    use mritvelja::layout::{FILE_KIND, FREE, ROOT};

    #[test]
    fn a_diagnosis_that_contradicts_the_verdict_is_an_internal_error() {
        let mut tables = Tables::empty();
        tables.file_mut(ROOT)[FILE_KIND] = FREE;
        let some_defect = || diagnosis::first_defect(&tables);
        assert_eq!(agreed(true, None).unwrap(), None);
        assert_eq!(agreed(false, some_defect()).unwrap(), some_defect());
        for contradiction in [agreed(false, None), agreed(true, some_defect())] {
            let said = contradiction.unwrap_err().to_string();
            assert!(said.starts_with("internal error: "), "{said}");
        }
    }
}

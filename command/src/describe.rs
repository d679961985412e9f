//! `describe`: a sound store as text from which it can be made again.

use crate::arguments::{Form, Store};
use crate::check;
use crate::description;
use crate::failure::Failure;
use crate::held;
use crate::output;
use crate::store_json::{self, Detail};

pub fn describe(store: &Store, form: Form) -> Result<(), Failure> {
    let tables = held::read(store)?;
    check::require_sound(&store.path, &tables)?;
    match form {
        Form::Text => output::print(description::write(&tables).as_bytes()),
        Form::Json => output::print_line(store_json::store(&tables, Detail::Whole)),
    }
}

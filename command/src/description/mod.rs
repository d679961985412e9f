//! A whole store as text, one line a thing, for people and for version control
//! (`docs/description.md`): what `describe` writes and `new --from` reads.
//!
//! Of a sound store nothing is lost: what is read from its description is that store.

mod building;
mod files;
mod line;
mod policy;
mod processes;
mod reading;
mod words;
mod writing;

#[cfg(test)]
mod tests;
#[cfg(test)]
mod wrong_lines;

pub use reading::read;
pub use writing::write;

/// The first line of every description: what it is, and the version of this form.
const FIRST_LINE: &str = "mritvelja description 2";
/// That of a description before files and processes had groups.
const FORMER_FIRST_LINE: &str = "mritvelja description 1";

/// The slot or directory entry of a line that names none: the lowest that no line
/// before it has. What is written and what is read go by this rule.
fn lowest_free(numbers: usize, is_taken: impl Fn(usize) -> bool) -> Option<usize> {
    (0..numbers).find(|&number| !is_taken(number))
}

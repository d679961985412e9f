//! Whose directory it is, and where descriptors come from: R-9's two claims, looked at
//! after each call on both programs, and runs that leave a supposition out.

// foo and bar are the paper's names.
#![allow(clippy::disallowed_names)]

mod aim;
pub mod compare;
mod kept;
mod ledger;
mod making;
mod run;
mod situation;
mod tally;

#[cfg(test)]
mod tests;

//! The proved file store from Rust.
//!
//! A store is [`Tables`], which the caller owns and lends to each call:
//!
//! - [`call`] makes one call, of tables and a policy that it first finds sound;
//! - [`act`] makes the same call without that test;
//! - [`sound`] is the test alone;
//! - [`replay`] runs a script of calls;
//! - [`borrow_read`] reads without a copy: it gives a part of the contents or of the
//!   factory part.
//!
//! They are the functions of `include/mritvelja.h`, which are proved to do what
//! the rules say for all inputs. Here only the crossing is added: what C leaves
//! to its callers, that nothing lent overlaps and every length is right, the
//! borrows see to. `docs/using.md` has the calls, the answers and an example.
//!
//! Without the default feature `library` the functions are left out, and no archive
//! is linked: for programs that only make or read tables.

#![warn(missing_docs)]

mod answer;
#[cfg(feature = "library")]
mod boundary;
pub mod calls;
pub mod layout;
mod numbers;
mod replayed;
mod request;
mod tables;
mod test_console;

pub use answer::Answer;
#[cfg(feature = "library")]
pub use boundary::{act, borrow_read, call, replay, sound};
pub use numbers::{memories, modes, reasons, refusals};
pub use replayed::Replayed;
pub use request::Request;
pub use tables::Tables;
pub use test_console::test_console;

/// The examples of that page are tests of this package.
#[cfg(all(doctest, feature = "library"))]
#[doc = include_str!("../../docs/using.md")]
struct Examples;

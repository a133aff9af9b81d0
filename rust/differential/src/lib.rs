//! The proved library, through the crate `cresttrestle`, beside the oracle (mace's Rust and the model of document 01): the same random
//! or edge case is put to both, and every answer and every byte of the arena must be equal. A difference is shrunk to a small
//! script in the language of tests/vectors.
//!
//! - `case` is a case as data, `make` draws cases, `edges` are those worth running every time;
//! - `ours` and `theirs` answer one question each, `lists` picks rows from the lists that pages were made from, `run` puts a case to both;
//! - `shrink` makes a differing case small, `script` writes and reads cases as text;
//! - `guard` lends memory between guard pages, so that a byte read outside stops the library, and `stops` sees to that case.

pub mod case;
pub mod edges;
pub mod guard;
mod lists;
pub mod make;
mod ours;
pub mod run;
mod said;
pub mod script;
pub mod shrink;
pub mod stops;
mod theirs;

pub use ours::Fault;

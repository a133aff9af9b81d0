//! Pages of versioned rows, built, merged, searched and walked in an arena that the caller lends.
//!
//! This crate is the safe face of a library in which every function is proved to meet its contract. It has no dependency, needs no
//! `std` and allocates nothing (feature `alloc` adds lists and keys that own their bytes). Every call ends on every input, damaged
//! bytes included, and answers or is refused with a [`Refusal`]; a refusal changes nothing.
//!
//! Build a page of a list, look a row up, also as it was at an older version, walk it:
//!
//! ```
//! use cresttrestle::{Arena, Bounds, Build, RowList, Ver};
//!
//! // a list: keys rising, the newest version of a key first
//! let mut list_bytes = [0; 256];
//! let mut list = RowList::lent(&mut list_bytes)?;
//! list.push(b"7 -29.5", Ver::new(9, 0), b"-1733 cm")?;
//! list.push(b"7 -30.0", Ver::new(12, 0), b"-1840 cm")?;
//! list.push(b"7 -30.0", Ver::new(9, 0), b"-1790 cm")?;
//!
//! let mut bytes = [0; 1024];
//! let mut arena = Arena::new(&mut bytes);
//! let leaf = arena.new_leaf(list.bytes(), Bounds::default(), Build::default())?;
//!
//! let page = arena.page(leaf);
//! let found = page.search(b"7 -30.0")?.expect("a row");
//! assert_eq!(found.value, b"-1840 cm");
//! let last_season = page.as_of(b"7 -30.0", Ver::of_txid(10))?.expect("a row that old");
//! assert_eq!((last_season.ver.txid, last_season.value), (9, &b"-1790 cm"[..]));
//! for row in page.walk(..)?.rows() {
//!     let row = row?;
//!     println!("{:?} {}: {}", row.key, row.ver.txid, row.value.escape_ascii());
//! }
//! # Ok::<(), Box<dyn std::error::Error>>(())
//! ```
#![no_std]
#![warn(missing_docs)]
#![deny(unsafe_code)]

#[cfg(feature = "alloc")]
extern crate alloc;

mod arena;
mod delta;
#[allow(unsafe_code)] // the one place that calls the library
mod ffi;
mod list;
mod names;
mod page;
mod refusal;
#[allow(unsafe_code)] // declarations only
#[doc(hidden)] // for this repository's own tests and timings; programs have the safe calls
pub mod sys;
mod walk;

pub use arena::{Arena, Bounds, Build, calc_prefix};
pub use delta::{Delta, Laid};
pub use list::{IndexList, Lent, ListFull, Room, RowList};
pub use names::{Addr, PageId, Ver};
pub use page::{AsOf, Bound, Floor, Found, Hints, History, Info, Kind, Page, View};
pub use refusal::Refusal;
pub use walk::{Child, Key, Record, Row, Walk};

//! The oracle: base.rs, sst.rs and delta.rs of abbycin/mace over stand-in types with
//! document 01's layouts, and beside them a model written from document 01 alone.
//!
//! - `upstream` calls the three files directly, unjudged and without overhead;
//! - `judge` gives document 01's numbers of refusal, `image` the bytes of a build,
//!   `model` the answers of every reader on any arena, damaged or not;
//! - `both` asks the two and insists that they agree wherever the Rust may be asked;
//! - `script` is the command language, `vectors` the golden vectors written in it.

/// Upstream's options, of which base.rs takes one number as a capacity.
struct BucketOptions;

impl BucketOptions {
    const MAX_SPLIT_ELEMS: u16 = 512;
}

pub mod answer;
pub mod arena;
pub mod both;
pub mod image;
pub mod judge;
pub mod list;
mod macros;
pub mod model;
pub mod prng;
pub mod sample;
pub mod script;
pub mod text;
mod types;
pub mod upstream;
mod utils;
pub mod vectors;

pub(crate) use macros::{hot_true, must_exist};
pub use types::data::{Key, Val, Ver};
pub use utils::Reads;

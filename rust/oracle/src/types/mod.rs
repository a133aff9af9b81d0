//! The three files of upstream (base, sst, delta) and the stand-ins under them.

// Upstream's other files use more of these three than we do; their text stays as it is.
#[allow(dead_code)]
#[rustfmt::skip]
pub(crate) mod base;
pub(crate) mod data;
#[allow(dead_code)]
#[rustfmt::skip]
pub(crate) mod delta;
pub(crate) mod header;
pub(crate) mod node;
pub(crate) mod refbox;
#[allow(dead_code)]
#[rustfmt::skip]
pub(crate) mod sst;
pub(crate) mod traits;

//! Stand-in for upstream's `Position`: document 01 makes the lsn one u64.
//! `MIN` and `max`, all that the three files ask of it, are the number's own.

pub(crate) type Position = u64;

//! What the two programs share: the pages that are timed, and the clock.

pub mod cases;
pub mod timing;

/// The first eight bytes as a number: what a lookup ends with, for everybody.
#[inline]
pub fn number(bytes: &[u8]) -> u64 {
    u64::from_le_bytes(bytes[..8].try_into().expect("eight bytes"))
}

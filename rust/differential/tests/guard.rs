//! The guard pages hold: one byte read outside a lent slice stops the process, and a child that stops counts as a difference.

use differential::guard::Guarded;
use differential::stops::forked;

/// Reads one byte beside a lent slice.
fn read_outside(at_start: bool, by: isize) -> u8 {
    let mut guarded = Guarded::default();
    let bytes = guarded.lend(b"lent", at_start).as_ptr();
    // SAFETY: none outside the slice: the page is closed, and that is what is tested.
    unsafe { bytes.wrapping_offset(by).read_volatile() }
}

#[test]
fn a_byte_outside_stops_the_process() {
    assert!(
        forked(|| {
            read_outside(true, -1);
            false
        }),
        "before"
    );
    assert!(
        forked(|| {
            read_outside(false, 4);
            false
        }),
        "behind"
    );
    // and inside it does not
    assert!(!forked(|| read_outside(true, 0) != b'l'));
    assert!(!forked(|| read_outside(false, 3) != b't'));
}

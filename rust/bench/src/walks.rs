//! Rows of walks: each reads the page with its history and adds up the lengths of keys and values.

use crate::sheet::Sheet;
use bench::cases::Case;
use cresttrestle::sys::*;

pub fn rows(case: &Case, sheet: &mut Sheet) {
    let (arena, built) = case.leaf();
    let (p, len, addr) = (arena.bytes().as_ptr(), arena.bytes().len(), built.addr);
    let leaf = arena.leaf_page(addr);
    let (n, records) = (case.keys.len(), case.all().len());
    let mut rust =
        |_| leaf.walk(0, n).map(|(k, v)| (k.raw.len() + leaf.value(&v).len()) as u64).sum();
    let mut ours = |_| {
        let mut walk = [0u64; CT_WALK_WORDS];
        // SAFETY: here and below, arenas and words outlive the calls.
        unsafe { ct_forward(p, len, addr, 0, n as u64, walk.as_mut_ptr(), walk.len()) };
        runs(p, len, &mut walk)
    };
    sheet.race(case, "walk", records, &mut ours, &mut rust);
    let mut ours = |_| {
        let mut walk = [0u64; CT_WALK_WORDS];
        unsafe { ct_forward(p, len, addr, 0, n as u64, walk.as_mut_ptr(), walk.len()) };
        steps(p, len, &mut walk)
    };
    sheet.race(case, "walk, step by step", records, &mut ours, &mut rust);
    // The same steps as a Rust user takes them: the iterator of the crate.
    let view = cresttrestle::View::new(arena.bytes()).page(cresttrestle::Addr::new(addr));
    let mut ours = |_| {
        let rows = view.walk(..).expect("a sound page").rows();
        rows.map(|row| row.expect("a sound page"))
            .map(|row| (row.key.rest.len() + row.value.len()) as u64)
            .sum()
    };
    sheet.race(case, "walk, by the crate", records, &mut ours, &mut rust);
    let mut ours = |_| {
        let mut walk = [0u64; CT_WALK_WORDS];
        unsafe { ct_backward(p, len, addr, n as i64 - 1, 0, walk.as_mut_ptr(), walk.len()) };
        runs(p, len, &mut walk)
    };
    let mut rust = |_| {
        leaf.walk_back(n as isize - 1, 0)
            .map(|(k, v)| (k.raw.len() + leaf.value(&v).len()) as u64)
            .sum()
    };
    sheet.race(case, "walk back", records, &mut ours, &mut rust);
}

/// Reads a walk to its end, up to 32 records a call.
fn runs(arena: *const u8, len: usize, walk: &mut [u64; CT_WALK_WORDS]) -> u64 {
    let (mut out, mut sum) = ([0u64; 1 + CT_STEP_WORDS * 32], 0);
    loop {
        // SAFETY: as above.
        let refused = unsafe {
            ct_steps(arena, len, walk.as_mut_ptr(), walk.len(), out.as_mut_ptr(), out.len())
        };
        assert_eq!(refused, 0, "the page is sound");
        if out[0] == 0 {
            return sum;
        }
        sum += out[1..]
            .chunks_exact(CT_STEP_WORDS)
            .take(out[0] as usize)
            .map(|r| r[2] + r[6])
            .sum::<u64>();
    }
}

/// Steps a walk to its end.
fn steps(arena: *const u8, len: usize, walk: &mut [u64; CT_WALK_WORDS]) -> u64 {
    let (mut out, mut sum) = ([0u64; CT_OUT_WORDS], 0);
    loop {
        // SAFETY: as above.
        let refused = unsafe {
            ct_step(arena, len, walk.as_mut_ptr(), walk.len(), out.as_mut_ptr(), out.len())
        };
        assert_eq!(refused, 0, "the page is sound");
        if out[0] == 0 {
            return sum;
        }
        sum += out[2] + out[6];
    }
}

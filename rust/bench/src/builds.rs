//! Rows of the calls that build a page, by the bytes that both sides leave, and of the check. The Rust has its entries at hand and judges
//! nothing; ours reads a list or two pages, judges them, then writes.

use crate::sheet::Sheet;
use bench::cases::{ALL_REMOTE, BOUNDS, BUDGET, Case, LIMIT, Neighbours, STAMP};
use cresttrestle::sys::*;
use oracle::arena::Arena;

const NONE: &[u8] = &[];
/// The budget as the C calls take it.
const HISTORY: u64 = BUDGET as u64;

pub fn rows(case: &Case, sheet: &mut Sheet) {
    leaves(case, sheet, LIMIT, ["build", "merge"]);
    leaves(case, sheet, ALL_REMOTE, ["build, every value remote", "merge, every value remote"]);
    let (list, children) = (case.index_list(), case.children(0..case.keys.len()));
    race(
        case,
        sheet,
        ("index build", children.len()),
        case.empty(),
        |arena| new_intl(arena, &list),
        |arena| arena.build_index(8, &STAMP, &BOUNDS, &children).next,
    );
    merge(case, sheet, ("index merge", children.len()), LIMIT, case.indexes());

    // mace has no check; the judge's own (rust/oracle/src/model.rs) stands beside ours.
    let (arena, built) = case.leaf();
    let (bytes, addr) = (arena.bytes(), built.addr);
    // SAFETY: here and below, arenas, lists and words outlive the calls.
    let mut ours = |_| unsafe { ct_check(bytes.as_ptr(), bytes.len(), addr) as u64 };
    let mut rust = |_| oracle::model::check(bytes, addr).is_err() as u64;
    sheet.race(case, "check", case.all().len(), &mut ours, &mut rust);
}

/// A leaf of every row, and the leaves of both halves merged.
fn leaves(case: &Case, sheet: &mut Sheet, limit: usize, [build, join]: [&'static str; 2]) {
    let (list, entries) = (case.list(), case.all());
    race(
        case,
        sheet,
        (build, entries.len()),
        case.empty(),
        |arena| new_leaf(arena, &list, limit),
        |arena| arena.build_leaf(8, limit, BUDGET, &STAMP, &BOUNDS, &entries).next,
    );
    merge(case, sheet, (join, entries.len()), limit, case.leaves(limit));
}

fn merge(
    case: &Case,
    sheet: &mut Sheet,
    row: (&'static str, usize),
    limit: usize,
    (arena, left, right): Neighbours,
) {
    let (room, left, right) = (right.next, left.addr, right.addr);
    race(
        case,
        sheet,
        row,
        arena,
        |arena| merged(arena, room, [left, right], limit),
        |arena| arena.merge(room, limit, BUDGET, &STAMP, left, right).next,
    );
}

/// A row, by its name and the records of a round: both build in an arena of their own, and in the end every byte must be the same.
fn race(
    case: &Case,
    sheet: &mut Sheet,
    (call, records): (&'static str, usize),
    arena: Arena,
    ours: impl Fn(&mut Arena) -> u64,
    rust: impl Fn(&mut Arena) -> u64,
) {
    let (mut mine, mut theirs) = (arena.clone(), arena);
    sheet.race(case, call, records, &mut |_| ours(&mut mine), &mut |_| rust(&mut theirs));
    assert!(mine.bytes() == theirs.bytes(), "{call}: the bytes differ");
}

/// `ct_new_leaf` at address 8 without boundaries.
fn new_leaf(arena: &mut Arena, list: &[u8], limit: usize) -> u64 {
    let (p, n, no, limit) = (list.as_ptr(), list.len(), NONE.as_ptr(), limit as u64);
    next(arena, |at, len, out| unsafe {
        ct_new_leaf(at, len, 8, p, n, no, 0, no, 0, 0, limit, HISTORY, 0, 1, 0, 0, out, 2)
    })
}

/// `ct_new_intl`, likewise.
fn new_intl(arena: &mut Arena, list: &[u8]) -> u64 {
    let (p, n, no) = (list.as_ptr(), list.len(), NONE.as_ptr());
    next(arena, |at, len, out| unsafe {
        ct_new_intl(at, len, 8, p, n, no, 0, no, 0, 0, 0, 1, 0, 0, out, 2)
    })
}

/// `ct_merge` of two pages into the room at an address.
fn merged(arena: &mut Arena, room: u64, [left, right]: [u64; 2], limit: usize) -> u64 {
    next(arena, |at, len, out| unsafe {
        ct_merge(at, len, room, left, right, limit as u64, HISTORY, 0, 1, 0, 0, out, 2)
    })
}

/// The next free address that a building call answers, given the arena's bytes and two words.
fn next(arena: &mut Arena, call: impl FnOnce(*mut u8, usize, *mut u64) -> u32) -> u64 {
    let (mut out, bytes) = ([0u64; 2], arena.bytes_mut());
    let refused = call(bytes.as_mut_ptr(), bytes.len(), out.as_mut_ptr());
    assert_eq!(refused, 0, "the list and the pages are good, the arena large");
    out[1]
}

//! The calls of include/cresttrestle.h as safe functions: slices in, words or a refusal out. All unsafe code of this crate is here, over
//! the declarations in sys.rs. What each word holds is said in the header. Every call ends on every input and touches only what it is lent, so a live slice is
//! all that safety asks for.

use crate::refusal::Refusal;
use crate::sys::*;

#[cfg(not(target_pointer_width = "64"))]
compile_error!("the library is built for hosts with 64-bit addresses");

type Words<const N: usize> = Result<[u64; N], Refusal>;

/// The words that a call wrote, or why it was refused.
#[inline]
fn words<const N: usize>(call: impl FnOnce(*mut u64, usize) -> u32) -> Words<N> {
    let mut out = [0; N];
    Refusal::judged(call(out.as_mut_ptr(), N))?;
    Ok(out)
}

// SAFETY, for every block below: each pointer and length is one live slice of this call, mutable ones lent alone.

pub(crate) fn calc_prefix(lo: &[u8], hi: &[u8]) -> Words<1> {
    words(|out, n| unsafe { ct_calc_prefix(lo.as_ptr(), lo.len(), hi.as_ptr(), hi.len(), out, n) })
}

#[allow(clippy::too_many_arguments)]
pub(crate) fn new_leaf(
    arena: &mut [u8],
    next: u64,
    list: &[u8],
    lo: &[u8],
    hi: &[u8],
    sibling: u64,
    limit: u64,
    budget: u64,
    group: u8,
    txid: u64,
    lsn: u64,
    checkpoint: u64,
) -> Words<2> {
    words(|out, n| unsafe {
        ct_new_leaf(
            arena.as_mut_ptr(),
            arena.len(),
            next,
            list.as_ptr(),
            list.len(),
            lo.as_ptr(),
            lo.len(),
            hi.as_ptr(),
            hi.len(),
            sibling,
            limit,
            budget,
            group,
            txid,
            lsn,
            checkpoint,
            out,
            n,
        )
    })
}

#[allow(clippy::too_many_arguments)]
pub(crate) fn new_intl(
    arena: &mut [u8],
    next: u64,
    list: &[u8],
    lo: &[u8],
    hi: &[u8],
    sibling: u64,
    group: u8,
    txid: u64,
    lsn: u64,
    checkpoint: u64,
) -> Words<2> {
    words(|out, n| unsafe {
        ct_new_intl(
            arena.as_mut_ptr(),
            arena.len(),
            next,
            list.as_ptr(),
            list.len(),
            lo.as_ptr(),
            lo.len(),
            hi.as_ptr(),
            hi.len(),
            sibling,
            group,
            txid,
            lsn,
            checkpoint,
            out,
            n,
        )
    })
}

#[allow(clippy::too_many_arguments)]
pub(crate) fn merge(
    arena: &mut [u8],
    next: u64,
    left: u64,
    right: u64,
    limit: u64,
    budget: u64,
    group: u8,
    txid: u64,
    lsn: u64,
    checkpoint: u64,
) -> Words<2> {
    words(|out, n| unsafe {
        ct_merge(
            arena.as_mut_ptr(),
            arena.len(),
            next,
            left,
            right,
            limit,
            budget,
            group,
            txid,
            lsn,
            checkpoint,
            out,
            n,
        )
    })
}

#[allow(clippy::too_many_arguments)]
pub(crate) fn delta_leaf(
    arena: &mut [u8],
    next: u64,
    limit: u64,
    group: u8,
    lsn: u64,
    checkpoint: u64,
    txid: u64,
    cmd: u32,
    key: &[u8],
    value: &[u8],
) -> Words<2> {
    words(|out, n| unsafe {
        ct_delta_leaf(
            arena.as_mut_ptr(),
            arena.len(),
            next,
            limit,
            group,
            lsn,
            checkpoint,
            txid,
            cmd,
            key.as_ptr(),
            key.len(),
            value.as_ptr(),
            value.len(),
            out,
            n,
        )
    })
}

#[allow(clippy::too_many_arguments)]
pub(crate) fn delta_index(
    arena: &mut [u8],
    next: u64,
    group: u8,
    txid: u64,
    lsn: u64,
    checkpoint: u64,
    key: &[u8],
    page: u64,
) -> Words<2> {
    words(|out, n| unsafe {
        ct_delta_index(
            arena.as_mut_ptr(),
            arena.len(),
            next,
            group,
            txid,
            lsn,
            checkpoint,
            key.as_ptr(),
            key.len(),
            page,
            out,
            n,
        )
    })
}

pub(crate) fn check(arena: &[u8], addr: u64) -> Result<(), Refusal> {
    Refusal::judged(unsafe { ct_check(arena.as_ptr(), arena.len(), addr) })
}

pub(crate) fn page(arena: &[u8], addr: u64) -> Words<9> {
    words(|out, n| unsafe { ct_page(arena.as_ptr(), arena.len(), addr, out, n) })
}

pub(crate) fn history_hints(arena: &[u8], addr: u64) -> Words<2> {
    words(|out, n| unsafe { ct_history_hints(arena.as_ptr(), arena.len(), addr, out, n) })
}

pub(crate) fn remote_hints(arena: &[u8], addr: u64) -> Words<2> {
    words(|out, n| unsafe { ct_remote_hints(arena.as_ptr(), arena.len(), addr, out, n) })
}

pub(crate) fn hint(arena: &[u8], at: u64, count: u64, k: u64) -> Words<1> {
    words(|out, n| unsafe { ct_hint(arena.as_ptr(), arena.len(), at, count, k, out, n) })
}

#[inline]
pub(crate) fn search(arena: &[u8], addr: u64, key: &[u8]) -> Words<10> {
    words(|out, n| unsafe {
        ct_search(arena.as_ptr(), arena.len(), addr, key.as_ptr(), key.len(), out, n)
    })
}

#[inline]
pub(crate) fn as_of(arena: &[u8], addr: u64, key: &[u8], txid: u64, cmd: u32) -> Words<7> {
    let (probe, len) = (key.as_ptr(), key.len());
    words(|out, n| unsafe {
        ct_as_of(arena.as_ptr(), arena.len(), addr, probe, len, txid, cmd, out, n)
    })
}

#[inline]
pub(crate) fn lower_bound(arena: &[u8], addr: u64, key: &[u8], txid: u64, cmd: u32) -> Words<3> {
    words(|out, n| unsafe {
        ct_lower_bound(
            arena.as_ptr(),
            arena.len(),
            addr,
            key.as_ptr(),
            key.len(),
            txid,
            cmd,
            out,
            n,
        )
    })
}

#[inline]
pub(crate) fn floor(arena: &[u8], addr: u64, key: &[u8]) -> Words<4> {
    words(|out, n| unsafe {
        ct_floor(arena.as_ptr(), arena.len(), addr, key.as_ptr(), key.len(), out, n)
    })
}

pub(crate) fn forward(arena: &[u8], addr: u64, begin: u64, end: u64) -> Words<CT_WALK_WORDS> {
    words(|walk, n| unsafe { ct_forward(arena.as_ptr(), arena.len(), addr, begin, end, walk, n) })
}

pub(crate) fn backward(arena: &[u8], addr: u64, start: i64, end: i64) -> Words<CT_WALK_WORDS> {
    words(|walk, n| unsafe { ct_backward(arena.as_ptr(), arena.len(), addr, start, end, walk, n) })
}

/// The words that `ct_steps` writes: how many records, then the words of each.
#[derive(Clone, Debug)]
#[repr(C)]
pub(crate) struct Steps<const N: usize> {
    pub(crate) count: u64,
    pub(crate) records: [[u64; CT_STEP_WORDS]; N],
}

impl<const N: usize> Steps<N> {
    pub(crate) const NONE: Self = Steps { count: 0, records: [[0; CT_STEP_WORDS]; N] };
}

pub(crate) fn steps<const N: usize>(
    arena: &[u8],
    walk: &mut [u64; CT_WALK_WORDS],
    out: &mut Steps<N>,
) -> Result<(), Refusal> {
    out.count = 0;
    // `Steps` is words one behind the other, so all of it is one slice of them
    let (words, room) = (core::ptr::from_mut(out).cast(), 1 + N * CT_STEP_WORDS);
    Refusal::judged(unsafe {
        ct_steps(arena.as_ptr(), arena.len(), walk.as_mut_ptr(), CT_WALK_WORDS, words, room)
    })
}

pub(crate) fn delta_key(arena: &[u8], addr: u64) -> Words<4> {
    words(|out, n| unsafe { ct_delta_key(arena.as_ptr(), arena.len(), addr, out, n) })
}

pub(crate) fn delta_val(arena: &[u8], addr: u64) -> Words<2> {
    words(|out, n| unsafe { ct_delta_val(arena.as_ptr(), arena.len(), addr, out, n) })
}

pub(crate) fn delta_index_key(arena: &[u8], addr: u64) -> Words<2> {
    words(|out, n| unsafe { ct_delta_index_key(arena.as_ptr(), arena.len(), addr, out, n) })
}

pub(crate) fn delta_child(arena: &[u8], addr: u64) -> Words<1> {
    words(|out, n| unsafe { ct_delta_child(arena.as_ptr(), arena.len(), addr, out, n) })
}

#[inline]
pub(crate) fn overlay(arena: &[u8], addr: u64, buffer: &[u8], delta: u64, key: &[u8]) -> Words<3> {
    words(|out, n| unsafe {
        ct_overlay(
            arena.as_ptr(),
            arena.len(),
            addr,
            buffer.as_ptr(),
            buffer.len(),
            delta,
            key.as_ptr(),
            key.len(),
            out,
            n,
        )
    })
}

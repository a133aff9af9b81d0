//! `asof KEYS BYTES`: the row as of a version beside the Rust's lower bound and BaseIter over the key's records, until one that is no newer.
//! Prints median and 5th percentile of ours, then of the Rust. A program of its own: a second use of BaseIter in `bench` keeps LLVM from
//! inlining it there, and the Rust's walks lose what they need not lose.

use bench::cases::{CALLS, Case};
use bench::number;
use bench::timing::{EACH, race};
use cresttrestle::sys::{CT_OUT_WORDS, ct_as_of};
use oracle::Ver;

/// The oldest version of a key that has older ones.
const ASKED: u64 = 98;

fn main() {
    let args: Vec<usize> = std::env::args().skip(1).map(|a| a.parse().expect("a number")).collect();
    let case = Case::new(args[0], args[1]);
    let (arena, built) = case.leaf();
    let (p, len, addr) = (arena.bytes().as_ptr(), arena.bytes().len(), built.addr);
    let leaf = arena.leaf_page(addr);
    // every third key has older versions
    let keys = |round| case.probes(round).iter().map(|&i| &case.keys[i / 3 * 3][..]);
    let mut ours = |round| {
        let mut out = [0u64; CT_OUT_WORDS];
        keys(round).fold(0, |sum: u64, key| {
            let (key, key_len, words) = (key.as_ptr(), key.len(), out.as_mut_ptr());
            // SAFETY: arena, key and words outlive the call.
            let refused =
                unsafe { ct_as_of(p, len, addr, key, key_len, ASKED, 0, words, CT_OUT_WORDS) };
            assert!(refused == 0 && out[0] == 1, "the row is there");
            sum.wrapping_add(number(&arena.bytes()[out[4] as usize..]))
        })
    };
    let mut rust = |round| {
        keys(round).fold(0, |sum: u64, key| {
            let pos = leaf.lower_bound(key, Ver::new(u64::MAX, u32::MAX), &mut ());
            let row = leaf.walk(pos, pos + 1).find(|(key, _)| key.ver.txid <= ASKED);
            sum.wrapping_add(number(leaf.value(&row.expect("the row is there").1)))
        })
    };
    for time in race(CALLS, EACH, &mut [&mut ours, &mut rust]) {
        println!("{} {}", time.median, time.fast);
    }
}

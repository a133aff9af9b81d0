//! Pages that are sound and slow to judge: what the check, and a merge, which begins with one, read of their history is far more than their bytes.
//! The page judged last is known to be sound, no other.

use bench::cases::{BOUNDS, BUDGET, LIMIT, STAMP};
use bench::timing::long;
use cresttrestle::sys::{CT_OUT_WORDS, ct_check, ct_search};
use oracle::arena::Arena;
use oracle::list::Entry;
use std::fmt::Write;

const HEADS: [usize; 4] = [500, 1_000, 2_000, 4_000];
/// A history page's header, and what each of its records adds here: slot, version, flag, size and eight bytes.
const HEADER: usize = 40;
const RECORD: usize = 4 + 12 + 1 + 4 + 8;
/// What stands before a head's value: where its old versions begin (address u64, slot u16), their count u32, the value's size u32.
const START: usize = 10;
const COUNT: usize = 4;
const SIZE: usize = 4;

pub fn table() -> String {
    let mut out = String::from(
        "\nSound pages that are slow to check, n heads over n old versions:\n\n| heads | each head names | sum of the heads' counts | old records read | check ms | ns a record |\n|--:|---|--:|--:|--:|--:|\n",
    );
    for n in HEADS {
        let all = page(n, BUDGET, |_| (0, n as u32));
        line(&mut out, n, "all of them", (n * n, n * n), &all);
        // Each head meets another history page than the head before it.
        let turns = page(n, HEADER + n / 2 * RECORD, |i| (if i % 2 == 0 { 0 } else { n - 1 }, 1));
        line(&mut out, n, "one, of two history pages in turn", (n, n * n / 2), &turns);
    }
    out
}

fn line(
    out: &mut String,
    n: usize,
    named: &str,
    (counts, read): (usize, usize),
    page: &(Arena, u64),
) {
    eprintln!("{n} heads over {n} old versions, each names {named}");
    let bytes = page.0.bytes();
    // SAFETY: the arena outlives the call.
    let check = || unsafe { ct_check(bytes.as_ptr(), bytes.len(), page.1) };
    assert_eq!(check(), 0, "the page is sound");
    let ms = long(check);
    let each = ms * 1e6 / read as f64;
    writeln!(out, "| {n} | {named} | {counts} | {read} | {ms:.1} | {each:.1} |").unwrap();
}

/// A leaf of `n` heads. `told` says of each at which head's old version its own begin, and their count.
fn page(n: usize, budget: usize, told: impl Fn(usize) -> (usize, u32)) -> (Arena, u64) {
    // Built with one old version a head, they stand in the order of the heads, each older than the one before it.
    let keys: Vec<[u8; 8]> = (0..n as u64).map(u64::to_be_bytes).collect();
    let entry = |key, txid| Entry { key, txid: txid as u64, cmd: 0, value: &[7; 8] };
    let entries: Vec<Entry> = keys
        .iter()
        .enumerate()
        .flat_map(|(i, key)| [entry(key, n + 1), entry(key, n - i)])
        .collect();
    let mut arena = Arena::new(8192 + 200 * n, 0);
    let addr = arena.build_leaf(8, LIMIT, budget, &STAMP, &BOUNDS, &entries).addr;
    let places: Vec<usize> = keys.iter().map(|key| reference(&arena, addr, key)).collect();
    let built = arena.clone();
    for (i, &at) in places.iter().enumerate() {
        let (from, count) = told(i);
        let head = &mut arena.bytes_mut()[at..][..START + COUNT];
        head[..START].copy_from_slice(&built.bytes()[places[from]..][..START]);
        head[START..].copy_from_slice(&count.to_le_bytes());
    }
    (arena, addr)
}

/// Where a head's reference to its old versions stands.
fn reference(arena: &Arena, addr: u64, key: &[u8]) -> usize {
    let (bytes, mut out) = (arena.bytes(), [0u64; CT_OUT_WORDS]);
    let (p, len, words) = (bytes.as_ptr(), bytes.len(), out.as_mut_ptr());
    // SAFETY: arena, key and words outlive the call.
    let refused = unsafe { ct_search(p, len, addr, key.as_ptr(), key.len(), words, CT_OUT_WORDS) };
    assert!(refused == 0 && out[0] == 1, "the key is there");
    out[4] as usize - SIZE - COUNT - START
}

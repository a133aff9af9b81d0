//! The pages that are timed: keys of the aircraft (6 bytes) or long ones (64), every third with two older versions, values of eight bytes.

use cresttrestle::sys::CT_RUST_HIST_PAGE_BUDGET;
use oracle::answer::{Bounds, Built, Stamp};
use oracle::arena::Arena;
use oracle::list::{self, Child, Entry};
use std::ops::Range;

/// An inline limit that leaves every value in its page, and one that leaves none.
pub const LIMIT: usize = 64;
pub const ALL_REMOTE: usize = 1;
pub const BUDGET: usize = CT_RUST_HIST_PAGE_BUDGET as usize;
pub const STAMP: Stamp = Stamp { txid: 1, group: 0, lsn: 0, checkpoint: 0 };
pub const BOUNDS: Bounds = Bounds { lo: &[], hi: &[], sibling: 0 };
/// The lengths of keys.
pub const SHORT: usize = 6;
pub const LONG: usize = 64;
/// Lookups a round: few, so that few rounds meet another program.
pub const CALLS: usize = 512;
const ROUNDS: usize = 8;

pub struct Case {
    pub keys: Vec<Vec<u8>>,
    /// Which key each lookup asks for: all of them are there, in no order.
    probes: Vec<usize>,
    values: Vec<[u8; 8]>,
}

/// An arena with two pages that meet.
pub type Neighbours = (Arena, Built, Built);

impl Case {
    pub fn new(n: usize, key_len: usize) -> Self {
        let mut keys: Vec<Vec<u8>> = (0..n).map(|i| key(i, key_len == LONG)).collect();
        keys.sort();
        keys.dedup();
        assert_eq!((keys.len(), keys[0].len()), (n, key_len), "the keys differ");
        let mut x: u64 = 20_261_115;
        let probes = (0..ROUNDS * CALLS)
            .map(|_| {
                x = x
                    .wrapping_mul(6_364_136_223_846_793_005)
                    .wrapping_add(1_442_695_040_888_963_407);
                (x >> 33) as usize % n
            })
            .collect();
        Case { keys, probes, values: (0..3 * n as u64).map(u64::to_le_bytes).collect() }
    }

    pub fn key_len(&self) -> usize {
        self.keys[0].len()
    }

    /// The keys that a round asks for: each takes the next ones, so that all of the page is asked for.
    pub fn probes(&self, round: usize) -> &[usize] {
        &self.probes[round % ROUNDS * CALLS..][..CALLS]
    }

    /// The rows of some keys, newest first.
    pub fn entries(&self, keys: Range<usize>) -> Vec<Entry<'_>> {
        let mut out = Vec::new();
        for i in keys {
            for old in 0..if i % 3 == 0 { 3 } else { 1 } {
                out.push(Entry {
                    key: &self.keys[i],
                    txid: 100 - old as u64,
                    cmd: 0,
                    value: &self.values[3 * i + old],
                });
            }
        }
        out
    }

    /// The rows of all keys.
    pub fn all(&self) -> Vec<Entry<'_>> {
        self.entries(0..self.keys.len())
    }

    /// The children that an index page has for some keys.
    pub fn children(&self, keys: Range<usize>) -> Vec<Child<'_>> {
        keys.map(|i| Child { key: &self.keys[i], pid: i as u64 + 1 }).collect()
    }

    /// The newest value of a key.
    pub fn value(&self, i: usize) -> &[u8] {
        &self.values[3 * i]
    }

    /// An arena that nobody wrote to, with room for the pages of these rows, their halves and a merge.
    pub fn empty(&self) -> Arena {
        Arena::new(8192 + self.keys.len() * 4 * (120 + self.key_len()), 0)
    }

    /// One leaf of every row, made by the Rust; its address and the next free one.
    pub fn leaf(&self) -> (Arena, Built) {
        let mut arena = self.empty();
        let built = arena.build_leaf(8, LIMIT, BUDGET, &STAMP, &BOUNDS, &self.all());
        (arena, built)
    }

    /// An index page of the keys.
    pub fn index(&self) -> (Arena, Built) {
        let mut arena = self.empty();
        let built = arena.build_index(8, &STAMP, &BOUNDS, &self.children(0..self.keys.len()));
        (arena, built)
    }

    pub fn leaves(&self, limit: usize) -> Neighbours {
        self.halves(|arena, next, bounds, keys| {
            arena.build_leaf(next, limit, BUDGET, &STAMP, bounds, &self.entries(keys))
        })
    }

    pub fn indexes(&self) -> Neighbours {
        self.halves(|arena, next, bounds, keys| {
            arena.build_index(next, &STAMP, bounds, &self.children(keys))
        })
    }

    /// Two pages, the lower half of the keys and the upper, whose boundaries meet at the upper's first key.
    fn halves(
        &self,
        build: impl Fn(&mut Arena, u64, &Bounds, Range<usize>) -> Built,
    ) -> Neighbours {
        let mut arena = self.empty();
        let (n, half) = (self.keys.len(), self.keys.len() / 2);
        let middle = &self.keys[half][..];
        let left = build(&mut arena, 8, &Bounds { hi: middle, ..BOUNDS }, 0..half);
        let right = build(&mut arena, left.next, &Bounds { lo: middle, ..BOUNDS }, half..n);
        (arena, left, right)
    }

    pub fn list(&self) -> Vec<u8> {
        list::write_entries(&self.all())
    }

    pub fn index_list(&self) -> Vec<u8> {
        list::write_children(&self.children(0..self.keys.len()))
    }
}

/// Serial number and temperature, as order 10 has them; a long key has a path before them and a tail behind.
fn key(i: usize, long: bool) -> Vec<u8> {
    let mut k = ((i / 700) as u32 + 7).to_be_bytes().to_vec();
    k.extend(((i % 700) as u16 * 3 + 30_000).to_be_bytes());
    if long {
        k.splice(0..0, b"glacier/northern-icefield/season-2026/line-0042/".iter().copied());
        k.extend((0..10).map(|j| (i * 31 + j * 7) as u8));
    }
    k
}

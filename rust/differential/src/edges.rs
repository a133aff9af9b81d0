//! Cases that random ones seldom meet, run every time: pages at the table's largest counts and sizes, and what comes before number 8.

use oracle::answer::Stamp;
use oracle::sample::Row;
use oracle::upstream::RUST_HIST_PAGE_BUDGET;

use crate::case::{At, Case, List, Next, Op, Place, Read, Sizes};

const SIZES: Sizes = Sizes { limit: 65_536, budget: RUST_HIST_PAGE_BUDGET as u64 };

fn row(n: u32, value: usize) -> Row {
    Row { key: n.to_be_bytes().to_vec(), txid: 7, cmd: 0, value: vec![n as u8; value] }
}

fn leaf(name: usize, rows: Vec<Row>) -> Op {
    leaf_at(name, Place::default(), rows)
}

fn leaf_at(name: usize, place: Place, rows: Vec<Row>) -> Op {
    let (next, stamp) = (Next::Free, Stamp::default());
    Op::Leaf { name, next, sizes: SIZES, stamp, place, list: List::Rows(rows) }
}

/// Boundaries by numbers, as the rows' keys; 0 is none.
fn between(lo: u32, hi: u32) -> Place {
    let edge = |n: u32| if n == 0 { Vec::new() } else { n.to_be_bytes().to_vec() };
    Place { sibling: 0, lo: edge(lo), hi: edge(hi) }
}

fn merge(name: usize, left: usize, right: usize) -> Op {
    let (left, right) = (At::Built(left), At::Built(right));
    Op::Merge { name, next: Next::Free, sizes: SIZES, stamp: Stamp::default(), left, right }
}

fn case(len: usize, ops: Vec<Op>) -> Case {
    Case { kind: "edge", len, fill: 0, at_start: false, ops }
}

fn ask(name: usize, read: Read) -> Op {
    Op::Ask { at: At::Built(name), read }
}

/// 65,535 entries are a page, 65,536 are too many; so in a merge.
fn entries() -> Vec<Case> {
    let place = Place::default;
    let child = |n: u32| (n.to_be_bytes().to_vec(), u64::from(n));
    let index = |count: u32| {
        let list = List::Children((0..count).map(child).collect());
        Op::Index { name: 1, next: Next::Free, stamp: Stamp::default(), place: place(), list }
    };
    let probes = || {
        let key = 40_000u32.to_be_bytes().to_vec();
        vec![
            ask(1, Read::Check),
            ask(1, Read::Search { key: key.clone() }),
            ask(1, Read::Floor { key: key.clone() }),
            ask(1, Read::Lower { key, txid: u64::MAX, cmd: u32::MAX }),
            ask(1, Read::Walk { begin: 65_500, end: 65_535 }),
        ]
    };
    let last = row(70_000, 0);
    let more = row(70_001, 0);
    vec![
        case(
            3_000_000,
            [vec![leaf(1, (0..65_535).map(|n| row(n, 0)).collect())], probes()].concat(),
        ),
        case(3_000_000, vec![leaf(1, (0..65_536).map(|n| row(n, 0)).collect())]),
        case(3_000_000, [vec![index(65_535)], probes()].concat()),
        case(3_000_000, vec![index(65_536)]),
        // one key with 65,535 versions
        case(3_000_000, {
            let versions = (0..65_535).map(|n| Row {
                key: b"k".to_vec(),
                txid: 70_000 - n,
                cmd: 0,
                value: Vec::new(),
            });
            let as_of = |txid| ask(1, Read::AsOf { key: b"k".to_vec(), txid, cmd: 0 });
            vec![
                leaf(1, versions.collect()),
                ask(1, Read::Check),
                ask(1, Read::Search { key: b"k".to_vec() }),
                as_of(70_000),
                as_of(30_000),
                as_of(4_466),
                as_of(4_465),
            ]
        }),
        case(6_000_000, {
            let left = leaf_at(1, between(0, 70_000), (0..65_534).map(|n| row(n, 0)).collect());
            vec![
                left,
                leaf_at(2, between(70_000, 0), vec![last.clone()]),
                leaf_at(3, between(70_000, 0), vec![last, more.clone()]),
                // the same keys without the boundary that the left page has
                leaf_at(4, between(70_001, 0), vec![more.clone(), row(70_002, 0)]),
                merge(5, 1, 2),
                merge(6, 1, 3),
                merge(7, 1, 4),
            ]
        }),
    ]
}

/// Size plus hint room of exactly 16,777,216 is a page, one byte more is too big.
fn payload() -> Vec<Case> {
    let large = |extra: usize| {
        // 40, then for each head: slot 4, length 1, version 12, key 4, flag 1, size 4, value
        let one = |value: usize| 26 + value;
        let whole = 16_777_216 - 40;
        let full = one(65_535);
        let count = whole / full - 1;
        let rest = whole - count * full;
        let half = rest / 2;
        let lens = vec![65_535; count].into_iter().chain([half - 26, rest - half - 26 + extra]);
        (0..).zip(lens).map(|(n, len)| row(n, len)).collect::<Vec<_>>()
    };
    let too_large = case(17_000_000, vec![leaf(1, large(1))]);
    let fits = case(17_000_000, vec![leaf(1, large(0)), ask(1, Read::Check), ask(1, Read::Info)]);
    vec![fits, too_large]
}

/// 65,536 entries of which one lies outside, in an arena that has no room for them: 10, though 8 and 9 apply too.
pub fn outside() -> Case {
    let rows: Vec<Row> = (1..=65_536).map(|n| row(n, 0)).collect();
    let children = rows.iter().map(|row| (row.key.clone(), 1)).collect();
    let index = Op::Index {
        name: 5,
        next: Next::Free,
        stamp: Stamp::default(),
        place: between(2, 0),
        list: List::Children(children),
    };
    let ops = vec![
        leaf_at(1, between(2, 0), rows.clone()),
        leaf_at(2, between(0, 65_536), rows.clone()),
        leaf_at(3, between(7, 7), rows.clone()),
        leaf_at(4, between(1, 65_537), rows),
        index,
    ];
    case(4096, ops)
}

/// All of them.
pub fn cases() -> Vec<Case> {
    [entries(), payload(), vec![outside()]].concat()
}

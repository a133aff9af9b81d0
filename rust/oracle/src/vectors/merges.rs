//! merges.txt: two pages built anew as one, at the same and at other limits and budgets.

use super::{NONE, Out, Place, index, leaf};
use crate::prng::Prng;
use crate::sample::{self, Row, index_list_of, list_of, row};
use crate::text;
use crate::upstream::RUST_HIST_PAGE_BUDGET;

const STAMP: &str = "1 1 10 20";
const AFTER: &str = "99 2 40 30";

// Two neighbours: the first has keys that begin with `a`, the second with `b`.
const LEFT: Place = (5, b"a", b"b");
const RIGHT: Place = (6, b"b", b"c");

pub(super) fn write(out: &mut Out, rng: &mut Prng) {
    remotes(out, rng);
    joined_keys(out, rng);
    empty_sides(out, rng);
    prefixes(out, rng);
    index_pages(out, rng);
    random_leaves(out, rng);
    chains(out, rng);
    apart(out, rng);
}

fn merge(next: u64, limit: usize, budget: usize, stamp: &str, left: u64, right: u64) -> String {
    format!("merge {next} {limit} {budget} {stamp} {left} {right}")
}

/// Values of 10 and 40 in heads and histories, built at one limit and merged at others: kept,
/// risen to remotes, fallen inline.
fn remotes(out: &mut Out, rng: &mut Prng) {
    for (built_at, merged_at) in [
        (8, 8),
        (8, 20),
        (8, 64),
        (20, 8),
        (20, 20),
        (20, 64),
        (64, 8),
        (64, 20),
        (64, 64),
        (20, 40),
        (20, 41),
        (64, 40),
        (64, 41),
        (8, 1),
        (1, 65_536),
    ] {
        out.note(&format!("values of 10 and 40, built at limit {built_at}, merged at {merged_at}"));
        out.case(rng, |out, rng| {
            let rows = |rng: &mut Prng, key: u8| -> Vec<Row> {
                vec![
                    row(&[key], 9, 0, &rng.bytes(10)),
                    row(&[key], 8, 0, &rng.bytes(40)),
                    row(&[key], 7, 0, &rng.bytes(10)),
                    row(&[key, 1], 9, 0, &rng.bytes(40)),
                    row(&[key, 1], 8, 0, &rng.bytes(10)),
                    row(&[key, 2], 9, 0, &rng.bytes(40)),
                ]
            };
            let (left, next) =
                out.built(leaf(8, built_at, 256, STAMP, LEFT, &list_of(&rows(rng, b'a'))));
            let (right, next) =
                out.built(leaf(next, built_at, 256, STAMP, RIGHT, &list_of(&rows(rng, b'b'))));
            let (both, _) = out.built(merge(next, merged_at, 256, AFTER, left, right));
            out.page(both, 6);
            out.say(format!("back {both} 5 0"));
        });
    }
    out.note("all remotes fall inline: hint room without addresses reads as none");
    out.case(rng, |out, rng| {
        let (left, next) =
            out.built(leaf(8, 4, 256, STAMP, LEFT, &list_of(&[row(b"a", 1, 0, &rng.bytes(9))])));
        let (right, next) = out.built(leaf(
            next,
            4,
            256,
            STAMP,
            RIGHT,
            &list_of(&[row(b"b", 1, 0, &rng.bytes(7))]),
        ));
        let (both, _) = out.built(merge(next, 64, 256, AFTER, left, right));
        out.page(both, 2);
    });
    out.note("pages built at different limits");
    for merged_at in [4, 16, 30, 64, 300] {
        out.case(rng, |out, rng| {
            let rows = |rng: &mut Prng, key: u8| -> Vec<Row> {
                [0usize, 3, 4, 15, 16, 63, 64, 100]
                    .iter()
                    .enumerate()
                    .map(|(i, &n)| {
                        row(&[key, i as u8 / 2], 20 - i as u64, 0, &sample::filling(rng, n))
                    })
                    .collect()
            };
            let (left, next) = out.built(leaf(8, 16, 300, STAMP, LEFT, &list_of(&rows(rng, b'a'))));
            let (right, next) =
                out.built(leaf(next, 64, 256, STAMP, RIGHT, &list_of(&rows(rng, b'b'))));
            let (both, _) = out.built(merge(next, merged_at, 400, AFTER, left, right));
            out.page(both, 8);
        });
    }
}

/// The right page's first key is the left page's last, in older versions: no boundary parts the versions of one key, so such pages never
/// meet. Older on the right is 10, not older is 6.
fn joined_keys(out: &mut Out, rng: &mut Prng) {
    type Sides = [Place<'static>; 2];
    let sides: [Sides; 3] =
        [[NONE, NONE], [(5, b"a", b"n"), (6, b"m", b"")], [(5, b"a", b""), (6, b"", b"zz")]];
    for (left_versions, right_versions) in [(1, 1), (1, 3), (2, 1), (3, 2)] {
        out.note(&format!("one key joined: {left_versions} versions on the left, {right_versions} older on the right, refused"));
        for [left_bounds, right_bounds] in sides {
            out.case(rng, |out, rng| {
                let mut rows: Vec<Row> = (0..left_versions + right_versions)
                    .map(|i| {
                        let len = rng.pick(&[0usize, 5, 15, 16, 30]);
                        row(b"m", 50 - i as u64, 3, &rng.bytes(len))
                    })
                    .collect();
                let mut right_rows = rows.split_off(left_versions);
                rows.insert(0, row(b"a", 9, 0, b"first"));
                right_rows.push(row(b"z", 9, 0, b"last"));
                let (left, next) = out.built(leaf(8, 16, 256, STAMP, left_bounds, &list_of(&rows)));
                let (right, next) =
                    out.built(leaf(next, 16, 256, STAMP, right_bounds, &list_of(&right_rows)));
                let limit = rng.pick(&[8usize, 16, 64]);
                out.say(merge(next, limit, 256, AFTER, left, right));
                out.say(merge(next, limit, 256, AFTER, right, left));
                out.say(merge(next, limit, 256, AFTER, left, left));
            });
        }
    }
    out.note("one key joined: the same txid, an older cmd, refused");
    out.case(rng, |out, _| {
        let (left, next) =
            out.built(leaf(8, 64, 256, STAMP, NONE, &list_of(&[row(b"m", 5, 1, b"new")])));
        let (right, next) =
            out.built(leaf(next, 64, 256, STAMP, NONE, &list_of(&[row(b"m", 5, 0, b"old")])));
        out.say(merge(next, 64, 256, AFTER, left, right));
        out.say(merge(next, 64, 256, AFTER, right, left));
    });
}

fn empty_sides(out: &mut Out, rng: &mut Prng) {
    for (l, r) in [(0usize, 0usize), (0, 3), (3, 0)] {
        out.note(&format!("{l} keys on the left, {r} on the right"));
        out.case(rng, |out, rng| {
            let rows = |rng: &mut Prng, first: u8, n: usize| -> Vec<Row> {
                let keys: Vec<Vec<u8>> = (0..n).map(|i| vec![b'p', first + i as u8]).collect();
                sample::rows(rng, &keys, 3, 8)
            };
            let (left, next) =
                out.built(leaf(8, 8, 256, STAMP, (5, b"pa", b"pm"), &list_of(&rows(rng, b'b', l))));
            let (right, next) = out.built(leaf(
                next,
                8,
                256,
                STAMP,
                (6, b"pm", b"pz"),
                &list_of(&rows(rng, b'n', r)),
            ));
            let (both, next) = out.built(merge(next, 8, 256, AFTER, left, right));
            out.page(both, l + r);
            let children = |first: u8, n: usize| -> Vec<(Vec<u8>, u64)> {
                (0..n).map(|i| (vec![b'p', first + i as u8], i as u64)).collect()
            };
            let (left, next) = out.built(index(
                next,
                STAMP,
                (5, b"pa", b"pm"),
                &index_list_of(&children(b'b', l)),
            ));
            let (right, next) = out.built(index(
                next,
                STAMP,
                (6, b"pm", b"pz"),
                &index_list_of(&children(b'n', r)),
            ));
            let (both, _) = out.built(merge(next, 8, 256, AFTER, left, right));
            out.page(both, l + r);
        });
    }
}

/// The new prefix comes from the left's lo and the right's hi: as long as the old ones or shorter, since the boundaries meet.
fn prefixes(out: &mut Out, rng: &mut Prng) {
    let edges: [[&[u8]; 3]; 8] = [
        [b"pa", b"pm", b"pz"],
        [b"pqa", b"pqz", b"prz"],
        [b"pqaaaaaaaaa", b"pqaaaaaaaab", b"t"],
        [b"", b"pm", b"pz"],
        [b"pa", b"pm", b""],
        [b"ppppppp", b"pppppppz", b"ppppppq"],
        [b"p", b"p\0", b"p\0\0"],
        [b"", b"\0", b""],
    ];
    for [lo, cut, hi] in edges {
        out.note("prefixes that shrink and stay; keys as near to the boundaries as can be");
        out.case(rng, |out, rng| {
            let (l, r) = (sample::keys_near(lo, cut), sample::keys_near(cut, hi));
            let elems = l.len() + r.len();
            let (left_rows, right_rows) =
                (sample::rows(rng, &l, 3, 8), sample::rows(rng, &r, 3, 8));
            let (left, next) =
                out.built(leaf(8, 8, 256, STAMP, (5, lo, cut), &list_of(&left_rows)));
            let (right, next) =
                out.built(leaf(next, 8, 256, STAMP, (6, cut, hi), &list_of(&right_rows)));
            let (both, next) = out.built(merge(next, 8, 256, AFTER, left, right));
            out.page(both, elems);
            for key in l.iter().chain(&r) {
                out.say(format!("search {both} {}", text::write(key)));
            }
            let children = |keys: &[Vec<u8>]| -> Vec<(Vec<u8>, u64)> {
                keys.iter().map(|k| (k.clone(), 7)).collect()
            };
            let (left, next) =
                out.built(index(next, STAMP, (5, lo, cut), &index_list_of(&children(&l))));
            let (right, next) =
                out.built(index(next, STAMP, (6, cut, hi), &index_list_of(&children(&r))));
            let (both, _) = out.built(merge(next, 8, 256, AFTER, left, right));
            out.page(both, elems);
            for key in l.iter().chain(&r) {
                out.say(format!("floor {both} {}", text::write(key)));
            }
        });
    }
}

fn index_pages(out: &mut Out, rng: &mut Prng) {
    for _ in 0..15 {
        out.note("two random index pages");
        out.case(rng, |out, rng| {
            let prefix = sample::prefix(rng);
            let (lo, hi) = sample::bounds(rng, &prefix);
            let count = rng.below(16);
            let keys = sample::keys_between(rng, &lo, &hi, count);
            let children: Vec<_> = keys.iter().map(|k| (k.clone(), rng.number())).collect();
            let cuts = sample::cuts(rng, &lo, &hi, &keys, 1);
            let mut next = 8;
            let mut pages = Vec::new();
            for (lo, hi, part) in sample::parted(&lo, &hi, &cuts, &children, |c| &c.0) {
                let (addr, after) =
                    out.built(index(next, STAMP, (5, lo, hi), &index_list_of(&part)));
                pages.push(addr);
                next = after;
            }
            let (both, _) = out.built(merge(next, 64, 256, AFTER, pages[0], pages[1]));
            out.page(both, keys.len());
        });
    }
}

/// Rows cut at any boundary, built and merged at any limit and budget.
fn random_leaves(out: &mut Out, rng: &mut Prng) {
    for _ in 0..55 {
        out.note("two random leaf pages");
        out.case(rng, |out, rng| {
            let prefix = sample::prefix(rng);
            let (lo, hi) = sample::bounds(rng, &prefix);
            let limits = [4usize, 8, 16, 64, 64, 300];
            let budgets = [256, 256, 300, 1024, RUST_HIST_PAGE_BUDGET];
            let count = rng.between(1, 8);
            let keys = sample::keys_between(rng, &lo, &hi, count);
            let limit = rng.pick(&limits);
            let rows = sample::rows(rng, &keys, 5, limit);
            let (stamp, after) = (sample::stamp(rng), sample::stamp(rng));
            let cuts = sample::cuts(rng, &lo, &hi, &keys, 1);
            let mut next = 8;
            let mut pages = Vec::new();
            for (lo, hi, part) in sample::parted(&lo, &hi, &cuts, &rows, |row| &row.key) {
                let limit = rng.pick(&[limit, rng.clone().pick(&limits)]);
                let budget = rng.pick(&budgets);
                let (addr, after) =
                    out.built(leaf(next, limit, budget, &stamp, (5, lo, hi), &list_of(&part)));
                pages.push(addr);
                next = after;
            }
            let merged_limit = rng.pick(&limits);
            let next = next + 8 * rng.below(3) as u64;
            let budget = rng.pick(&budgets);
            let (both, _) =
                out.built(merge(next, merged_limit, budget, &after, pages[0], pages[1]));
            out.page(both, keys.len());
            for probe in sample::probes(rng, &prefix, &keys, 3) {
                out.say(format!("search {both} {}", text::write(&probe)));
            }
        });
    }
}

/// Three pages in both groupings.
fn chains(out: &mut Out, rng: &mut Prng) {
    for _ in 0..8 {
        out.note("three pages merged left pair first, then right pair first");
        out.case(rng, |out, rng| {
            let (lo, hi) = sample::bounds(rng, b"k");
            let keys = sample::keys_between(rng, &lo, &hi, 6);
            let rows = sample::rows(rng, &keys, 3, 12);
            let cuts = sample::cuts(rng, &lo, &hi, &keys, 2);
            let mut next = 8;
            let mut pages = Vec::new();
            for (lo, hi, part) in sample::parted(&lo, &hi, &cuts, &rows, |row| &row.key) {
                let bounds = (pages.len() as u64, lo, hi);
                let (addr, after) = out.built(leaf(next, 12, 256, STAMP, bounds, &list_of(&part)));
                pages.push(addr);
                next = after;
            }
            let (pair, next) = out.built(merge(next, 12, 256, AFTER, pages[0], pages[1]));
            let (first, next) = out.built(merge(next, 12, 256, AFTER, pair, pages[2]));
            let (pair, next) = out.built(merge(next, 12, 256, AFTER, pages[1], pages[2]));
            let (second, _) = out.built(merge(next, 12, 256, AFTER, pages[0], pair));
            out.page(first, keys.len());
            out.page(second, keys.len());
        });
    }
}

/// Order 4: pages whose boundaries do not meet, each refused; leaf and index page alike.
fn apart(out: &mut Out, rng: &mut Prng) {
    type Sides = [(&'static [u8], &'static [u8]); 2];
    let sides: [(&str, Sides); 9] = [
        ("no boundaries", [(b"", b""), (b"", b"")]),
        ("the left without hi", [(b"c", b""), (b"", b"z")]),
        ("the left without hi, the right with lo", [(b"c", b""), (b"m", b"z")]),
        ("the right without lo", [(b"c", b"m"), (b"", b"z")]),
        ("a gap of one byte", [(b"c", b"m"), (b"m\0", b"z")]),
        ("one byte too far", [(b"c", b"m\0"), (b"m", b"z")]),
        ("a hi that begins the right lo", [(b"c", b"mm"), (b"mmm", b"z")]),
        ("far apart", [(b"c", b"d"), (b"x", b"z")]),
        ("one inside the other", [(b"c", b"z"), (b"f", b"g")]),
    ];
    for (about, [(llo, lhi), (rlo, rhi)]) in sides {
        out.note(&format!(
            "boundaries that do not meet: {about}; with keys and without, both ways round"
        ));
        out.case(rng, |out, rng| {
            let mut next = 8;
            let mut pages = Vec::new();
            for (lo, hi) in [(llo, lhi), (rlo, rhi)] {
                let keys = sample::keys_near(lo, hi);
                for keys in [&keys[..], &[]] {
                    let rows = sample::rows(rng, keys, 2, 8);
                    let children: Vec<_> = keys.iter().map(|key| (key.clone(), 3)).collect();
                    let (page, after) =
                        out.built(leaf(next, 8, 256, STAMP, (0, lo, hi), &list_of(&rows)));
                    let (tree, after) =
                        out.built(index(after, STAMP, (0, lo, hi), &index_list_of(&children)));
                    pages.push([page, tree]);
                    next = after;
                }
            }
            for kind in [0, 1] {
                for (left, right) in
                    [(0, 2), (1, 2), (0, 3), (1, 3), (2, 0), (3, 1), (0, 0), (1, 1)]
                {
                    out.say(merge(next, 8, 256, AFTER, pages[left][kind], pages[right][kind]));
                }
            }
        });
    }
}

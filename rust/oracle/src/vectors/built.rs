//! built.txt: leaf and index builds, byte for byte, each page then read as a whole.

use super::{NONE, Out, index, leaf};
use crate::judge::{HIST_PAGE_BUDGET, MAX_BUDGET};
use crate::prng::Prng;
use crate::sample::{self, Row, index_list_of, list_of, row};
use crate::upstream::RUST_HIST_PAGE_BUDGET;

const STAMP: &str = "77 3 1000 2000";

pub(super) fn write(out: &mut Out, rng: &mut Prng) {
    key_lengths(out, rng);
    long_keys(out, rng);
    value_lengths(out, rng);
    budgets(out, rng);
    boundaries(out, rng);
    stamps(out, rng);
    empty_pages(out, rng);
    index_pages(out, rng);
    several_in_one_arena(out, rng);
    random_leaves(out, rng);
    default_budget(out, rng);
}

/// Rests 0 to 19 and 108 to 134, each length a key of its own: of equal bytes, the shorter is less.
fn key_lengths(out: &mut Out, rng: &mut Prng) {
    for (from, to) in [(0, 19), (108, 134)] {
        for prefix_len in [0, 1, 9] {
            out.note(&format!(
                "leaf keys with rests of {from} to {to} behind a prefix of {prefix_len}"
            ));
            out.case(rng, |out, rng| {
                let prefix = vec![0x70; prefix_len];
                let (lo, hi) = (prefix.clone(), [&prefix[..], b"b"].concat());
                let rows: Vec<Row> = (from..=to)
                    .map(|n| {
                        row(&[&prefix[..], &vec![0x61; n]].concat(), 9, n as u32, &rng.bytes(2))
                    })
                    .collect();
                let (addr, _) = out.built(leaf(8, 64, 256, STAMP, (1, &lo, &hi), &list_of(&rows)));
                out.page(addr, rows.len());
                for n in [from, (from + to) / 2, to] {
                    let key = [&prefix[..], &vec![0x61; n]].concat();
                    out.say(format!("search {addr} {}", crate::text::write(&key)));
                }
            });
        }
    }
    out.note("the edge of LEB128 alone on a page: a leaf key's length counts version and rest");
    for n in [0, 114, 115, 116, 117] {
        out.case(rng, |out, rng| {
            let key = sample::filling(rng, n);
            let rows = [row(&key, 9, 1, b"new"), row(&key, 8, 1, b"old")];
            let (addr, _) = out.built(leaf(8, 64, 256, STAMP, NONE, &list_of(&rows)));
            out.page(addr, 1);
        });
    }
}

/// Up to the 4,096 of a whole key, and boundaries as long.
fn long_keys(out: &mut Out, rng: &mut Prng) {
    for (prefix_len, rest_len) in [
        (0, 255),
        (0, 256),
        (0, 1000),
        (0, 4095),
        (0, 4096),
        (1, 4095),
        (100, 3996),
        (4095, 1),
        (4095, 0),
        (3, 16),
    ] {
        out.note(&format!("a key of {rest_len} behind a prefix of {prefix_len}"));
        out.case(rng, |out, rng| {
            let prefix = vec![0x71; prefix_len];
            let mut key = [&prefix[..], &sample::filling(rng, rest_len)].concat();
            if rest_len > 0 {
                key[prefix_len] = b'y';
            }
            // with a hi that lo begins, the prefix is the whole of lo: at most 4,095
            let (lo, hi) = (prefix.clone(), [&prefix[..], b"z"].concat());
            let rows = [row(&key, 9, 1, b"new"), row(&key, 8, 1, b"older")];
            let (addr, next) = out.built(leaf(8, 64, 256, STAMP, (1, &lo, &hi), &list_of(&rows)));
            out.page(addr, 1);
            let (addr, _) =
                out.built(index(next, STAMP, (1, &lo, &hi), &index_list_of(&[(key, 5)])));
            out.page(addr, 1);
        });
    }
}

/// One below, at and one above the inline limit, in heads and in histories.
fn value_lengths(out: &mut Out, rng: &mut Prng) {
    for limit in [1usize, 2, 8, 13, 64, 512, 4096, 65_535, 65_536] {
        out.note(&format!(
            "limit {limit}: values one below, at and one above it as heads, then as old versions"
        ));
        let sizes = [limit - 1, limit, (limit + 1).min(65_536)];
        for old in [false, true] {
            if limit > 60_000 && old {
                // three values of 65,536 and their copies are all that an arena holds
                out.case(rng, |out, rng| {
                    let rows: Vec<Row> = [0, sizes[0], sizes[1]]
                        .iter()
                        .enumerate()
                        .map(|(i, &n)| row(b"k", 9 - i as u64, 0, &sample::filling(rng, n)))
                        .collect();
                    let (addr, _) = out.built(leaf(
                        8,
                        limit,
                        RUST_HIST_PAGE_BUDGET,
                        STAMP,
                        NONE,
                        &list_of(&rows),
                    ));
                    out.page(addr, 1);
                });
                continue;
            }
            out.case(rng, |out, rng| {
                let mut rows = Vec::new();
                for (i, &n) in sizes.iter().enumerate() {
                    let key = [b'a' + i as u8];
                    if old {
                        rows.push(row(&key, 10, 0, b""));
                    }
                    rows.push(row(&key, 9, 0, &sample::filling(rng, n)));
                }
                let (addr, _) = out.built(leaf(8, limit, 300, STAMP, NONE, &list_of(&rows)));
                out.page(addr, 3);
            });
        }
    }
    out.note("second versions larger and smaller than their heads: the second sizes the head");
    for (head, second, third) in
        [(0, 0, 0), (0, 63, 1), (63, 0, 63), (64, 1, 0), (1, 64, 2), (64, 64, 64), (10, 65, 63)]
    {
        out.case(rng, |out, rng| {
            let rows: Vec<Row> = [head, second, third]
                .iter()
                .enumerate()
                .map(|(i, &n)| row(b"key", 9 - i as u64, 4, &sample::filling(rng, n)))
                .collect();
            let (addr, _) = out.built(leaf(8, 64, 256, STAMP, NONE, &list_of(&rows)));
            out.page(addr, 1);
        });
    }
}

fn budgets(out: &mut Out, rng: &mut Prng) {
    let most = MAX_BUDGET as usize;
    for budget in [256, 257, 260, 300, 512, 1000, 4096, most - 1, most] {
        out.note(&format!(
            "budget {budget}: forty old versions of several keys, and one too large alone"
        ));
        out.case(rng, |out, rng| {
            let mut rows = Vec::new();
            for (key, count) in [(b"a", 1), (b"b", 13), (b"c", 2), (b"d", 20), (b"e", 1), (b"f", 8)]
            {
                for (i, (txid, cmd)) in sample::versions(rng, count, 5000).into_iter().enumerate() {
                    let len = if i == 5 { 450 } else { rng.below(30) };
                    rows.push(row(key, txid, cmd, &sample::filling(rng, len)));
                }
            }
            let (addr, _) = out.built(leaf(8, 512, budget, STAMP, NONE, &list_of(&rows)));
            out.page(addr, 6);
        });
    }
    for over in [0usize, 1, 2, 3, 4, 5] {
        out.note(
            "old versions whose sizes come to just below, exactly and just above a budget of 700",
        );
        out.case(rng, |out, rng| {
            // 40 + 3 * (12 + 5 + n + 4): n = 199 gives 700 exactly
            let mut rows = vec![row(b"k", 100, 0, b"")];
            for i in 0..7u64 {
                rows.push(row(b"k", 99 - i, 0, &sample::filling(rng, 197 + over)));
            }
            let (addr, _) = out.built(leaf(8, 512, 700, STAMP, NONE, &list_of(&rows)));
            out.page(addr, 1);
        });
    }
    out.note("the Rust's budget by name: old versions past it, and exactly up to it");
    for (count, len) in [(200u64, 700usize), (9, 16_358), (9, 16_359), (2, 65_495), (2, 65_496)] {
        out.case(rng, |out, rng| {
            let mut rows = vec![row(b"k", 1000, 0, b"")];
            for i in 0..count {
                rows.push(row(b"k", 999 - i, 0, &sample::filling(rng, len)));
            }
            let (addr, _) =
                out.built(leaf(8, 65_536, RUST_HIST_PAGE_BUDGET, STAMP, NONE, &list_of(&rows)));
            out.page(addr, 1);
        });
    }
    out.note("three hundred short versions of one key at the smallest budget, remotes among them");
    out.case(rng, |out, rng| {
        let rows: Vec<Row> = sample::versions(rng, 300, 10_000)
            .into_iter()
            .map(|(txid, cmd)| {
                let len = if rng.once_in(20) { 17 } else { rng.below(4) };
                row(b"k", txid, cmd, &rng.bytes(len))
            })
            .collect();
        let (addr, _) = out.built(leaf(8, 16, 256, STAMP, NONE, &list_of(&rows)));
        out.page(addr, 1);
    });
}

fn boundaries(out: &mut Out, rng: &mut Prng) {
    let pairs: [(&[u8], &[u8]); 9] = [
        (b"", b""),
        (b"", b"m"),
        (b"a", b""),
        (b"a", b"b"),
        (b"ma", b"mz"),
        (b"mmmmmmmma", b"mmmmmmmmz"),
        (b"m", b"mz"),
        (b"m", b"m\0"),
        (b"mm", b"mm\0\0"),
    ];
    for (lo, hi) in pairs {
        out.note("boundaries that share 0, 1 and many bytes; keys as near to them as can be");
        out.case(rng, |out, rng| {
            let keys = sample::keys_near(lo, hi);
            let rows = sample::rows(rng, &keys, 3, 8);
            let (addr, next) =
                out.built(leaf(8, 8, 256, STAMP, (u64::MAX, lo, hi), &list_of(&rows)));
            out.page(addr, keys.len());
            let children: Vec<_> = keys.iter().map(|key| (key.clone(), rng.number())).collect();
            let (addr, _) = out.built(index(next, STAMP, (12, lo, hi), &index_list_of(&children)));
            out.page(addr, keys.len());
        });
    }
    out.note("boundaries of 4,096 that differ in their last byte");
    out.case(rng, |out, _| {
        let lo = vec![0x55; 4096];
        let (mut between, mut hi) = (lo.clone(), lo.clone());
        (between[4095], hi[4095]) = (0x56, 0x57);
        let (addr, _) = out.built(leaf(
            8,
            64,
            256,
            STAMP,
            (1, &lo, &hi),
            &list_of(&[row(&lo, 1, 1, b"v"), row(&between, 1, 1, b"w")]),
        ));
        out.page(addr, 2);
    });
}

/// lsn is the larger of the given and the checkpoint's; every frame carries the group.
fn stamps(out: &mut Out, rng: &mut Prng) {
    for stamp in [
        "0 0 0 0",
        "1 255 7 6",
        "18446744073709551615 1 18446744073709551615 0",
        "2 9 0 18446744073709551615",
        "3 128 5 5",
    ] {
        out.note("numbers that every frame carries");
        out.case(rng, |out, rng| {
            let rows = [
                row(b"a", u64::MAX, u32::MAX, &rng.bytes(9)),
                row(b"a", u64::MAX, 0, &rng.bytes(9)),
                row(b"a", 0, 0, b""),
                row(b"b", 0, 0, &rng.bytes(8)),
            ];
            let (addr, _) = out.built(leaf(8, 8, 256, stamp, (9, b"", b""), &list_of(&rows)));
            out.page(addr, 2);
        });
    }
}

fn empty_pages(out: &mut Out, rng: &mut Prng) {
    let pairs: [(&[u8], &[u8]); 4] = [(b"", b""), (b"abc", b"abd"), (b"abc", b""), (b"", b"x")];
    for (lo, hi) in pairs {
        out.note("a page without keys keeps its boundaries and prefix");
        out.case(rng, |out, _| {
            let (addr, next) = out.built(leaf(8, 64, 256, STAMP, (4, lo, hi), &list_of(&[])));
            out.page(addr, 0);
            let (addr, _) = out.built(index(next, STAMP, (4, lo, hi), &index_list_of(&[])));
            out.page(addr, 0);
        });
    }
}

fn index_pages(out: &mut Out, rng: &mut Prng) {
    for (from, to) in [(0usize, 19usize), (108, 134)] {
        out.note(&format!(
            "index keys with rests of {from} to {to}: their length counts the rest alone"
        ));
        out.case(rng, |out, rng| {
            let children: Vec<_> = (from..=to).map(|n| (vec![0x61; n], rng.number())).collect();
            let (addr, _) = out.built(index(8, STAMP, NONE, &index_list_of(&children)));
            out.page(addr, children.len());
        });
    }
    for n in [126, 127, 128, 129] {
        out.note("the edge of LEB128 on an index page");
        out.case(rng, |out, rng| {
            let children = [(sample::filling(rng, n), 0)];
            let (addr, _) = out.built(index(8, STAMP, NONE, &index_list_of(&children)));
            out.page(addr, 1);
        });
    }
    for _ in 0..14 {
        out.note("a random index page");
        out.case(rng, |out, rng| {
            let prefix = sample::prefix(rng);
            let (lo, hi) = sample::bounds(rng, &prefix);
            let count = rng.below(24);
            let keys = sample::keys_between(rng, &lo, &hi, count);
            let children: Vec<_> = keys.into_iter().map(|k| (k, rng.number())).collect();
            let stamp = sample::stamp(rng);
            let (addr, _) =
                out.built(index(8, &stamp, (rng.number(), &lo, &hi), &index_list_of(&children)));
            out.page(addr, children.len());
        });
    }
}

/// What stands below the next free address stays; frames do not begin at 8.
fn several_in_one_arena(out: &mut Out, rng: &mut Prng) {
    for start in [8u64, 16, 64] {
        out.note("several builds one after another in one arena, the first not always at 8");
        out.case(rng, |out, rng| {
            let mut next = start;
            let mut pages = Vec::new();
            for _ in 0..4 {
                let keys = sample::keys(rng, b"", 3);
                let rows = sample::rows(rng, &keys, 3, 16);
                let stamp = sample::stamp(rng);
                let (addr, after) = out.built(leaf(next, 16, 256, &stamp, NONE, &list_of(&rows)));
                pages.push((addr, keys.len()));
                next = after;
            }
            for (addr, elems) in pages {
                out.page(addr, elems);
            }
        });
    }
}

fn random_leaves(out: &mut Out, rng: &mut Prng) {
    for _ in 0..110 {
        out.note("a random leaf page");
        out.case(rng, |out, rng| {
            let limit = rng.pick(&[1usize, 4, 8, 16, 64, 64, 300, 4096]);
            let budget = rng.pick(&[256, 256, 300, 512, 1024, RUST_HIST_PAGE_BUDGET]);
            let prefix = sample::prefix(rng);
            let (lo, hi) = sample::bounds(rng, &prefix);
            let count = rng.below(9);
            let keys = sample::keys_between(rng, &lo, &hi, count);
            let rows = sample::rows(rng, &keys, 7, limit);
            let stamp = sample::stamp(rng);
            let next = rng.pick(&[8u64, 8, 24]);
            let (addr, _) = out.built(leaf(
                next,
                limit,
                budget,
                &stamp,
                (rng.number(), &lo, &hi),
                &list_of(&rows),
            ));
            out.page(addr, keys.len());
        });
    }
}

/// The head `k (9, 0)` with an empty value, and so many old versions of so many bytes: order 2's worked numbers.
fn default_budget(out: &mut Out, rng: &mut Prng) {
    for (count, len, limit, budget) in [
        (271, 100, 512, HIST_PAGE_BUDGET as usize),
        (271, 100, 512, RUST_HIST_PAGE_BUDGET),
        (270, 100, 512, HIST_PAGE_BUDGET as usize),
        (9, 4_070, 65_536, HIST_PAGE_BUDGET as usize),
        (1, 32_707, 65_536, HIST_PAGE_BUDGET as usize),
        (1, 32_708, 65_536, HIST_PAGE_BUDGET as usize),
        (1_200, 100, 512, RUST_HIST_PAGE_BUDGET),
    ] {
        out.note(&format!("budget {budget}: {count} old versions of {len} bytes"));
        out.case(rng, |out, rng| {
            // most values are one run, so that a list of a thousand stays a short line
            let mut rows = vec![row(b"k", 9, 0, b"")];
            for cmd in (0..count).rev() {
                let value =
                    if cmd % 100 == 0 { sample::filling(rng, len) } else { vec![cmd as u8; len] };
                rows.push(row(b"k", 8, cmd, &value));
            }
            let (addr, _) = out.built(leaf(8, limit, budget, STAMP, NONE, &list_of(&rows)));
            out.page(addr, 1);
        });
    }
}

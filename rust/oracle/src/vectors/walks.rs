//! walks.txt: forward and backward walks over every range, with the history pages named.

use super::{NONE, Out, index, leaf};
use crate::prng::Prng;
use crate::sample::{self, Row, index_list_of, list_of, row};

const STAMP: &str = "1 0 0 0";

pub(super) fn write(out: &mut Out, rng: &mut Prng) {
    every_range(out, rng);
    linked_pages(out, rng);
    odd_ranges(out, rng);
    random_pages(out, rng);
}

fn every_range(out: &mut Out, rng: &mut Prng) {
    out.note("every range of a page of four keys, two of them with history on linked pages");
    out.case(rng, |out, rng| {
        let mut rows = vec![row(b"a", 9, 0, b"a")];
        rows.extend((0..6u64).map(|i| row(b"b", 9 - i, 0, &sample::filling(rng, 60))));
        rows.push(row(b"c", 9, 0, &rng.bytes(70)));
        rows.extend((0..3u64).map(|i| row(b"d", 9 - i, 1, &rng.bytes(3))));
        let (page, next) = out.built(leaf(8, 64, 256, STAMP, NONE, &list_of(&rows)));
        for begin in 0..=6 {
            for end in 0..=5 {
                out.say(format!("walk {page} {begin} {end}"));
            }
        }
        for start in -2..=4 {
            for end in -2..=4 {
                out.say(format!("back {page} {start} {end}"));
            }
        }
        let children = [(b"a".to_vec(), 1), (b"b".to_vec(), 2), (b"c".to_vec(), 0)];
        let (tree, _) = out.built(index(next, STAMP, NONE, &index_list_of(&children)));
        for begin in 0..=4 {
            for end in 0..=4 {
                out.say(format!("walk {tree} {begin} {end}"));
            }
        }
        out.note("backward takes leaves only");
        for (start, end) in [(2, 0), (0, 0), (0, 1), (-1, 0), (3, 0)] {
            out.say(format!("back {tree} {start} {end}"));
        }
    });
}

/// Keys whose old versions begin at the first, a middle or the last slot of a page, end with a page,
/// or reach over several.
fn linked_pages(out: &mut Out, rng: &mut Prng) {
    for counts in [[3usize, 3, 3], [2, 1, 7], [1, 2, 3], [10, 1, 1], [6, 6, 1], [4, 8, 4]] {
        out.note(&format!("old versions {counts:?}, three to a page"));
        out.case(rng, |out, rng| {
            let mut rows = Vec::new();
            for (i, &count) in counts.iter().enumerate() {
                let key = [b'a' + i as u8];
                rows.push(row(&key, 100, 0, b"head"));
                rows.extend(
                    (0..count as u64)
                        .map(|n| row(&key, 50 - n, i as u32, &sample::filling(rng, 51))),
                );
            }
            let (page, _) = out.built(leaf(8, 64, 256, STAMP, NONE, &list_of(&rows)));
            out.say(format!("walk {page} 0 3"));
            out.say(format!("back {page} 2 0"));
            out.say(format!("hists {page}"));
        });
    }
}

fn odd_ranges(out: &mut Out, rng: &mut Prng) {
    out.note("ranges outside: an end above elems is 4 at any begin, empty ranges list nothing");
    out.case(rng, |out, _| {
        let rows: Vec<Row> = (0..3).map(|i| row(&[b'a' + i], 5, 0, &[i])).collect();
        let (page, next) = out.built(leaf(8, 64, 256, STAMP, NONE, &list_of(&rows)));
        let (empty, next) = out.built(leaf(next, 64, 256, STAMP, NONE, &list_of(&[])));
        let (tree, _) = out.built(index(next, STAMP, NONE, &index_list_of(&[])));
        let huge = u64::MAX;
        for at in [page, empty, tree] {
            for (begin, end) in [
                (0, 4),
                (4, 4),
                (9, 4),
                (huge, 3),
                (huge, 0),
                (3, 3),
                (0, huge),
                (huge, huge),
                (0, 65_536),
                (65_536, 0),
                (0, 0),
                (1, 0),
            ] {
                out.say(format!("walk {at} {begin} {end}"));
            }
            for (start, end) in [
                (0, -1),
                (-1, -1),
                (-1, 0),
                (-2, -1),
                (2, 3),
                (3, 3),
                (3, 4),
                (i64::MAX, 0),
                (i64::MIN, 0),
                (0, i64::MIN),
                (i64::MIN, i64::MIN),
                (i64::MAX, i64::MAX),
                (i64::MIN, i64::MAX),
                (0, i64::MAX),
                (2, 2),
                (0, 0),
            ] {
                out.say(format!("back {at} {start} {end}"));
            }
        }
    });
}

fn random_pages(out: &mut Out, rng: &mut Prng) {
    for _ in 0..30 {
        out.note("random ranges of a random page");
        out.case(rng, |out, rng| {
            let prefix = sample::prefix(rng);
            let (lo, hi) = sample::bounds(rng, &prefix);
            let limit = rng.pick(&[4usize, 16, 64]);
            let count = rng.between(1, 8);
            let keys = sample::keys_between(rng, &lo, &hi, count);
            let rows = sample::rows(rng, &keys, 6, limit);
            let (page, _) = out.built(leaf(8, limit, 256, STAMP, (3, &lo, &hi), &list_of(&rows)));
            let elems = keys.len();
            out.say(format!("walk {page} 0 {elems}"));
            out.say(format!("back {page} {} 0", elems - 1));
            for _ in 0..3 {
                let (a, b) = (rng.below(elems + 1), rng.below(elems + 1));
                out.say(format!("walk {page} {a} {b}"));
                out.say(format!("back {page} {b} {a}"));
            }
        });
    }
}

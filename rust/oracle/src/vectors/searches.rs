//! searches.txt: lower bound, floor and search, with the keys read.

use super::{NONE, Out, index, leaf};
use crate::prng::Prng;
use crate::sample::{self, Row, index_list_of, list_of, row};
use crate::text;

const STAMP: &str = "1 0 0 0";
const LARGEST: &str = "18446744073709551615 4294967295";

pub(super) fn write(out: &mut Out, rng: &mut Prng) {
    every_size(out, rng);
    versions(out, rng);
    other_probes(out, rng);
    elsewhere(out, rng);
    many_keys(out, rng);
    random_pages(out, rng);
}

/// Pages of 0 to 17 keys, every key and every gap: the halvings of each size.
fn every_size(out: &mut Out, rng: &mut Prng) {
    for n in 0..=17usize {
        out.note(&format!("{n} keys: each key, and each gap below, between and above"));
        out.case(rng, |out, _| {
            let key = |i: usize| vec![b'a' + i as u8];
            let rows: Vec<Row> = (0..n).map(|i| row(&key(i), 5, 0, &key(i))).collect();
            let (page, next) = out.built(leaf(8, 64, 256, STAMP, NONE, &list_of(&rows)));
            let children: Vec<_> = (0..n).map(|i| (key(i), 100 + i as u64)).collect();
            let (tree, _) = out.built(index(next, STAMP, NONE, &index_list_of(&children)));
            let mut probes = vec![vec![]];
            probes.extend((0..n).flat_map(|i| [key(i), [key(i), vec![0]].concat()]));
            for probe in probes {
                let probe = text::write(&probe);
                out.say(format!("search {page} {probe}"));
                out.say(format!("lower {page} {probe} {LARGEST}"));
                out.say(format!("floor {tree} {probe}"));
                out.say(format!("lower {tree} {probe} 0 0"));
            }
        });
    }
}

/// Order 3's worked answers; then the same with every slot damaged: only floor hands a record back, so only floor is refused where
/// the probe lacks the prefix.
fn elsewhere(out: &mut Out, rng: &mut Prng) {
    out.note("lo ba, hi bd: probes below the prefix, above it, and those that begin with it; then damaged slots");
    out.case(rng, |out, _| {
        let rows = [
            row(b"ba", 3, 0, b"1"),
            row(b"bb", 5, 0, b"2"),
            row(b"bb", 4, 0, b"3"),
            row(b"bc", 2, 0, b"4"),
        ];
        let bounds = (0, &b"ba"[..], &b"bd"[..]);
        let children = [(b"ba".to_vec(), 21), (b"bb".to_vec(), 22), (b"bc".to_vec(), 23)];
        let (page, next) = out.built(leaf(8, 64, 256, STAMP, bounds, &list_of(&rows)));
        let (tree, _) = out.built(index(next, STAMP, bounds, &index_list_of(&children)));
        for damaged in [false, true] {
            if damaged {
                for at in [page, tree] {
                    out.put(at as usize + 72, &[0; 12]);
                }
            }
            for probe in ["-", "617a7a", "62", "6262", "626278", "6265", "63", "ff"] {
                out.say(format!("search {page} {probe}"));
                for at in [page, tree] {
                    out.say(format!("lower {at} {probe} {LARGEST}"));
                    out.say(format!("lower {at} {probe} 0 0"));
                }
                out.say(format!("floor {tree} {probe}"));
            }
        }
    });
}

/// At equal keys the newer version comes first; an index page ignores the version.
fn versions(out: &mut Out, rng: &mut Prng) {
    out.note("lower bounds with every order of version against the head's");
    out.case(rng, |out, _| {
        let rows = [
            row(b"a", 5, 5, b"1"),
            row(b"b", 5, 5, b"2"),
            row(b"b", 4, 9, b"3"),
            row(b"c", 5, 5, b"4"),
        ];
        let (page, next) = out.built(leaf(8, 64, 256, STAMP, NONE, &list_of(&rows)));
        let (tree, _) = out.built(index(
            next,
            STAMP,
            NONE,
            &index_list_of(&[(b"a".to_vec(), 1), (b"b".to_vec(), 2)]),
        ));
        for probe in ["61", "62", "63", "6100", "64", "-"] {
            for version in [LARGEST, "6 0", "5 6", "5 5", "5 4", "4 4294967295", "4 9", "0 0"] {
                out.say(format!("lower {page} {probe} {version}"));
            }
            out.say(format!("lower {tree} {probe} {LARGEST}"));
            out.say(format!("lower {tree} {probe} 0 0"));
        }
    });
}

/// Probes from elsewhere are answered without a key read, and the other kind of page is 4.
fn other_probes(out: &mut Out, rng: &mut Prng) {
    for prefix in [&b"p"[..], b"prefix", &[0x70; 130]] {
        for n in [0usize, 1, 5] {
            out.note("probes without the prefix, shorter than it, equal to it, and the other kind of page");
            out.case(rng, |out, _| {
                let (lo, hi) = ([prefix, b"a"].concat(), [prefix, b"z"].concat());
                let key = |i: usize| [prefix, &[b'b' + i as u8]].concat();
                let rows: Vec<Row> = (0..n).map(|i| row(&key(i), 5, 0, b"v")).collect();
                let (page, next) =
                    out.built(leaf(8, 64, 256, STAMP, (0, &lo, &hi), &list_of(&rows)));
                let children: Vec<_> = (0..n).map(|i| (key(i), 7)).collect();
                let (tree, _) =
                    out.built(index(next, STAMP, (0, &lo, &hi), &index_list_of(&children)));
                let mut off = prefix.to_vec();
                off[0] ^= 0x80;
                let mut end = prefix.to_vec();
                *end.last_mut().unwrap() ^= 1;
                for probe in [
                    vec![],
                    prefix[..prefix.len() - 1].to_vec(),
                    prefix.to_vec(),
                    off.clone(),
                    [&off[..], b"b"].concat(),
                    [&end[..], b"b"].concat(),
                    key(0),
                ] {
                    let probe = text::write(&probe);
                    for at in [page, tree] {
                        out.say(format!("search {at} {probe}"));
                        out.say(format!("floor {at} {probe}"));
                        out.say(format!("lower {at} {probe} {LARGEST}"));
                    }
                }
            });
        }
    }
    out.note("a probe may have any length");
    out.case(rng, |out, _| {
        let (page, next) =
            out.built(leaf(8, 64, 256, STAMP, NONE, &list_of(&[row(&[0x61; 4096], 1, 0, b"v")])));
        let (tree, _) =
            out.built(index(next, STAMP, NONE, &index_list_of(&[(vec![0x61; 4096], 1)])));
        for probe in ["61*4096.", "61*4097.", "61*4095.", "61*9000.", "62*9000.", "-"] {
            out.say(format!("search {page} {probe}"));
            out.say(format!("lower {page} {probe} {LARGEST}"));
            out.say(format!("floor {tree} {probe}"));
            out.say(format!("lower {tree} {probe} {LARGEST}"));
        }
    });
}

/// As many keys as need ten halvings, and keys that differ late.
fn many_keys(out: &mut Out, rng: &mut Prng) {
    for n in [255usize, 256, 1000] {
        out.note(&format!("{n} keys of three bytes"));
        out.case(rng, |out, rng| {
            let key = |i: usize| vec![b'k', (i / 100) as u8, (i % 100) as u8 * 2];
            let rows: Vec<Row> = (0..n).map(|i| row(&key(i), 5, 0, &[])).collect();
            let (page, next) = out.built(leaf(8, 64, 256, STAMP, NONE, &list_of(&rows)));
            let children: Vec<_> = (0..n).map(|i| (key(i), i as u64)).collect();
            let (tree, _) = out.built(index(next, STAMP, NONE, &index_list_of(&children)));
            out.say(format!("check {page}"));
            out.say(format!("check {tree}"));
            for i in [0, 1, n / 2, n - 1]
                .into_iter()
                .chain((0..12).map(|_| rng.below(n)).collect::<Vec<_>>())
            {
                let (mut between, exact) = (key(i), key(i));
                between[2] += 1;
                for probe in [exact, between] {
                    let probe = text::write(&probe);
                    out.say(format!("search {page} {probe}"));
                    out.say(format!("lower {page} {probe} {LARGEST}"));
                    out.say(format!("floor {tree} {probe}"));
                }
            }
        });
    }
    out.note("keys that differ only behind a word, and lengths around words of eight");
    out.case(rng, |out, _| {
        let mut keys: Vec<Vec<u8>> = Vec::new();
        for len in [7usize, 8, 9, 15, 16, 17, 24] {
            for last in [0x00, 0x7f, 0x80, 0xff] {
                let mut key = vec![0x6d; len];
                key[len - 1] = last;
                keys.push(key);
            }
        }
        keys.sort();
        let rows: Vec<Row> = keys.iter().map(|k| row(k, 1, 0, &k[k.len() - 1..])).collect();
        let (page, _) = out.built(leaf(8, 64, 256, STAMP, NONE, &list_of(&rows)));
        for key in &keys {
            out.say(format!("search {page} {}", text::write(key)));
            let mut other = key.clone();
            let last = other.len() - 1;
            other[last] ^= 0x81;
            out.say(format!("search {page} {}", text::write(&other)));
            out.say(format!("lower {page} {} {LARGEST}", text::write(&other)));
        }
    });
}

/// Random pages and probes; values found are handed back whole, remotes resolved.
fn random_pages(out: &mut Out, rng: &mut Prng) {
    for _ in 0..45 {
        out.note("a random leaf and a random index page");
        out.case(rng, |out, rng| {
            let prefix = sample::prefix(rng);
            let (lo, hi) = sample::bounds(rng, &prefix);
            let limit = rng.pick(&[4usize, 16, 64]);
            let count = rng.below(14);
            let keys = sample::keys_between(rng, &lo, &hi, count);
            let rows = sample::rows(rng, &keys, 3, limit);
            let (page, next) =
                out.built(leaf(8, limit, 256, STAMP, (3, &lo, &hi), &list_of(&rows)));
            let children: Vec<_> = keys.iter().map(|k| (k.clone(), rng.number())).collect();
            let (tree, _) = out.built(index(next, STAMP, (3, &lo, &hi), &index_list_of(&children)));
            for probe in sample::probes(rng, &prefix, &keys, 12) {
                let probe = text::write(&probe);
                out.say(format!("search {page} {probe}"));
                let version = rng.pick(&[LARGEST, "0 0", "1000500 1", "1000000 4294967295"]);
                out.say(format!("lower {page} {probe} {version}"));
                out.say(format!("floor {tree} {probe}"));
                out.say(format!("lower {tree} {probe} 0 0"));
            }
        });
    }
}

//! deltas.txt: deltas byte for byte, their readers, and the overlay lookup.

use super::{NONE, Out, dleaf, index, leaf};
use crate::prng::Prng;
use crate::sample::{self, index_list_of, list_of, row};
use crate::text;

const STAMP: &str = "1 0 0 0";

pub(super) fn write(out: &mut Out, rng: &mut Prng) {
    leaf_deltas(out, rng);
    index_deltas(out, rng);
    wrong_kinds(out, rng);
    overlays(out, rng);
    random_overlays(out, rng);
}

fn leaf_deltas(out: &mut Out, rng: &mut Prng) {
    for key_len in (0..=19).chain(108..=134).chain([255, 256, 4095, 4096]) {
        out.case(rng, |out, rng| {
            let key = sample::filling(rng, key_len);
            let len = rng.pick(&[0usize, 7, 8, 9]);
            let value = rng.bytes(len);
            let (addr, _) =
                out.built(dleaf(8, 8, "3 5 4", (rng.number(), rng.number() as u32), &key, &value));
            out.say(format!("dkey {addr}"));
            out.say(format!("dval {addr}"));
        });
    }
    out.note("values one below, at and one above the limit; the remote frame comes first");
    for limit in [1usize, 2, 8, 64, 512, 65_535, 65_536] {
        for len in [limit - 1, limit, (limit + 1).min(65_536)] {
            out.case(rng, |out, rng| {
                let value = sample::filling(rng, len);
                let next = rng.pick(&[8u64, 16, 80]);
                let (addr, _) =
                    out.built(dleaf(next, limit, "9 7 8", (u64::MAX, u32::MAX), b"key", &value));
                out.say(format!("dkey {addr}"));
                out.say(format!("dval {addr}"));
            });
        }
    }
}

fn index_deltas(out: &mut Out, rng: &mut Prng) {
    for key_len in (0..=10).chain(124..=131).chain([255, 4095, 4096]) {
        out.case(rng, |out, rng| {
            let key = sample::filling(rng, key_len);
            let pid = rng.pick(&[0, 1, u64::MAX, rng.clone().number()]);
            let stamp = sample::stamp(rng);
            let (addr, _) = out.built(format!("dindex 8 {stamp} {} {pid}", text::write(&key)));
            out.say(format!("ikey {addr}"));
            out.say(format!("ipid {addr}"));
        });
    }
}

/// A reader of one kind on frames of every other kind, and on no frame.
fn wrong_kinds(out: &mut Out, rng: &mut Prng) {
    out.note("each reader on each kind of frame");
    out.case(rng, |out, rng| {
        let (delta, next) = out.built(dleaf(8, 4, "0 0 0", (5, 5), b"k", &rng.bytes(6)));
        let (plain, next) = out.built(dleaf(next, 64, "0 0 0", (5, 5), b"k", &rng.bytes(6)));
        let (tree_delta, next) = out.built(format!("dindex {next} {STAMP} 6b 7"));
        let rows = [row(b"k", 9, 0, &rng.bytes(3)), row(b"k", 8, 0, &rng.bytes(9))];
        let (page, next) = out.built(leaf(next, 8, 256, STAMP, NONE, &list_of(&rows)));
        let (tree, end) =
            out.built(index(next, STAMP, NONE, &index_list_of(&[(b"k".to_vec(), 1)])));
        let history = tree_delta + 56;
        for addr in [
            delta,
            plain,
            tree_delta,
            page,
            tree,
            8,
            history,
            0,
            4,
            12,
            end,
            end + 8,
            u64::MAX - 7,
            u64::MAX,
        ] {
            for reader in
                ["dkey", "dval", "ikey", "ipid", "check", "lo", "hi", "prefix", "hists", "remotes"]
            {
                out.say(format!("{reader} {addr}"));
            }
            out.say(format!("search {addr} 6b"));
            out.say(format!("floor {addr} 6b"));
            out.say(format!("lower {addr} 6b 0 0"));
            out.say(format!("walk {addr} 0 0"));
            out.say(format!("back {addr} -1 0"));
        }
    });
}

/// The bytes of a buffer that holds one delta, and the delta's address in it.
fn buffer(command: String) -> (u64, String) {
    let mut made = Out::new();
    made.arena(super::MAX_ARENA, 0xee);
    let (addr, next) = made.built(command);
    (addr, text::write(&made.bytes()[..next as usize]))
}

fn overlays(out: &mut Out, rng: &mut Prng) {
    for elems in [0usize, 1, 3] {
        for remote in [false, true] {
            out.note(&format!("a page of {elems} keys and a delta newer, equal, older, of other keys; remotes: {remote}"));
            out.case(rng, |out, rng| {
                let limit = if remote { 2 } else { 64 };
                let rows: Vec<_> = (0..elems)
                    .map(|i| row(&[b'p', b'a' + i as u8], 5, 5, &[b'v', i as u8, 0]))
                    .collect();
                let (page, _) =
                    out.built(leaf(8, limit, 256, STAMP, (0, b"pa", b"pz"), &list_of(&rows)));
                for key in [&b"pa"[..], b"pb", b"pbb", b"p", b"q", b""] {
                    for version in [(6, 0), (5, 6), (5, 5), (5, 4), (4, 9)] {
                        if key != b"pa" && version != (5, 5) {
                            continue;
                        }
                        let (delta, bytes) =
                            buffer(dleaf(8, limit, "0 0 0", version, key, &rng.bytes(4)));
                        out.say(format!("buffer {bytes}"));
                        for probe in ["7061", "7062", "706262", "70", "71", "-"] {
                            out.say(format!("overlay {page} {delta} {probe}"));
                        }
                    }
                }
            });
        }
    }
    out.note("an index page, an index delta, a page as delta, a delta as page, and no frames");
    out.case(rng, |out, _| {
        let (page, next) =
            out.built(leaf(8, 64, 256, STAMP, NONE, &list_of(&[row(b"k", 1, 0, b"v")])));
        let (tree, next) =
            out.built(index(next, STAMP, NONE, &index_list_of(&[(b"k".to_vec(), 1)])));
        let (own, _) = out.built(dleaf(next, 64, "0 0 0", (1, 0), b"k", b"w"));
        for command in [
            dleaf(8, 64, "0 0 0", (1, 0), b"k", b"d"),
            format!("dindex 8 {STAMP} 6b 7"),
            leaf(8, 64, 256, STAMP, NONE, &list_of(&[row(b"k", 1, 0, b"v")])),
        ] {
            let (delta, bytes) = buffer(command);
            out.say(format!("buffer {bytes}"));
            for at in [page, tree, own, 0, 4, u64::MAX - 7] {
                out.say(format!("overlay {at} {delta} 6b"));
            }
            for at in [0, 4, 16, 4096, u64::MAX - 7] {
                out.say(format!("overlay {page} {at} 6b"));
            }
        }
        out.say("buffer -");
        out.say(format!("overlay {page} 8 6b"));
    });
}

fn random_overlays(out: &mut Out, rng: &mut Prng) {
    for _ in 0..25 {
        out.note("a random page and random deltas");
        out.case(rng, |out, rng| {
            let prefix = sample::prefix(rng);
            let (lo, hi) = sample::bounds(rng, &prefix);
            let limit = rng.pick(&[4usize, 16, 64]);
            let count = rng.below(5);
            let keys = sample::keys_between(rng, &lo, &hi, count);
            let rows = sample::rows(rng, &keys, 3, limit);
            let (page, _) = out.built(leaf(8, limit, 256, STAMP, (3, &lo, &hi), &list_of(&rows)));
            for _ in 0..3 {
                let key = sample::probes(rng, &prefix, &keys, 1).pop().unwrap();
                let version = match rows.iter().find(|r| r.key == key) {
                    Some(r) => rng.pick(&[(r.txid, r.cmd), (r.txid + 1, 0), (r.txid - 1, 9)]),
                    None => (7, 7),
                };
                let len = sample::value_len(rng, limit);
                let next = rng.pick(&[8u64, 40]);
                let (delta, bytes) =
                    buffer(dleaf(next, limit, "1 2 3", version, &key, &sample::filling(rng, len)));
                out.say(format!("buffer {bytes}"));
                out.say(format!("overlay {page} {delta} {}", text::write(&key)));
                for probe in sample::probes(rng, &prefix, &keys, 2) {
                    out.say(format!("overlay {page} {delta} {}", text::write(&probe)));
                }
            }
        });
    }
}

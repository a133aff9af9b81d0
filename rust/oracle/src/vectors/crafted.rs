//! crafted.txt: sound pages that no build writes. What soundness does not judge may be anything,
//! and what it allows may be shared; every reader and merge must take it. Here too number 8.

use super::{NONE, Out, Place, index, leaf};
use crate::prng::Prng;
use crate::sample::{Row, index_list_of, list_of, row};
use crate::text;
use crate::upstream::RUST_HIST_PAGE_BUDGET;

const STAMP: &str = "1 1 1 1";

// Three neighbours; the keys `a` and `b` lie in the middle one.
const BEFORE: Place = (0, b"", b"a");
const MIDDLE: Place = (0, b"a", b"c");
const BEHIND: Place = (0, b"c", b"");

// Offsets in a page's frame.
const LINK: usize = 8;
const TXID: usize = 16;
const LSN: usize = 24;
const SIZE: usize = 32;
const SIBLING: usize = 40;
const PREFIX_LEN: usize = 64;
const SLOTS: usize = 72;

pub(super) fn write(out: &mut Out, rng: &mut Prng) {
    unjudged_bytes(out, rng);
    shorter_prefix(out);
    history_shapes(out);
    empty_remote(out);
    spare_room(out);
    too_many_records(out);
    too_large(out);
}

fn merge(next: u64, limit: usize, left: u64, right: u64) -> String {
    format!("merge {next} {limit} 256 {STAMP} {left} {right}")
}

fn elems_u32(out: &Out, at: usize) -> usize {
    u32::from_le_bytes(out.bytes()[at..at + 4].try_into().unwrap()) as usize
}

/// Where the value of a head begins: behind its slot's key.
fn value_at(out: &Out, page: u64, pos: usize) -> usize {
    let base = page as usize + 32;
    let key = base + elems_u32(out, page as usize + SLOTS + 4 * pos);
    // every key here is short
    key + 1 + out.bytes()[key] as usize
}

/// "tail, rounding and hint addresses are not judged", nor group, txid and lsn, nor a sibling id.
fn unjudged_bytes(out: &mut Out, rng: &mut Prng) {
    out.note("tail, rounding, hint addresses, group, txid, lsn and sibling changed: the page stays sound");
    out.arena(1024, 0);
    let rows = [row(b"a", 9, 0, b"head"), row(b"a", 8, 0, &[7; 40]), row(b"b", 9, 0, &[8; 70])];
    let (page, next) = out.built(leaf(8, 64, 256, STAMP, (3, b"", b"c"), &list_of(&rows)));
    let (right, next) =
        out.built(leaf(next, 64, 256, STAMP, (0, b"c", b""), &list_of(&[row(b"c", 1, 1, b"x")])));
    let at = page as usize;
    let size = elems_u32(out, at + SIZE);
    let payload = elems_u32(out, at);
    // the second version's size is 59, the head needs 14 of it
    out.put(at + 32 + size - 45, &rng.bytes(45));
    out.put(at + 32 + payload, &vec![0xcc; (8 - payload % 8) % 8]);
    out.put(at + 32 + size + 4, &rng.bytes(8));
    out.put(at + 32 + size + 16, &rng.bytes(8));
    out.put(at + 7, &[200]);
    out.put(at + TXID, &rng.bytes(8));
    out.put(at + LSN, &rng.bytes(8));
    out.put(at + SIBLING, &rng.bytes(8));
    out.page(page, 2);
    out.say(format!("search {page} 61"));
    out.say(format!("search {page} 62"));
    for limit in [8, 64, 100] {
        out.say(merge(next, limit, page, right));
    }
    out.say(merge(next, 64, right, page));
}

/// prefix_len is judged against lo_len only: shorter than the common bytes, the keys hold what is missing; longer, all of lo stands
/// before each key. The keys lie between the boundaries either way.
fn shorter_prefix(out: &mut Out) {
    out.note("a prefix shorter than the boundaries' common bytes, as long, one byte longer, and longer than lo");
    for len in [0u8, 1, 2, 3, 4, 5] {
        out.arena(1024, 0);
        // boundaries that share so many bytes, and then the byte that makes them share three
        let mut lo = *b"abcd";
        if len < 3 {
            lo[len as usize] -= 0x20;
        }
        let bounds: Place = (3, &lo, b"abce");
        let (page, next) = out.built(leaf(
            8,
            64,
            256,
            STAMP,
            bounds,
            &list_of(&[row(b"abcdx", 9, 0, b"v"), row(b"abcdy", 9, 0, b"w")]),
        ));
        let (tree, next) =
            out.built(index(next, STAMP, bounds, &index_list_of(&[(b"abcdx".to_vec(), 9)])));
        let right: Place = (4, b"abce", b"abcf");
        let (after, next) = out.built(leaf(next, 64, 256, STAMP, right, &list_of(&[])));
        let (after_tree, next) = out.built(index(next, STAMP, right, &index_list_of(&[])));
        for (at, after) in [(page, after), (tree, after_tree)] {
            let elems = out.elems(at);
            out.put(at as usize + PREFIX_LEN, &[len]);
            out.put(at as usize + SLOTS + 4 * elems, b"abcd");
            out.page(at, elems);
            for probe in ["78", "6178", "616278", "6162636478", "616263646478", "-"] {
                out.say(format!("search {at} {probe}"));
                out.say(format!("floor {at} {probe}"));
                out.say(format!("lower {at} {probe} 9 0"));
            }
            out.say(merge(next, 64, at, at));
            out.say(merge(next, 64, at, after));
        }
    }
}

/// Links past what is needed, heads that share old versions, a chain entered in its middle.
fn history_shapes(out: &mut Out) {
    let rows = |first: u64| -> Vec<Row> {
        let mut rows = Vec::new();
        for key in [b"a", b"b"] {
            rows.push(row(key, 100, 0, b"head"));
            rows.extend((0..4).map(|i| row(key, first - i, 0, &[i as u8; 51])));
        }
        rows
    };
    out.note("a last link that nobody follows may be any number above");
    out.arena(2048, 0);
    let (page, next) = out.built(leaf(8, 64, 256, STAMP, NONE, &list_of(&rows(50))));
    let last = out
        .say(format!("hists {page}"))
        .trim()
        .rsplit(' ')
        .next()
        .unwrap()
        .parse::<usize>()
        .unwrap();
    for link in [last as u64 + 1, page, 4096, u64::MAX] {
        out.put(last + LINK, &link.to_le_bytes());
        out.page(page, 2);
        out.say(format!("back {page} 1 0"));
        out.say(merge(next, 64, page, page));
    }
    out.note(
        "both heads with the same old versions, with parts of them, and with one count too many",
    );
    out.arena(4096, 0);
    // one run of versions over both keys: 50 .. 47, 46 .. 43
    let mut rows = rows(50);
    for (i, r) in rows[6..].iter_mut().enumerate() {
        r.txid = 46 - i as u64;
    }
    let (page, next) = out.built(leaf(8, 64, 256, STAMP, MIDDLE, &list_of(&rows)));
    let (before, next) = out.built(leaf(next, 64, 256, STAMP, BEFORE, &list_of(&[])));
    let (behind, next) = out.built(leaf(next, 64, 256, STAMP, BEHIND, &list_of(&[])));
    let (first, second) = (value_at(out, page, 0), value_at(out, page, 1));
    for (slot, count) in [
        (0u16, 8u32),
        (1, 7),
        (2, 6),
        (0, 1),
        (2, 1),
        (0, 9),
        (1, 8),
        (2, 7),
        (3, 1),
        (0, 0),
        (0, u32::MAX),
    ] {
        for at in [first, second] {
            out.put(at + 1, &8u64.to_le_bytes());
            out.put(at + 9, &slot.to_le_bytes());
            out.put(at + 11, &count.to_le_bytes());
        }
        out.page(page, 2);
        out.say(format!("back {page} 1 0"));
        out.say(format!("search {page} 62"));
        out.say(merge(next, 64, page, behind));
        out.say(merge(next, 16, before, page));
    }
    out.note("two values with one remote, which a merge keeps twice or copies twice");
    out.arena(2048, 0);
    let rows = [row(b"a", 9, 0, &[1; 20]), row(b"b", 9, 0, &[2; 20])];
    let (page, next) = out.built(leaf(8, 16, 256, STAMP, MIDDLE, &list_of(&rows)));
    let (behind, next) = out.built(leaf(next, 64, 256, STAMP, BEHIND, &list_of(&[])));
    let (first, second) = (value_at(out, page, 0), value_at(out, page, 1));
    let remote = out.bytes()[first + 5..first + 13].to_vec();
    out.put(second + 5, &remote);
    out.page(page, 2);
    for limit in [16, 64] {
        out.say(merge(next, limit, page, behind));
    }
}

/// A remote of size 0: no limit makes one, and every merge copies it inline.
fn empty_remote(out: &mut Out) {
    out.note("a remote frame of size 0");
    out.arena(1024, 0);
    let (page, next) =
        out.built(leaf(8, 1, 256, STAMP, MIDDLE, &list_of(&[row(b"a", 9, 0, &[1; 8])])));
    let (behind, next) = out.built(leaf(next, 64, 256, STAMP, BEHIND, &list_of(&[])));
    let value = value_at(out, page, 0);
    let remote =
        u64::from_le_bytes(out.bytes()[value + 5..value + 13].try_into().unwrap()) as usize;
    out.put(value + 1, &0u32.to_le_bytes());
    out.say(format!("check {page}"));
    out.put(remote, &8u32.to_le_bytes());
    out.say(format!("check {page}"));
    out.put(remote + 32, &0u64.to_le_bytes());
    out.page(page, 1);
    out.say(format!("search {page} 61"));
    for limit in [1, 64] {
        out.say(merge(next, limit, page, behind));
    }
}

/// "room beyond the counts is fine": a payload larger than the hints need, and none at all.
fn spare_room(out: &mut Out) {
    out.note("a leaf's payload that ends with size, inside a count, and far behind the hints");
    out.arena(512, 0);
    let rows = [row(b"a", 9, 0, b"head"), row(b"a", 8, 0, b"old!")];
    let (page, _) = out.built(leaf(8, 64, 256, STAMP, NONE, &list_of(&rows)));
    let at = page as usize;
    let size = elems_u32(out, at + SIZE) as u32;
    for payload in [
        size,
        size + 1,
        size + 3,
        size + 4,
        size + 8,
        size + 12,
        size + 15,
        size + 16,
        size + 17,
        size + 80,
        size + 4096,
        size - 1,
    ] {
        out.put(at, &payload.to_le_bytes());
        out.page(page, 1);
    }
}

/// Number 8 by records: 255 heads that share 256 old versions are 65,535 records, the most.
fn too_many_records(out: &mut Out) {
    out.note("8: 255 heads that share 256 old versions stand for 65,535 records; with one more it is too big");
    out.arena(80_000, 0);
    let mut rows = Vec::new();
    for i in 0..255u64 {
        let key = [i as u8, 0];
        rows.push(row(&key, 1000, 0, b""));
        rows.push(row(&key, 900 - i, 0, b""));
    }
    // two old versions more: 256 for most, and one for the head that makes it too big alone
    rows.push(row(&[254, 0], 100, 0, b""));
    rows.push(row(&[254, 0], 99, 0, b""));
    // the page has all keys from 00 00 on and below ff 01
    let (lo, hi): (&[u8], &[u8]) = (&[0, 0], &[255, 1]);
    let (page, next) =
        out.built(leaf(8, 64, RUST_HIST_PAGE_BUDGET, STAMP, (0, lo, hi), &list_of(&rows)));
    let (before, next) = out.built(leaf(next, 64, 256, STAMP, (0, b"", lo), &list_of(&[])));
    let (behind, next) = out.built(leaf(next, 64, 256, STAMP, (0, hi, b""), &list_of(&[])));
    let (low, next) =
        out.built(leaf(next, 64, 256, STAMP, (0, b"", lo), &list_of(&[row(&[], 1, 0, b"")])));
    let (one, next) =
        out.built(leaf(next, 64, 256, STAMP, (0, hi, b""), &list_of(&[row(hi, 1, 0, b"")])));
    let (tree, next) = out.built(index(next, STAMP, NONE, &index_list_of(&[])));
    let (above, next) = out.built(leaf(next, 64, 256, STAMP, (0, &[255], hi), &list_of(&[])));
    let (far, next) = out.built(leaf(
        next,
        64,
        256,
        STAMP,
        (0, &[255, 2], b""),
        &list_of(&[row(&[255, 2], 1, 0, b"")]),
    ));
    let reference = |count: u32| [&8u64.to_le_bytes()[..], &[0; 2], &count.to_le_bytes()].concat();
    for pos in 0..255 {
        let at = value_at(out, page, pos);
        out.put(at + 1, &reference(256));
    }
    out.say(format!("check {page}"));
    out.note("65,535 records: not 8, but there is no room for them");
    out.say(merge(next, 64, page, behind));
    out.say(merge(next, 64, before, page));
    out.note("65,536: too big");
    out.say(merge(next, 64, page, one));
    out.say(merge(next, 64, low, page));
    out.note("5, 6 and 10 come before it");
    out.say(merge(next, 64, page, tree));
    out.say(merge(next, 64, page, low));
    out.say(merge(next, 64, page, page));
    out.say(merge(next, 64, page, far));
    out.say(merge(next, 64, one, page));
    let first = value_at(out, page, 0);
    out.put(first + 1, &reference(257));
    out.note("one page alone too big: 7 (the prefix of the new boundaries would be ff), 10 and 8");
    out.say(merge(next, 64, above, page));
    out.say(merge(next, 64, page, above));
    out.say(merge(next, 64, page, behind));
    out.say(format!("search {page} {}", text::write(&[100, 0])));
    out.say(format!("walk {page} 254 255"));
}

/// Number 8 by size: heads that share one long second version, counted with history for each.
fn too_large(out: &mut Out) {
    out.note("8: size plus hint room of exactly 16,777,216 is accepted and has no room; one more is too big");
    const LEN: usize = 65_229;
    const HEADS: usize = 257;
    // size is 40 + lo + heads * (slot 4, key 15, value 5, second version 19 + LEN), room 8 + 8 a page
    const LO: usize = 16_777_216 - (40 + HEADS * (4 + 15 + 5 + 19 + LEN) + 8 + 8 * HEADS);
    out.arena(100_000, 0);
    let mut rows = Vec::new();
    for i in 0..HEADS {
        let key = [1 + (i / 200) as u8, (i % 200) as u8];
        rows.push(row(&key, 1000, 0, b""));
        rows.push(row(&key, 900, 0, b""));
    }
    let (page, history) =
        out.built(leaf(8, 65_536, RUST_HIST_PAGE_BUDGET, STAMP, (0, &[1], b""), &list_of(&rows)));
    out.note("a history page of one long record, put by hand; all heads name it");
    let size = (40 + 4 + 12 + 5 + LEN) as u32;
    let mut frame = Vec::new();
    frame.extend(size.to_le_bytes());
    frame.extend([1, 1, 1, 1]); // base, leaf, sibling, group
    frame.extend([0; 24]); // link, txid, lsn
    frame.extend(size.to_le_bytes());
    frame.extend([1, 0, 0, 0]); // elems
    frame.extend([0; 32]);
    frame.extend(44u32.to_le_bytes());
    frame.extend(900u64.to_le_bytes());
    frame.extend([0; 5]); // cmd, flag
    frame.extend((LEN as u32).to_le_bytes());
    frame.extend(vec![0xab; LEN]);
    frame.resize(frame.len().next_multiple_of(8), 0);
    out.put(history as usize, &frame);
    let next = history + frame.len() as u64;
    let reference = [&history.to_le_bytes()[..], &[0; 2], &1u32.to_le_bytes()].concat();
    for pos in 0..HEADS {
        let at = value_at(out, page, pos);
        out.put(at + 1, &reference);
    }
    out.say(format!("check {page}"));
    for lo_len in [LO - 1, LO, LO + 1, LO + 2] {
        let (left, next) =
            out.built(leaf(next, 64, 256, STAMP, (0, &vec![0; lo_len], &[1]), &list_of(&[])));
        out.say(format!("merge {next} 65536 256 {STAMP} {left} {page}"));
    }
}

//! damaged.txt: small arenas with every byte damaged in turn, and fields set to their edges.
//! The Rust cannot be asked about an unsound page; the answers are the model's alone.

use super::{NONE, Out, Place, dleaf, index, leaf};
use crate::prng::Prng;
use crate::sample::{index_list_of, list_of, row};
use crate::text;

const STAMP: &str = "1 1 1 1";

pub(super) fn write(out: &mut Out, rng: &mut Prng) {
    every_byte(out, rng);
    fields(out, rng);
    chains(out);
    places(out);
    lengths(out);
    heads_only(out);
    overlays(out, rng);
    outside(out);
}

/// Readers of one frame, with keys that it holds and does not.
fn readers(kind: &str, at: u64) -> Vec<String> {
    let names: &[&str] = match kind {
        "leaf" => &[
            "search A 7061",
            "search A 7062",
            "search A 70",
            "lower A 7061 9 9",
            "walk A 0 2",
            "walk A 1 2",
            "back A 1 0",
            "lo A",
            "hi A",
            "prefix A",
            "hists A",
            "remotes A",
            "walk A 0 0",
            "back A -1 0",
        ],
        "index" => &[
            "floor A 7061",
            "floor A 7062",
            "floor A 70ff",
            "lower A 7062 0 0",
            "walk A 0 3",
            "walk A 1 2",
            "lo A",
            "hi A",
            "prefix A",
        ],
        "dleaf" => &["dkey A", "dval A"],
        _ => &["ikey A", "ipid A"],
    };
    names.iter().map(|n| n.replace('A', &at.to_string())).collect()
}

struct Built {
    kind: &'static str,
    addr: u64,
    next: u64,
}

type Build = fn(&mut Out) -> Built;

/// Each small arena: what it holds is read by `readers`.
fn arenas() -> Vec<(&'static str, Build)> {
    fn plain(out: &mut Out) -> Built {
        let rows = [row(b"pa", 9, 5, b"xy"), row(b"pb", 7, 3, b"")];
        let (addr, next) = out.built(leaf(8, 64, 256, STAMP, (7, b"pa", b"pz"), &list_of(&rows)));
        Built { kind: "leaf", addr, next }
    }
    fn history(out: &mut Out) -> Built {
        let rows = [
            row(b"pa", 9, 5, b"xy"),
            row(b"pa", 8, 5, b"z"),
            row(b"pb", 9, 5, b"q"),
            row(b"pb", 9, 4, b"r"),
        ];
        let (addr, next) = out.built(leaf(8, 64, 256, STAMP, (7, b"p", b"pz"), &list_of(&rows)));
        Built { kind: "leaf", addr, next }
    }
    fn remotes(out: &mut Out) -> Built {
        let rows =
            [row(b"pa", 9, 5, b"remote"), row(b"pa", 8, 5, b"older"), row(b"pb", 9, 5, b"in")];
        let (addr, next) = out.built(leaf(8, 4, 256, STAMP, (7, b"p", b"pz"), &list_of(&rows)));
        Built { kind: "leaf", addr, next }
    }
    fn tree(out: &mut Out) -> Built {
        let children = [(b"pa".to_vec(), 5), (b"pb".to_vec(), 6), (b"pc".to_vec(), 0)];
        let (addr, next) = out.built(index(8, STAMP, (7, b"pa", b"pz"), &index_list_of(&children)));
        Built { kind: "index", addr, next }
    }
    fn leaf_delta(out: &mut Out) -> Built {
        let (addr, next) = out.built(dleaf(8, 4, "1 1 1", (9, 5), b"pa", b"remote"));
        Built { kind: "dleaf", addr, next }
    }
    fn inline_delta(out: &mut Out) -> Built {
        let (addr, next) = out.built(dleaf(8, 64, "1 1 1", (9, 5), b"pa", b"inline"));
        Built { kind: "dleaf", addr, next }
    }
    fn index_delta(out: &mut Out) -> Built {
        let (addr, next) = out.built(format!("dindex 8 {STAMP} 7061 5"));
        Built { kind: "dindex", addr, next }
    }
    vec![
        ("a leaf without history", plain),
        ("a leaf with one history page", history),
        ("remotes in a head and in a history", remotes),
        ("an index page", tree),
        ("a leaf delta with a remote", leaf_delta),
        ("a leaf delta without", inline_delta),
        ("an index delta", index_delta),
    ]
}

/// Damages bytes, asks, and repairs them.
fn damage(out: &mut Out, at: usize, bytes: &[u8], ask: &[String]) {
    let old = out.bytes()[at..at + bytes.len()].to_vec();
    if old == bytes {
        return;
    }
    out.put(at, bytes);
    for command in ask {
        out.say(command);
    }
    out.put(at, &old);
}

/// Every byte once with a flipped bit, read by the check and every reader, and once with another
/// value, read by the check and one of them.
fn every_byte(out: &mut Out, rng: &mut Prng) {
    for (about, build) in arenas() {
        let mut trial = Out::new();
        trial.arena(super::MAX_ARENA, 0);
        let size = build(&mut trial).next as usize;
        out.note(&format!("{about}: every byte damaged in turn"));
        out.arena(size, 0);
        let built = build(out);
        let all = readers(built.kind, built.addr);
        for command in &all {
            out.say(command);
        }
        for at in 8..size {
            let old = out.bytes()[at];
            let values = [
                old ^ (1 << rng.below(8)),
                rng.pick(&[0, 1, 2, 3, 0x7f, 0x80, 0xff, old.wrapping_add(1)]),
            ];
            for (turn, value) in values.into_iter().enumerate() {
                let mut ask = if turn == 0 { all.clone() } else { vec![rng.pick(&all)] };
                if built.kind == "leaf" || built.kind == "index" {
                    ask.insert(0, format!("check {}", built.addr));
                }
                damage(out, at, &[value], &ask);
            }
        }
    }
}

/// Fields of several bytes set to their edges; the check and every reader.
fn fields(out: &mut Out, rng: &mut Prng) {
    for (about, build) in arenas() {
        let mut trial = Out::new();
        trial.arena(super::MAX_ARENA, 0);
        let size = build(&mut trial).next as usize;
        out.note(&format!("{about}: fields at their edges"));
        out.arena(size, 0);
        let built = build(out);
        let frame = built.addr as usize;
        let mut damages: Vec<(usize, Vec<u8>)> = Vec::new();
        let u32_at =
            |out: &Out, at: usize| u32::from_le_bytes(out.bytes()[at..at + 4].try_into().unwrap());
        let near = |n: u32| {
            [
                n.wrapping_sub(1),
                n + 1,
                n + 8,
                n.wrapping_sub(8),
                0,
                39,
                40,
                4096,
                4097,
                1 << 31,
                u32::MAX,
            ]
        };
        // the payload size, in every kind
        damages.extend(near(u32_at(out, frame)).map(|n| (frame, n.to_le_bytes().to_vec())));
        damages.extend([0u8, 1, 2, 3, 4].map(|kind| (frame + 4, vec![kind])));
        damages.extend([0u8, 1, 2, 3].map(|node_type| (frame + 5, vec![node_type])));
        damages.extend([1u8, 2].map(|flag| (frame + 6, vec![flag])));
        damages.extend(
            [1u64, 8, built.next, u64::MAX].map(|link| (frame + 8, link.to_le_bytes().to_vec())),
        );
        if built.kind == "leaf" || built.kind == "index" {
            damages.extend(
                near(u32_at(out, frame + 32)).map(|n| (frame + 32, n.to_le_bytes().to_vec())),
            );
            damages
                .extend([0u16, 1, 3, 4, u16::MAX].map(|n| (frame + 36, n.to_le_bytes().to_vec())));
            for field in [56, 60, 64] {
                damages.extend(
                    [0u32, 1, 2, 3, 4096, 4097, u32::MAX]
                        .map(|n| (frame + field, n.to_le_bytes().to_vec())),
                );
            }
            // slots: neighbours, before the records, at the size and behind it
            let body = u32_at(out, frame + 32);
            for slot in 0..2usize {
                let at = frame + 72 + 4 * slot;
                let n = u32_at(out, at);
                damages.extend(
                    [n - 1, n + 1, 0, 40, body - 1, body, body + 1, u32::MAX]
                        .map(|n| (at, n.to_le_bytes().to_vec())),
                );
            }
            let (first, second) = (u32_at(out, frame + 72), u32_at(out, frame + 76));
            damages.push((frame + 72, [second.to_le_bytes(), first.to_le_bytes()].concat()));
            damages.push((frame + 72, [first.to_le_bytes(), first.to_le_bytes()].concat()));
            // the first key's length: not shortest, too short for a version, far too long
            let key = frame + 32 + first as usize;
            damages.extend(
                [
                    "8d00",
                    "8d8000",
                    "0b",
                    "00",
                    "7f",
                    "ff7f",
                    "ffffffff0f",
                    "ffffffff1f",
                    "808080808001",
                ]
                .map(|t| (key, text::read(t).unwrap())),
            );
            if built.kind == "leaf" {
                // the first value: flags, then a history reference or a size, as it stands
                let value = key + 1 + out.bytes()[key] as usize;
                damages.extend([0u8, 1, 2, 3, 4, 0x80].map(|flag| (value, vec![flag])));
                damages.extend(
                    [0u64, 4, 8, 16, built.addr, built.next, u64::MAX]
                        .map(|n| (value + 1, n.to_le_bytes().to_vec())),
                );
                damages
                    .extend([0u16, 1, 2, u16::MAX].map(|n| (value + 9, n.to_le_bytes().to_vec())));
                damages.extend(
                    [0u32, 1, 2, 3, u32::MAX].map(|n| (value + 11, n.to_le_bytes().to_vec())),
                );
                damages.extend(
                    [0u32, 1, 3, 7, 65_536, 65_537].map(|n| (value + 15, n.to_le_bytes().to_vec())),
                );
            }
        } else {
            for field in [32, 36] {
                let n = u32_at(out, frame + field);
                damages.extend(
                    [n - 1, n + 1, 0, 8, u32::MAX]
                        .map(|n| (frame + field, n.to_le_bytes().to_vec())),
                );
            }
            let (klen, vlen) = (u32_at(out, frame + 32), u32_at(out, frame + 36));
            for (k, v) in [
                (klen + 1, vlen - 1),
                (klen - 1, vlen + 1),
                (klen + vlen, 0),
                (0, klen + vlen),
                (vlen, klen),
            ] {
                damages.push((frame + 32, [k.to_le_bytes(), v.to_le_bytes()].concat()));
            }
            let key = frame + 40;
            damages.extend(
                ["8e00", "0b", "00", "ff", "ffffffff0f"].map(|t| (key, text::read(t).unwrap())),
            );
            let value = key + klen as usize;
            damages.extend([0u8, 1, 2, 3].map(|flag| (value, vec![flag])));
            damages.extend([0u32, 5, 7, 65_537].map(|n| (value + 1, n.to_le_bytes().to_vec())));
        }
        let all = readers(built.kind, built.addr);
        for (at, bytes) in damages {
            if at + bytes.len() > size {
                continue;
            }
            let mut ask = vec![rng.pick(&all), rng.pick(&all)];
            if built.kind == "leaf" || built.kind == "index" {
                ask.insert(0, format!("check {}", built.addr));
            }
            damage(out, at, &bytes, &ask);
        }
    }
}

/// A chain of history pages with links, counts and pages broken; walks list what comes before.
fn chains(out: &mut Out) {
    out.note(
        "three linked history pages: links that end early, go down, in a ring or to other frames",
    );
    out.arena(2048, 0);
    let mut rows = vec![row(b"k", 100, 0, b"head")];
    rows.extend(
        (0..8u64).map(|i| row(b"k", 50 - i, 0, &vec![i as u8; if i == 4 { 70 } else { 51 }])),
    );
    rows.push(row(b"l", 100, 0, b"last"));
    let (page, next) = out.built(leaf(8, 64, 256, STAMP, NONE, &list_of(&rows)));
    let hints = out.say(format!("hists {page}"));
    let pages: Vec<usize> = hints.trim().split(' ').skip(1).map(|w| w.parse().unwrap()).collect();
    let ask = [
        format!("check {page}"),
        format!("walk {page} 0 2"),
        format!("back {page} 1 0"),
        format!("search {page} 6b"),
        format!("merge {next} 64 256 {STAMP} {page} {page}"),
    ];
    for command in &ask {
        out.say(command);
    }
    for &at in &pages {
        for link in [
            0u64,
            4,
            pages[0] as u64,
            at as u64,
            pages[1] as u64,
            pages[2] as u64,
            page,
            next,
            u64::MAX - 7,
        ] {
            damage(out, at + 8, &link.to_le_bytes(), &ask);
        }
        for (offset, bytes) in [
            (4, vec![2u8]),
            (5, vec![2]),
            (6, vec![0]),
            (0, vec![0]),
            (32, vec![39, 0]),
            (36, vec![0]),
            (36, vec![1]),
            (36, vec![4]),
            (40, vec![1]),
            (56, vec![1]),
            (60, vec![1]),
            (64, vec![1]),
            (69, vec![1]),
            (70, vec![1]),
            (72, vec![0]),
            (76, vec![0]),
        ] {
            damage(out, at + offset, &bytes, &ask);
        }
        // versions: the first record's txid equal to, or newer than, what comes before
        let slot = u32::from_le_bytes(out.bytes()[at + 72..at + 76].try_into().unwrap()) as usize;
        for txid in [0u64, 50, 100, 101] {
            damage(out, at + 32 + slot, &txid.to_le_bytes(), &ask);
        }
        damage(out, at + 32 + slot + 12, &[1], &ask);
        damage(out, at + 32 + slot + 12, &[2], &ask);
    }
}

/// Whole frames at places that are no address: below 8, or no multiple of 8.
fn places(out: &mut Out) {
    out.note("a leaf, its history page and its remote, copied to places that are no address and named there");
    out.arena(1200, 0);
    let rows = [row(b"k", 9, 5, b"remote"), row(b"k", 8, 5, b"in")];
    let (page, next) = out.built(leaf(608, 4, 256, STAMP, NONE, &list_of(&rows)));
    let frames = |out: &Out| out.bytes()[608..next as usize].to_vec();
    let value = page as usize + 32 + 44 + 14;
    let remote = u64::from_le_bytes(out.bytes()[value + 19..value + 27].try_into().unwrap());
    for at in [0u64, 4, 7, 9, 12, 203, 204, 16, 208] {
        let moved = frames(out);
        out.put(at as usize, &moved);
        let here = at + page - 608;
        let copies = ["check A", "search A 6b", "walk A 0 1", "lo A", "hists A"];
        for command in copies {
            out.say(command.replace('A', &here.to_string()));
        }
        let ask = copies.map(|c| c.replace('A', &page.to_string()));
        damage(out, value + 1, &at.to_le_bytes(), &ask);
        damage(out, value + 19, &(at + remote - 608).to_le_bytes(), &ask);
    }
    out.note("a delta likewise");
    out.arena(400, 0);
    let (delta, next) = out.built(dleaf(208, 64, "1 1 1", (9, 5), b"k", b"v"));
    let frame = out.bytes()[delta as usize..next as usize].to_vec();
    for at in [0u64, 4, 8, 12, 63, 64] {
        out.put(at as usize, &frame);
        out.say(format!("dkey {at}"));
        out.say(format!("dval {at}"));
    }
}

/// The table's lengths, each kept and then exceeded by one where nothing else is wrong.
fn lengths(out: &mut Out) {
    out.note("whole keys of 4,096 and 4,097: the prefix grows, the rest stays");
    out.arena(20_000, 0);
    let key = vec![b'x'; 4090];
    let bounds: Place = (0, &[b'x'; 20], b"");
    let (page, next) =
        out.built(leaf(8, 64, 256, STAMP, bounds, &list_of(&[row(&key, 9, 5, b"v")])));
    let (tree, _) = out.built(index(next, STAMP, bounds, &index_list_of(&[(key, 7)])));
    for len in [5u8, 6, 7, 20] {
        for at in [page, tree] {
            let ask = ["check A", "search A 78*4096.", "floor A 78*4096.", "lower A 78*4096. 9 5"]
                .map(|c| c.replace('A', &at.to_string()));
            damage(out, at as usize + 64, &[len], &ask);
            damage(out, at as usize + 64, &[len], &[format!("walk {at} 0 1")]);
        }
    }

    out.note("boundaries of 4,096 and 4,097: one grows by what the other loses");
    for (lo, hi) in [(4096usize, 10usize), (10, 4096)] {
        out.arena(9_000, 0);
        let bounds: Place = (0, &vec![b'l'; lo], &vec![b'm'; hi]);
        let (page, _) =
            out.built(leaf(8, 64, 256, STAMP, bounds, &list_of(&[row(b"lm", 9, 5, b"v")])));
        let ask = ["check", "lo", "hi", "prefix"].map(|reader| format!("{reader} {page}"));
        for shift in [-1i64, 1] {
            let (lo, hi) = ((lo as i64 + shift) as u32, (hi as i64 - shift) as u32);
            let lens = [lo.to_le_bytes(), hi.to_le_bytes()].concat();
            damage(out, page as usize + 56, &lens, &ask);
        }
    }

    out.note("inline values of 65,536 and 65,537, reaching into the tail");
    out.arena(70_000, 0);
    let rows = [row(b"k", 9, 5, &[7; 65_535]), row(b"k", 8, 5, &[8; 10])];
    let (page, _) = out.built(leaf(8, 65_536, 256, STAMP, NONE, &list_of(&rows)));
    let size_at = page as usize + 32 + 44 + 14 + 15;
    let ask = ["check A", "search A 6b", "walk A 0 1", "back A 0 0"]
        .map(|c| c.replace('A', &page.to_string()));
    for size in [65_536u32, 65_537] {
        damage(out, size_at, &size.to_le_bytes(), &ask);
    }

    out.note("remote values of 65,536 and 65,537, of a page and of a delta");
    out.arena(140_000, 0);
    let (page, next) =
        out.built(leaf(8, 64, 256, STAMP, NONE, &list_of(&[row(b"k", 9, 5, &[7; 65_536])])));
    let ask = ["check A", "search A 6b", "walk A 0 1"].map(|c| c.replace('A', &page.to_string()));
    larger_remote(out, page as usize + 32 + 44 + 14 + 1, next as usize - 65_576, &ask);
    let next = next + 8;
    let (delta, end) = out.built(dleaf(next, 64, "1 1 1", (9, 5), b"k", &[7; 65_536]));
    // a delta stands behind its remote, which cannot grow: it is moved away by one word
    let frame = out.bytes()[delta as usize..end as usize].to_vec();
    out.put(delta as usize + 8, &frame);
    let ask = ["dkey", "dval"].map(|reader| format!("{reader} {}", delta + 8));
    larger_remote(out, delta as usize + 8 + 40 + 14 + 1, next as usize, &ask);
}

/// One byte more in a value's size, its remote frame's size and its payload.
fn larger_remote(out: &mut Out, size_at: usize, remote: usize, ask: &[String]) {
    for command in ask {
        out.say(command);
    }
    let saved: Vec<(usize, Vec<u8>)> = [(size_at, 4), (remote, 4), (remote + 32, 8)]
        .map(|(at, len)| (at, out.bytes()[at..at + len].to_vec()))
        .to_vec();
    out.put(size_at, &65_537u32.to_le_bytes());
    out.put(remote, &65_545u32.to_le_bytes());
    out.put(remote + 32, &65_537u64.to_le_bytes());
    for command in ask {
        out.say(command);
    }
    for (at, old) in saved {
        out.put(at, &old);
    }
}

/// A history reference in an old version or a delta, with nothing else wrong: "(heads only)".
fn heads_only(out: &mut Out) {
    out.note("an old version and a delta whose bytes read as a value with history");
    out.arena(1024, 0);
    // flag 1 makes of size 20 and these bytes: an address, slot 0, count 1, size 6, six bytes
    let value = [0, 0, 0, 0, 0, 0, 1, 0, 0, 0, 6, 0, 0, 0, 1, 2, 3, 4, 5, 6];
    let rows = [row(b"k", 9, 5, b"v"), row(b"k", 8, 5, &value)];
    let (page, next) = out.built(leaf(8, 64, 256, STAMP, NONE, &list_of(&rows)));
    let (delta, _) = out.built(dleaf(next, 64, "1 1 1", (9, 5), b"k", &value));
    let ask = ["check A", "walk A 0 1", "back A 0 0", "search A 6b"]
        .map(|c| c.replace('A', &page.to_string()));
    damage(out, 8 + 32 + 44 + 12, &[1], &ask);
    damage(
        out,
        delta as usize + 40 + 14,
        &[1],
        &[format!("dkey {delta}"), format!("dval {delta}")],
    );
    out.note("the same bytes as a head's value are fine in form");
    let (head, _) =
        out.built(leaf(next, 64, 256, STAMP, NONE, &list_of(&[row(b"k", 9, 5, &value)])));
    let ask = ["check A", "search A 6b", "walk A 0 1"].map(|c| c.replace('A', &head.to_string()));
    damage(out, head as usize + 32 + 44 + 14, &[1], &ask);
}

/// Damaged frames under an overlay: headers and the delta's key always count, values only where used.
fn overlays(out: &mut Out, rng: &mut Prng) {
    out.note("overlays over a damaged page");
    let mut made = Out::new();
    made.arena(super::MAX_ARENA, 0);
    let (delta, end) = made.built(dleaf(8, 4, "1 1 1", (9, 5), b"pa", b"remote"));
    let good = made.bytes()[..end as usize].to_vec();
    let rows = [row(b"pa", 9, 5, b"v"), row(b"pb", 7, 3, b"remote!")];
    let (page, next) = made.built(leaf(8, 4, 256, STAMP, (7, b"pa", b"pz"), &list_of(&rows)));
    out.arena(next as usize, 0);
    out.built(leaf(8, 4, 256, STAMP, (7, b"pa", b"pz"), &list_of(&rows)));
    out.say(format!("buffer {}", text::write(&good)));
    let ask = ["7061", "7062", "71"].map(|probe| format!("overlay {page} {delta} {probe}"));
    for command in &ask {
        out.say(command);
    }
    for at in (8..next as usize).step_by(3) {
        let value = out.bytes()[at] ^ (1 << rng.below(8));
        damage(out, at, &[value], &ask);
    }
    out.note("overlays with a damaged delta");
    for at in 8..good.len() {
        let mut bad = good.clone();
        bad[at] ^= 1 << rng.below(8);
        out.say(format!("buffer {}", text::write(&bad)));
        out.say(&ask[0]);
        out.say(&ask[rng.between(1, 2)]);
    }
    for len in [good.len() - 1, good.len() - 8, delta as usize, 8, 0] {
        out.say(format!("buffer {}", text::write(&good[..len])));
        out.say(&ask[0]);
    }
}

/// Order 4: lo, hi, prefix_len or a key damaged so that nothing is wrong but a key that lies outside, or boundaries that do not rise. The
/// check and merges say 4, every other reader answers. Some of the damage leaves the page sound.
fn outside(out: &mut Out) {
    let [left, middle, right]: [Place; 3] =
        [(0, b"pa", b"pc"), (0, b"pc", b"pm"), (0, b"pm", b"pz")];
    for (kind, keys) in [
        ("leaf", vec!["pc", "pe", "pl"]),
        ("index", vec!["pc", "pe", "pl"]),
        ("leaf", vec![]),
        ("index", vec![]),
    ] {
        let about = "only the boundaries make it unsound; check and merge 4, searches answer";
        out.note(&format!("order 4: {kind} page pc..pm with {} keys: {about}", keys.len()));
        out.arena(640, 0);
        let rows: Vec<_> = keys.iter().map(|key| row(key.as_bytes(), 9, 5, b"v")).collect();
        let children: Vec<_> = keys.iter().map(|key| (key.as_bytes().to_vec(), 5)).collect();
        let build = |next: u64, place: Place, full: bool| {
            let (rows, children) =
                if full { (&rows[..], &children[..]) } else { (&[][..], &[][..]) };
            match kind {
                "leaf" => leaf(next, 64, 256, STAMP, place, &list_of(rows)),
                _ => index(next, STAMP, place, &index_list_of(children)),
            }
        };
        let (before, next) = out.built(build(8, left, false));
        let (page, next) = out.built(build(next, middle, true));
        let (behind, next) = out.built(build(next, right, false));
        let mut ask: Vec<String> = ["check A", "lo A", "hi A", "prefix A", "lower A 7065 9 5"]
            .map(|command| command.replace('A', &page.to_string()))
            .to_vec();
        let find = if kind == "leaf" { "search" } else { "floor" };
        let probes = ["62", "63", "65", "7063", "7065", "706c", "706d", "706e", "7163"];
        ask.extend(probes.map(|probe| format!("{find} {page} {probe}")));
        ask.push(format!("walk {page} 0 {}", keys.len()));
        ask.push(format!("merge {next} 64 256 {STAMP} {before} {page}"));
        ask.push(format!("merge {next} 64 256 {STAMP} {page} {behind}"));
        for command in &ask[..ask.len() - 2] {
            out.say(command);
        }
        // behind the headers and the slots
        let lo = page as usize + 72 + 4 * keys.len();
        for last in [b'b', b'd', b'l', b'm', b'n'] {
            damage(out, lo + 1, &[last], &ask);
        }
        damage(out, lo, b"o", &ask);
        damage(out, lo, b"q", &ask);
        let hi = lo + 2;
        for last in [b'b', b'c', b'd', b'l', b'n'] {
            damage(out, hi + 1, &[last], &ask);
        }
        damage(out, hi, b"o", &ask);
        damage(out, hi, b"q", &ask);
        let (lens, prefix_len) = (page as usize + 56, page as usize + 64);
        damage(out, lens, &[4, 0, 0, 0, 0], &ask);
        damage(out, lens, &[3, 0, 0, 0, 1], &ask);
        damage(out, prefix_len, &[0], &ask);
        damage(out, prefix_len, &[2], &ask);
        for (slot, bytes) in [(0, b"b"), (0, b"d"), (2, b"m"), (2, b"n")] {
            if slot < keys.len() {
                let at = page as usize + 72 + 4 * slot;
                let record = u32::from_le_bytes(out.bytes()[at..at + 4].try_into().unwrap());
                // the key's rest is one byte: behind its length, and a leaf's version
                let rest = record as usize + if kind == "leaf" { 13 } else { 1 };
                damage(out, page as usize + 32 + rest, bytes, &ask);
            }
        }
    }
}

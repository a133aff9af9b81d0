//! refused.txt: each number of refusal for each call, and the first of the table where two apply.
//! The arena must be unchanged after each.

use super::{NONE, Out, Place, dleaf, index, leaf};
use crate::judge::{MAX_BUDGET, MIN_BUDGET};
use crate::prng::Prng;
use crate::sample::{Row, index_list_of, list_of, row};
use crate::text;

const STAMP: &str = "1 1 1 1";
const OVER: u64 = u64::MAX - 7;

pub(super) fn write(out: &mut Out, rng: &mut Prng) {
    limits(out);
    next_addresses(out);
    lists(out, rng);
    order(out);
    prefixes(out);
    outside(out);
    room(out);
    pairs(out);
    merges(out);
    deltas(out);
}

fn good() -> Vec<u8> {
    list_of(&[row(b"pa", 5, 0, b"v"), row(b"pb", 5, 0, b"w")])
}

fn good_index() -> Vec<u8> {
    index_list_of(&[(b"pa".to_vec(), 1), (b"pb".to_vec(), 2)])
}

/// Number 1.
fn limits(out: &mut Out) {
    out.note("1: limits, budgets and boundaries at their ends and one past them");
    out.arena(20_000, 9);
    for limit in [0, 1, 65_536, 65_537, u64::MAX] {
        out.say(format!("leaf 8 {limit} 256 {STAMP} 0 - - {}", text::write(&good())));
        out.say(format!("dleaf 8 {limit} 1 1 1 5 5 6b 76"));
    }
    for budget in [0, MIN_BUDGET - 1, MIN_BUDGET, MAX_BUDGET, MAX_BUDGET + 1, u64::MAX] {
        out.say(format!("leaf 8 64 {budget} {STAMP} 0 - - {}", text::write(&good())));
    }
    for (lo, hi) in [(4096, 0), (4097, 0), (0, 4096), (0, 4097), (4096, 4096), (4097, 4097)] {
        let (lo, hi) = (vec![b'a'; lo], vec![b'y'; hi]);
        out.say(leaf(8, 64, 256, STAMP, (0, &lo, &hi), &good()));
        out.say(index(8, STAMP, (0, &lo, &hi), &good_index()));
    }
}

/// Number 2.
fn next_addresses(out: &mut Out) {
    out.note(
        "2: next free addresses below 8, not a multiple of 8, above the arena; at its end it is 9",
    );
    for size in [512usize, 509] {
        out.arena(size, 8);
        for next in
            [0, 1, 4, 7, 8, 9, 12, 504, 505, 508, 509, 512, 513, 520, 1 << 32, OVER, u64::MAX]
        {
            out.say(format!("leaf {next} 64 256 {STAMP} 0 - - {}", text::write(&good())));
            out.say(format!("index {next} {STAMP} 0 - - {}", text::write(&good_index())));
            out.say(format!("dleaf {next} 64 1 1 1 5 5 6b 76"));
            out.say(format!("dindex {next} {STAMP} 6b 7"));
            out.say(format!("merge {next} 64 256 {STAMP} 8 8"));
        }
    }
    for size in [0usize, 7, 8, 9] {
        out.arena(size, 8);
        for next in [0, 8, 16] {
            out.say(format!("leaf {next} 64 256 {STAMP} 0 - - 0100000000"));
            out.say(format!("index {next} {STAMP} 0 - - 0100000000"));
            out.say(format!("check {next}"));
        }
    }
}

/// Number 3.
fn lists(out: &mut Out, rng: &mut Prng) {
    out.note("3: versions, counts, and every place where a list can be cut short");
    out.arena(2048, 7);
    for (good, call) in
        [(good(), "leaf 8 64 256 1 1 1 1 0 - -"), (good_index(), "index 8 1 1 1 1 0 - -")]
    {
        for len in 0..good.len() {
            out.say(format!("{call} {}", text::write(&good[..len])));
            if len >= 5 {
                // the count agrees, the entry does not
                let mut cut = good[..len].to_vec();
                cut[1..5].copy_from_slice(&(len as u32 - 5).to_be_bytes());
                out.say(format!("{call} {}", text::write(&cut)));
            }
        }
        for version in [0u8, 2, 255] {
            let mut bad = good.clone();
            bad[0] = version;
            out.say(format!("{call} {}", text::write(&bad)));
        }
        for count in [0u32, 1, good.len() as u32 - 6, good.len() as u32 - 4, u32::MAX] {
            let mut bad = good.clone();
            bad[1..5].copy_from_slice(&count.to_be_bytes());
            out.say(format!("{call} {}", text::write(&bad)));
        }
        let mut longer = good.clone();
        longer.push(0);
        out.say(format!("{call} {}", text::write(&longer)));
        for _ in 0..20 {
            let mut bad = good.clone();
            let at = rng.below(bad.len());
            bad[at] ^= 1 << rng.below(8);
            out.say(format!("{call} {}", text::write(&bad)));
        }
    }
    out.note(
        "keys of 4,096 and 4,097, values of 65,536 and 65,537, lengths that reach far past the end",
    );
    out.arena(100_000, 7);
    for (key, value) in [(4096, 0), (4097, 0), (65_535, 0), (1, 65_536), (1, 65_537)] {
        out.say(leaf(
            8,
            64,
            256,
            STAMP,
            NONE,
            &list_of(&[row(&vec![b'k'; key], 1, 0, &vec![b'v'; value])]),
        ));
        out.say(index(8, STAMP, NONE, &index_list_of(&[(vec![b'k'; key], 1)])));
    }
    out.say(format!("leaf 8 64 256 {STAMP} 0 - - 01000000120000000000000000000000000000ffffffff"));
    out.say(format!("leaf 8 64 256 {STAMP} 0 - - 0100000012ffff00000000000000000000000000000000"));
    out.say(format!("index 8 {STAMP} 0 - - 010000000affff0000000000000000"));
}

/// Number 6.
fn order(out: &mut Out) {
    out.note("6: an entry not above the one before");
    out.arena(2048, 6);
    let pairs: [[Row; 2]; 9] = [
        [row(b"b", 5, 0, b""), row(b"a", 5, 0, b"")],
        [row(b"a", 5, 0, b""), row(b"a", 5, 0, b"")],
        [row(b"a", 5, 0, b""), row(b"a", 6, 0, b"")],
        [row(b"a", 5, 0, b""), row(b"a", 5, 1, b"")],
        [row(b"a", 5, 1, b""), row(b"a", 5, 0, b"")],
        [row(b"a", 5, 0, b""), row(b"a", 4, u32::MAX, b"")],
        [row(b"aa", 5, 0, b""), row(b"a", 4, 0, b"")],
        [row(b"a", 5, 0, b""), row(b"aa", 6, 0, b"")],
        [row(b"", 0, 0, b""), row(b"", 0, 0, b"")],
    ];
    for rows in pairs {
        out.say(leaf(8, 64, 256, STAMP, NONE, &list_of(&rows)));
        let children: Vec<_> = rows.iter().map(|r| (r.key.clone(), r.txid)).collect();
        out.say(index(8, STAMP, NONE, &index_list_of(&children)));
    }
    for at in 0..4 {
        let mut rows: Vec<Row> = (0..5).map(|i| row(&[b'a' + i], 5, 0, b"v")).collect();
        rows.swap(at, at + 1);
        out.say(leaf(8, 64, 256, STAMP, NONE, &list_of(&rows)));
    }
}

/// Number 7.
fn prefixes(out: &mut Out) {
    out.note("7: a key that does not begin with the prefix; one that does may be 10");
    out.arena(2048, 5);
    let bounds: [(&[u8], &[u8]); 5] =
        [(b"ab", b"ac"), (b"abc", b"abcz"), (b"ab", b""), (b"", b"ab"), (b"ab", b"ab")];
    for (lo, hi) in bounds {
        for keys in
            [[&b"aq"[..], b"xq"], [b"", b"aa"], [b"abc", b"abcd"], [b"ab", b"b"], [b"a", b"aa"]]
        {
            let rows: Vec<Row> = keys.iter().map(|k| row(k, 5, 0, b"v")).collect();
            out.say(leaf(8, 64, 256, STAMP, (0, lo, hi), &list_of(&rows)));
            let children: Vec<_> = keys.iter().map(|k| (k.to_vec(), 1)).collect();
            out.say(index(8, STAMP, (0, lo, hi), &index_list_of(&children)));
        }
    }
}

/// Number 10 of a build: one key at every place around the boundaries, alone and among keys that lie between them.
fn outside(out: &mut Out) {
    out.note("10: keys at, just below and just above lo and hi, beginnings of them, and boundaries that do not rise");
    out.arena(2048, 6);
    let bounds: [(&[u8], &[u8]); 9] = [
        (b"pc", b"pm"),
        (b"pc", b""),
        (b"", b"pm"),
        (b"p", b"pm"),
        (b"pc", b"pc\0"),
        (b"pc", b"pc"),
        (b"pm", b"pc"),
        (b"p", b"p"),
        (b"pm", b"p"),
    ];
    let keys: [&[u8]; 12] =
        [b"", b"p", b"pb", b"pb\xff", b"pc", b"pc\0", b"pl\xff", b"pm", b"pm\0", b"pn", b"o", b"q"];
    let say = |out: &mut Out, lo: &[u8], hi: &[u8], keys: &[&[u8]]| {
        let rows: Vec<Row> = keys.iter().map(|key| row(key, 1, 0, b"v")).collect();
        out.say(leaf(8, 64, 256, STAMP, (0, lo, hi), &list_of(&rows)));
        let children: Vec<_> = keys.iter().map(|key| (key.to_vec(), 1)).collect();
        out.say(index(8, STAMP, (0, lo, hi), &index_list_of(&children)));
    };
    for (lo, hi) in bounds {
        say(out, lo, hi, &[]);
        for key in keys {
            say(out, lo, hi, &[key]);
        }
    }
    out.note("10: one of three keys outside, the first or the last; an older version is no key of its own");
    for keys in [[&b"pb"[..], b"pd", b"pe"], [b"pd", b"pe", b"pm"], [b"pc", b"pd", b"pl"]] {
        say(out, b"pc", b"pm", &keys);
    }
    let twice = [row(b"pm", 9, 0, b"v"), row(b"pm", 8, 0, b"w")];
    out.say(leaf(8, 64, 256, STAMP, (0, b"pc", b"pm"), &list_of(&twice)));
    out.say(leaf(8, 64, 256, STAMP, (0, b"pm", b"pn"), &list_of(&twice)));
}

/// Number 9: each kind of build in an arena that just suffices, and in smaller ones.
fn room(out: &mut Out) {
    out.note("9: the arena suffices exactly; one byte less, a word less and far less do not");
    let rows = [
        row(b"a", 9, 0, &[1; 30]),
        row(b"a", 8, 0, &[2; 40]),
        row(b"a", 7, 0, &[3; 3]),
        row(b"b", 1, 0, &[4; 20]),
    ];
    let commands = [
        leaf(8, 64, 256, STAMP, NONE, &list_of(&rows)),
        leaf(8, 16, 256, STAMP, NONE, &list_of(&rows)),
        leaf(8, 64, 256, STAMP, NONE, &list_of(&[])),
        leaf(16, 8, 256, STAMP, (1, b"", b""), &list_of(&[row(b"k", 1, 0, &[5; 9])])),
        index(8, STAMP, NONE, &good_index()),
        dleaf(8, 64, "1 1 1", (5, 5), b"key", b"value"),
        dleaf(8, 4, "1 1 1", (5, 5), b"key", b"value"),
        format!("dindex 8 {STAMP} 6b6579 7"),
    ];
    for command in commands {
        let mut trial = Out::new();
        trial.arena(super::MAX_ARENA, 0);
        let (_, needed) = trial.built(&command);
        for size in [needed, needed + 1, needed - 1, needed - 8, needed / 2, 32, 8] {
            out.arena(size as usize, 4);
            out.say(&command);
        }
    }
}

/// Lower numbers first, but 10 before 9.
fn pairs(out: &mut Out) {
    out.note("two or more at once: the first of 1 2 3 6 7 10 9 is given");
    out.arena(64, 3);
    let unsorted = list_of(&[row(b"xb", 5, 0, b"v"), row(b"xa", 5, 0, b"w")]);
    let foreign = list_of(&[row(b"xa", 5, 0, b"v"), row(b"xb", 5, 0, b"w")]);
    let unsorted_index = index_list_of(&[(b"xb".to_vec(), 1), (b"xa".to_vec(), 2)]);
    let foreign_index = index_list_of(&[(b"xa".to_vec(), 1), (b"xb".to_vec(), 2)]);
    let bad: Place = (0, b"pa", b"pb");
    let long = vec![b'l'; 4097];
    let cut = good()[..20].to_vec();
    out.note("1 before 2, 3, 6, 7, 9");
    out.say(leaf(7, 0, 256, STAMP, bad, &unsorted));
    out.say(leaf(8, 64, 255, STAMP, bad, &cut));
    out.say(leaf(8, 64, 256, STAMP, (0, &long, b""), &unsorted));
    out.say(index(7, STAMP, (0, &long, b""), &unsorted_index));
    out.say(dleaf(7, 0, "1 1 1", (5, 5), &long, b"v"));
    out.note("2 before 3, 6, 7, 9");
    out.say(leaf(7, 64, 256, STAMP, bad, &cut));
    out.say(leaf(7, 64, 256, STAMP, bad, &unsorted));
    out.say(leaf(OVER, 64, 256, STAMP, NONE, &good()));
    out.say(index(7, STAMP, bad, &cut));
    out.say(dleaf(7, 64, "1 1 1", (5, 5), &long, b"v"));
    out.say(format!("dindex 7 {STAMP} {} 5", text::write(&long)));
    out.note("3 before 6, 7, 9");
    let mut cut_unsorted = unsorted.clone();
    cut_unsorted.pop();
    out.say(leaf(8, 64, 256, STAMP, bad, &cut_unsorted));
    let mut cut_unsorted = unsorted_index.clone();
    cut_unsorted.pop();
    out.say(index(8, STAMP, bad, &cut_unsorted));
    out.say(dleaf(8, 64, "1 1 1", (5, 5), &long, b"v"));
    out.say(format!("dindex 8 {STAMP} {} 5", text::write(&long)));
    out.note("6 before 7 and 9, also where the wrong prefix comes first");
    out.say(leaf(8, 64, 256, STAMP, bad, &unsorted));
    out.say(index(8, STAMP, bad, &unsorted_index));
    let late = list_of(&[row(b"xa", 5, 0, b""), row(b"xb", 5, 0, b""), row(b"xb", 5, 0, b"")]);
    out.say(leaf(8, 64, 256, STAMP, bad, &late));
    out.note("7 before 10 and 9, also where the boundaries do not rise");
    out.say(leaf(8, 64, 256, STAMP, bad, &foreign));
    out.say(index(8, STAMP, bad, &foreign_index));
    out.say(leaf(8, 64, 256, STAMP, (0, b"pb", b"pa"), &foreign));
    out.say(index(8, STAMP, (0, b"p", b"p"), &foreign_index));
    out.note("6 before 10");
    out.say(leaf(8, 64, 256, STAMP, (0, b"p", b"q"), &unsorted));
    out.say(index(8, STAMP, (0, b"q", b"p"), &unsorted_index));
    out.note("10 before 9");
    out.say(leaf(8, 64, 256, STAMP, bad, &good()));
    out.say(index(8, STAMP, bad, &good_index()));
    out.say(leaf(8, 64, 256, STAMP, (0, b"q", b""), &good()));
    out.say(index(8, STAMP, (0, b"q", b"p"), &index_list_of(&[])));
    out.note("9 alone");
    out.say(leaf(8, 64, 256, STAMP, NONE, &foreign));
    out.say(index(8, STAMP, NONE, &foreign_index));
}

fn merge(next: u64, left: u64, right: u64) -> String {
    format!("merge {next} 64 256 {STAMP} {left} {right}")
}

fn merges(out: &mut Out) {
    out.note("merges: addresses that are no page's, kinds, order, prefixes, limits, room");
    out.arena(6000, 2);
    let rows = |key: u8| {
        [
            row(&[b'p', key], 9, 5, &[key; 30]),
            row(&[b'p', key], 8, 5, &[key; 9]),
            row(&[b'p', key, 1], 9, 5, &[key; 3]),
        ]
    };
    // pages that meet at `pb` (leaves) and at `pc` (index pages)
    let lower: Place = (0, b"pa", b"pb");
    let upper: Place = (0, b"pb", b"pz");
    let two = |a: &[u8], b: &[u8]| index_list_of(&[(a.to_vec(), 3), (b.to_vec(), 4)]);
    let one = |key: &[u8], txid: u64, value: &[u8]| list_of(&[row(key, txid, 5, value)]);
    let (a, n1) = out.built(leaf(8, 16, 256, STAMP, lower, &list_of(&rows(b'a'))));
    let (b, n2) = out.built(leaf(n1, 16, 256, STAMP, upper, &list_of(&rows(b'b'))));
    let (tree, n3) = out.built(index(n2, STAMP, (0, b"pa", b"pc"), &good_index()));
    let (tree2, n4) = out.built(index(n3, STAMP, (0, b"pa", b"pz"), &two(b"pb", b"pc")));
    let (tree3, n5) = out.built(index(n4, STAMP, (0, b"pc", b"pz"), &two(b"pc", b"pd")));
    let (empty, n6) = out.built(leaf(n5, 16, 256, STAMP, NONE, &list_of(&[])));
    let (delta, n7) = out.built(dleaf(n6, 4, "1 1 1", (5, 5), b"key", b"value"));
    let (older, n8) = out.built(leaf(n7, 16, 256, STAMP, lower, &one(b"pa\x01", 8, b"old")));
    let (same, n9) = out.built(leaf(n8, 16, 256, STAMP, lower, &one(b"pa\x01", 9, b"same")));
    let (newer, n10) = out.built(leaf(n9, 16, 256, STAMP, lower, &one(b"pa\x01", 10, b"new")));
    // sound pages can miss the prefix of the new boundaries only where the other page is empty
    let (wide, n11) = out.built(leaf(n10, 16, 256, STAMP, (0, b"pa", b""), &one(b"x", 1, b"")));
    let (below, n12) = out.built(leaf(n11, 16, 256, STAMP, (0, b"", b"pab"), &one(b"b", 1, b"")));
    let (no_keys, n13) = out.built(leaf(n12, 16, 256, STAMP, upper, &list_of(&[])));
    let (deep, end) = out.built(leaf(n13, 16, 256, STAMP, (0, b"pac", b""), &list_of(&[])));

    out.note("1 and 2, on index pages too");
    for (left, right) in [(a, b), (tree, tree2), (a, tree), (0, 0)] {
        for (limit, budget) in [(0, 256), (65_537, 256), (64, MIN_BUDGET - 1), (64, MAX_BUDGET + 1)]
        {
            out.say(format!("merge {end} {limit} {budget} {STAMP} {left} {right}"));
            out.say(format!("merge 7 {limit} {budget} {STAMP} {left} {right}"));
        }
        for next in [0, 7, 12, 6008, OVER] {
            out.say(merge(next, left, right));
        }
    }
    out.note(
        "4: no frames, other kinds, frames that end above the next free address; before 5 and 6",
    );
    let remote = a + 152;
    for bad in [0, 4, 12, 8, delta, n6, remote, end, OVER, u64::MAX] {
        out.say(merge(end, a, bad));
        out.say(merge(end, bad, b));
        out.say(merge(end, tree, bad));
    }
    for next in [8, a, a + 8, b, b + 8, n2 - 8] {
        out.say(merge(next, a, b));
        out.say(merge(next, b, a));
    }
    out.note("5: leaf with index, before 6");
    for (left, right) in [(a, tree), (tree, a), (empty, tree), (tree, empty)] {
        out.say(merge(end, left, right));
    }
    out.note("6: a page with itself, overlapping pages, the same or a newer version of one key; before 10");
    for (left, right) in [
        (a, a),
        (b, a),
        (tree, tree),
        (tree, tree2),
        (tree2, tree),
        (tree2, tree3),
        (tree3, tree),
        (a, same),
        (a, newer),
        (older, a),
        (wide, below),
    ] {
        out.say(merge(end, left, right));
    }
    out.note(
        "7: a key without the prefix of the new boundaries, beside a page without keys; before 10",
    );
    for (left, right) in [(wide, no_keys), (deep, below), (no_keys, a)] {
        out.say(merge(end, left, right));
    }
    out.note("10: in order and with the prefix, but the boundaries do not meet; an older version of one key");
    for (left, right) in [
        (a, older),
        (a, wide),
        (below, wide),
        (wide, empty),
        (empty, wide),
        (empty, empty),
        (no_keys, empty),
        (no_keys, no_keys),
        (deep, deep),
        (deep, no_keys),
    ] {
        out.say(merge(end, left, right));
    }
    out.note("9: no room, but 6 and 10 before it; and the same merges where there is");
    for size in [0u64, 8, 64] {
        for (left, right) in [(a, b), (tree, tree3), (tree, tree2), (a, older)] {
            out.say(merge(6000 - size, left, right));
        }
    }
    out.built(merge(end, tree, tree3));
    out.built(merge(end, a, b));
    out.note("what stands above the next free address is old bytes: at the right page's end a merge may begin");
    out.built(merge(n2, a, b));

    out.note("9 in a merge counts new frames only: kept remotes need no room");
    for limit in [16, 64] {
        let mut trial = Out::new();
        trial.arena(super::MAX_ARENA, 0);
        let build = |out: &mut Out| {
            let (a, next) = out.built(leaf(8, 16, 256, STAMP, lower, &list_of(&rows(b'a'))));
            let (b, next) = out.built(leaf(next, 16, 256, STAMP, upper, &list_of(&rows(b'b'))));
            format!("merge {next} {limit} 256 {STAMP} {a} {b}")
        };
        let command = build(&mut trial);
        let (_, needed) = trial.built(command);
        for size in [needed - 1, needed - 8, needed] {
            out.arena(size as usize, 1);
            let command = build(out);
            out.say(command);
        }
    }
}

/// A delta's key and value over their limits are 3.
fn deltas(out: &mut Out) {
    out.note("deltas: keys of 4,096 and 4,097, values of 65,536 and 65,537");
    out.arena(80_000, 1);
    for key in [4096usize, 4097, 9000] {
        out.say(dleaf(8, 64, "1 1 1", (5, 5), &vec![b'k'; key], b"v"));
        out.say(format!("dindex 8 {STAMP} {} 5", text::write(&vec![b'k'; key])));
    }
    for value in [65_536usize, 65_537] {
        out.say(dleaf(8, 65_536, "1 1 1", (5, 5), b"k", &vec![b'v'; value]));
    }
}

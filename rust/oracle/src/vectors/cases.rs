//! cases.txt: document 01's cases by number, and every sentence of it that speaks of a run.

use super::{NONE, Out, Place, index, leaf};
use crate::prng::Prng;
use crate::sample::{Row, index_list_of, list_of, row};
use crate::upstream::RUST_HIST_PAGE_BUDGET;

const STAMP: &str = "5 0 0 0";

pub(super) fn write(out: &mut Out, _rng: &mut Prng) {
    out.arena(8, 0);
    out.note("P1, and DWARF's table");
    for n in [2, 127, 128, 129, 130, 12857] {
        out.say(format!("length {n}"));
    }
    for bytes in ["7f", "8001", "b964", "02", "8101", "8201"] {
        out.say(format!("unlength {bytes}"));
    }
    out.note("P2");
    out.say("unlength 8000");
    out.note("P3");
    for hi in ["6164", "6162", "-"] {
        out.say(format!("common 6162 {hi}"));
    }

    let p5 = [row(b"a", 5, 0, b"xy")];
    for size in [112, 111] {
        out.note("P5 and P6: size 65, slot 44, new next 112; 112 suffices, 111 is 9");
        out.arena(size, 0xaa);
        if size == 112 {
            let (addr, _) =
                out.built(leaf(8, 64, RUST_HIST_PAGE_BUDGET, STAMP, NONE, &list_of(&p5)));
            out.page(addr, 1);
        } else {
            out.say(leaf(8, 64, RUST_HIST_PAGE_BUDGET, STAMP, NONE, &list_of(&p5)));
        }
    }

    out.note("P7: history page at 8, leaf at 104, size 85, payload 101, new next 240");
    let p7 = [row(b"a", 5, 0, b"xy"), row(b"a", 3, 0, b"z")];
    out.arena(240, 0xff);
    let (addr, _) = out.built(leaf(8, 64, 256, STAMP, NONE, &list_of(&p7)));
    out.page(addr, 1);
    out.say(format!("back {addr} 0 0"));
    out.say(format!("search {addr} 61"));
    out.say(format!("lower {addr} 61 18446744073709551615 4294967295"));

    out.note("program listing's own arena with P7's list");
    out.arena(49_152, 0);
    let (addr, _) = out.built(leaf(8, 64, 256, "0 0 0 0", NONE, &list_of(&p7)));
    out.say(format!("walk {addr} 0 1"));

    for (len, about) in [(52, "two a page"), (51, "three, exactly 256"), (50, "three"), (53, "two")]
    {
        out.note(&format!("P8: budget 256, limit 64, {len}-byte old values: {about}"));
        out.arena(4096, 1);
        let rows: Vec<Row> =
            (0..8).map(|i| row(b"k", 100 - i, 0, &vec![b'a' + i as u8; len])).collect();
        let (addr, _) = out.built(leaf(8, 64, 256, STAMP, NONE, &list_of(&rows)));
        out.page(addr, 1);
        out.say(format!("back {addr} 0 0"));
    }

    out.note("P9: keys b, d: floor of a, c, d, e is 0, 0, 1, 1");
    out.arena(1024, 2);
    let (addr, _) = out.built(index(
        8,
        STAMP,
        NONE,
        &index_list_of(&[(b"b".to_vec(), 20), (b"d".to_vec(), 40)]),
    ));
    for probe in ["61", "63", "64", "65", "62"] {
        out.say(format!("floor {addr} {probe}"));
    }

    out.note("P11: one key and version twice is 6");
    out.arena(1024, 3);
    out.say(leaf(
        8,
        64,
        256,
        STAMP,
        NONE,
        &list_of(&[row(b"a", 5, 0, b"x"), row(b"a", 5, 0, b"y")]),
    ));

    out.note("P13 with order 3: lo 00 00, hi 00 FF, key 00 D4: probe FE D4 is none, 0 keys read");
    out.arena(1024, 4);
    let bounds: Place = (0, &[0, 0], &[0, 0xff]);
    let (addr, _) =
        out.built(leaf(8, 64, 256, STAMP, bounds, &list_of(&[row(&[0, 0xd4], 5, 0, b"x")])));
    for probe in ["00d4", "fed4", "fe", "00", "-"] {
        out.say(format!("search {addr} {probe}"));
        out.say(format!("lower {addr} {probe} 5 0"));
    }
    let (addr, _) = out.built(index(512, STAMP, bounds, &index_list_of(&[(vec![0, 0xd4], 9)])));
    out.say(format!("floor {addr} 00d4"));
    out.say(format!("floor {addr} fed4"));

    out.note("run: a value of 300 at limit 512, budget 256, has its own history page");
    for order in [[0, 1, 2], [1, 0, 2], [1, 2, 0]] {
        out.arena(2048, 5);
        let sizes = [300, 20, 30];
        let mut rows = vec![row(b"k", 100, 0, b"head")];
        for (i, &which) in order.iter().enumerate() {
            rows.push(row(b"k", 90 - i as u64, 0, &vec![which as u8 + 1; sizes[which]]));
        }
        let (addr, _) = out.built(leaf(8, 512, 256, STAMP, NONE, &list_of(&rows)));
        out.page(addr, 1);
    }

    out.note(
        "an error that looks right: a head sized from its own value only would be size 79 here",
    );
    out.arena(1024, 6);
    let (addr, _) = out.built(leaf(8, 64, 256, STAMP, NONE, &list_of(&p7)));
    out.say(format!("check {addr}"));

    order_4(out);
}

/// Order 4's worked answers, the whole table and the merges.
fn order_4(out: &mut Out) {
    const ZERO: &str = "0 0 0 0";
    let pages = |lo: &[u8], hi: &[u8], keys: &[&[u8]]| {
        let rows: Vec<Row> = keys.iter().map(|key| row(key, 1, 0, b"v")).collect();
        let children: Vec<_> = keys.iter().map(|key| (key.to_vec(), 1)).collect();
        [
            leaf(8, 64, 256, ZERO, (0, lo, hi), &list_of(&rows)),
            index(8, ZERO, (0, lo, hi), &index_list_of(&children)),
        ]
    };
    type Worked = (&'static [u8], &'static [u8], &'static [&'static [u8]]);
    let built: [Worked; 3] = [(b"d", b"h", &[b"d"]), (b"d", b"h", &[b"gzz"]), (b"", b"h", &[b""])];
    out.note("order 4: lo d, hi h, key d (leaf next 112, index next 96) or gzz; no lo, hi h, the empty key: built");
    for (lo, hi, keys) in built {
        for command in pages(lo, hi, keys) {
            out.arena(200, 0x11);
            let (addr, _) = out.built(command);
            out.page(addr, 1);
        }
    }
    out.note("order 4: refused with 10, but for key x with prefix d (7) and x then e (6)");
    out.arena(1024, 0x12);
    let refused: [Worked; 9] = [
        (b"d", b"h", &[b"h"]),
        (b"d", b"h", &[b"czz"]),
        (b"d", b"", &[b"czz"]),
        (b"h", b"d", &[]),
        (b"d", b"d", &[]),
        (b"da", b"dc", &[b"d"]),
        (b"da", b"dc", &[b"dc"]),
        (b"da", b"dc", &[b"x"]),
        (b"d", b"h", &[b"x", b"e"]),
    ];
    for (lo, hi, keys) in refused {
        for command in pages(lo, hi, keys) {
            out.say(command);
        }
    }
    out.note("order 4: an arena of 8 bytes: key h is 10, key e is 9");
    out.arena(8, 0x13);
    for command in [pages(b"d", b"h", &[b"h"]), pages(b"d", b"h", &[b"e"])].concat() {
        out.say(command);
    }

    out.note("order 4: A d..h, B h..p, C p.. with a key each, E h..p and N without keys, next 472");
    out.arena(1024, 0x14);
    let places: [Worked; 5] = [
        (b"d", b"h", &[b"e"]),
        (b"h", b"p", &[b"i"]),
        (b"p", b"", &[b"q"]),
        (b"h", b"p", &[]),
        (b"", b"", &[]),
    ];
    let mut next = 8;
    let [a, b, c, e, n] = places.map(|(lo, hi, keys)| {
        let rows: Vec<Row> = keys.iter().map(|key| row(key, 1, 0, b"v")).collect();
        let (addr, after) = out.built(leaf(next, 64, 256, ZERO, (0, lo, hi), &list_of(&rows)));
        next = after;
        addr
    });
    let merge = |left, right| format!("merge {next} 64 256 {ZERO} {left} {right}");
    out.note("order 4: A B at 472, next 600; A E; B C");
    for (left, right, elems) in [(a, b, 2), (a, e, 1), (b, c, 2)] {
        let (addr, _) = out.built(merge(left, right));
        out.page(addr, elems);
    }
    out.note("order 4: A C 10, B A 6, E A 7, C N 10, N N 10, E E 10, A A 6");
    for (left, right) in [(a, c), (b, a), (e, a), (c, n), (n, n), (e, e), (a, a)] {
        out.say(merge(left, right));
    }

    out.note("order 4: a page from before the order, lo d, no hi, key c: check and merge 4, search for c still found");
    out.arena(512, 0x15);
    let (old, next) =
        out.built(leaf(8, 64, 256, ZERO, (0, b"c", b""), &list_of(&[row(b"c", 1, 0, b"v")])));
    let (after, next) = out.built(leaf(next, 64, 256, ZERO, (0, b"d", b"h"), &list_of(&[])));
    // lo stands behind the headers and one slot
    out.put(old as usize + 76, b"d");
    out.page(old, 1);
    for command in ["search A 63", "search A 64", "lower A 63 1 0", "lower A 64 1 0", "back A 0 0"]
    {
        out.say(command.replace('A', &old.to_string()));
    }
    out.say(format!("merge {next} 64 256 {ZERO} {old} {after}"));
    out.say(format!("merge {next} 64 256 {ZERO} {after} {old}"));
}

//! Document 01's cases by number, as the Rust and the model both give them.

use oracle::Ver;
use oracle::answer::{Bounds, Built, Found, Stamp, Step, What};
use oracle::arena::Arena;
use oracle::both::Both;
use oracle::image;
use oracle::judge;
use oracle::list;
use oracle::model;
use oracle::sample::{Row, index_list_of, list_of, row};
use oracle::upstream::RUST_HIST_PAGE_BUDGET;

const STAMP: Stamp = Stamp { txid: 5, group: 0, lsn: 0, checkpoint: 0 };
const NONE: Bounds = Bounds { sibling: 0, lo: &[], hi: &[] };
const RUST_BUDGET: u64 = RUST_HIST_PAGE_BUDGET as u64;

fn arena(len: usize) -> Both {
    // old bytes that must not show through
    Both::new(Arena::new(len, 0xa5))
}

fn leaf(both: &mut Both, limit: u64, budget: u64, rows: &[Row]) -> Result<Built, u8> {
    both.leaf(8, limit, budget, &STAMP, &NONE, &list_of(rows))
}

fn u32_at(both: &Both, at: usize) -> u32 {
    u32::from_le_bytes(both.arena.bytes()[at..at + 4].try_into().unwrap())
}

#[test]
fn p1_p2_lengths() {
    assert_eq!(image::length(127), [0x7f]);
    assert_eq!(image::length(128), [0x80, 0x01]);
    assert_eq!(image::length(12857), [0xb9, 0x64]);
    assert_eq!(model::length(&[0xb9, 0x64], 0), Ok((12857, 2)));
    assert_eq!(model::length(&[0x80, 0x00], 0), Err(4));
}

#[test]
fn lengths_both_ways() {
    for n in (0..40_000).chain([2_097_151, 2_097_152, 268_435_455, 268_435_456, u32::MAX as usize])
    {
        let bytes = image::length(n);
        assert_eq!(model::length(&bytes, 0), Ok((n as u64, bytes.len())));
        for cut in 0..bytes.len() {
            assert_eq!(model::length(&bytes[..cut], 0), Err(4));
        }
    }
}

#[test]
fn p3_prefixes() {
    let mut both = arena(8);
    assert_eq!(both.common(b"ab", b"ad"), 1);
    assert_eq!(both.common(b"ab", b"ab"), 2);
    assert_eq!(both.common(b"ab", b""), 0);
}

#[test]
fn p5_p6_one_record() {
    let rows = [row(b"a", 5, 0, b"xy")];
    let mut both = arena(112);
    assert_eq!(leaf(&mut both, 64, RUST_BUDGET, &rows), Ok(Built { addr: 8, next: 112 }));
    assert_eq!(u32_at(&both, 8 + 32), 65); // size
    assert_eq!(u32_at(&both, 8 + 32 + 40), 44); // slot
    let mut both = arena(111);
    assert_eq!(leaf(&mut both, 64, RUST_BUDGET, &rows), Err(9));
    assert!(both.arena.bytes().iter().all(|&b| b == 0xa5));
}

#[test]
fn p7_one_old_version() {
    let rows = [row(b"a", 5, 0, b"xy"), row(b"a", 3, 0, b"z")];
    assert_eq!(list_of(&rows)[..5], [1, 0, 0, 0, 0x29]);
    let mut both = arena(240);
    assert_eq!(leaf(&mut both, 64, 256, &rows), Ok(Built { addr: 104, next: 240 }));
    assert_eq!(both.arena.bytes()[8 + 6], 1); // the history page at 8 is a sibling
    assert_eq!(u32_at(&both, 104 + 32), 85); // size
    assert_eq!(u32_at(&both, 104), 101); // payload
    let page = &both.arena.bytes()[104 + 32..];
    let value = 44 + 1 + 12 + 1;
    assert_eq!(page[value], 1); // has history
    assert_eq!(page[value + 1..value + 15], [8, 0, 0, 0, 0, 0, 0, 0, 0, 0, 1, 0, 0, 0]); // (8, 0, 1)
    let end = value + 15 + 4 + 2;
    assert_eq!(85 - end, 6);
    assert!(page[end..85].iter().all(|&b| b == 0)); // 6 unused bytes
    assert_eq!(both.history_hints(104), Ok(Some(vec![8])));
    assert_eq!(both.remote_hints(104), Ok(None));
    let listed = |txid, value, entered| Step {
        rest: &b"a"[..],
        what: What::Leaf { txid, cmd: 0, value },
        entered,
    };
    assert_eq!(both.walk(104, 0, 1), (vec![listed(5, b"xy", 8), listed(3, b"z", 0)], None));
    assert_eq!(both.walk_back(104, 0, 0), (vec![listed(5, b"xy", 8), listed(3, b"z", 0)], None));
}

/// How many old versions each history page of the page holds.
fn cuts(both: &mut Both, addr: u64) -> Vec<u16> {
    let pages = both.history_hints(addr).unwrap().unwrap();
    pages.iter().map(|&p| u32_at(both, p as usize + 36) as u16).collect()
}

fn old_values(len: usize, count: usize) -> Vec<Row> {
    (0..=count as u64)
        .map(|i| row(b"k", 100 - i, 0, &vec![7; if i == 0 { 0 } else { len }]))
        .collect()
}

#[test]
fn p8_budgets() {
    for (len, expected) in [(52, vec![2, 2, 2, 1]), (51, vec![3, 3, 1])] {
        let mut both = arena(4096);
        let built = leaf(&mut both, 64, 256, &old_values(len, 7)).unwrap();
        assert_eq!(cuts(&mut both, built.addr), expected);
    }
    // three of 51 bytes are exactly 256
    let mut both = arena(4096);
    leaf(&mut both, 64, 256, &old_values(51, 3)).unwrap();
    assert_eq!(u32_at(&both, 8), 256);
}

/// Order 2: which history pages (records, size) a key with so many old versions has, and where its leaf and the arena's end then are. The
/// numbers are those of the order's decided points.
#[test]
fn named_budgets() {
    assert_eq!((judge::HIST_PAGE_BUDGET, RUST_BUDGET), (32_768, 131_072));
    type Worked = (usize, usize, u64, u64, &'static [(u16, u32)], Option<(u64, u64)>);
    let worked: [Worked; 7] = [
        (
            271,
            100,
            512,
            judge::HIST_PAGE_BUDGET,
            &[(270, 32_710), (1, 161)],
            Some((32_952, 33_192)),
        ),
        (271, 100, 512, RUST_BUDGET, &[(271, 32_831)], Some((32_872, 33_104))),
        (270, 100, 512, judge::HIST_PAGE_BUDGET, &[(270, 32_710)], None),
        (9, 4_070, 65_536, judge::HIST_PAGE_BUDGET, &[(8, 32_768), (1, 4_131)], None),
        (1, 32_707, 65_536, judge::HIST_PAGE_BUDGET, &[(1, 32_768)], None),
        (1, 32_708, 65_536, judge::HIST_PAGE_BUDGET, &[(1, 32_769)], None),
        (1_200, 100, 512, RUST_BUDGET, &[(1_082, 130_962), (118, 14_318)], None),
    ];
    for (count, len, limit, budget, pages, ends) in worked {
        let mut rows = vec![row(b"k", 9, 0, b"")];
        rows.extend((0..count).rev().map(|cmd| row(b"k", 8, cmd as u32, &vec![7; len])));
        let mut both = arena(200_000);
        let built = leaf(&mut both, limit, budget, &rows).unwrap();
        let sizes = both.history_hints(built.addr).unwrap().unwrap();
        let sizes = sizes.iter().map(|&page| u32_at(&both, page as usize + 32));
        let sizes: Vec<u32> = sizes.collect();
        let found: Vec<(u16, u32)> = cuts(&mut both, built.addr).into_iter().zip(sizes).collect();
        assert_eq!(found, pages, "{count} of {len} at {budget}");
        if let Some((addr, next)) = ends {
            assert_eq!(built, Built { addr, next });
        }
    }
    let one = [row(b"k", 9, 0, b"")];
    assert_eq!(leaf(&mut arena(200), 64, judge::MAX_BUDGET, &one).map(|b| b.addr), Ok(8));
    assert_eq!(leaf(&mut arena(200), 64, judge::MAX_BUDGET + 1, &one), Err(1));
}

#[test]
fn p9_floors() {
    let mut both = arena(512);
    let list = index_list_of(&[(b"b".to_vec(), 20), (b"d".to_vec(), 40)]);
    let built = both.index(8, &STAMP, &NONE, &list).unwrap();
    let floors: Vec<usize> = [b"a", b"c", b"d", b"e"]
        .iter()
        .map(|probe| both.floor(built.addr, *probe).unwrap().0.unwrap().0)
        .collect();
    assert_eq!(floors, [0, 0, 1, 1]);
}

#[test]
fn p11_twice() {
    let mut both = arena(512);
    assert_eq!(leaf(&mut both, 64, 256, &[row(b"a", 5, 0, b"x"), row(b"a", 5, 0, b"y")]), Err(6));
}

/// Order 3's worked answers: probes below the prefix, beginning with it, above it. Keys read stand in each answer.
#[test]
fn probes_from_elsewhere() {
    let mut both = arena(1024);
    let bounds = Bounds { sibling: 0, lo: b"ba", hi: b"bd" };
    let rows = [
        row(b"ba", 3, 0, b"1"),
        row(b"bb", 5, 0, b"2"),
        row(b"bb", 4, 0, b"3"),
        row(b"bc", 2, 0, b"4"),
    ];
    let leaf = both.leaf(8, 64, 256, &STAMP, &bounds, &list_of(&rows)).unwrap();
    let children = [(b"ba".to_vec(), 21), (b"bb".to_vec(), 22), (b"bc".to_vec(), 23)];
    let tree = both.index(leaf.next, &STAMP, &bounds, &index_list_of(&children)).unwrap();
    let mut laid = arena(128);
    let new = list::Entry { key: b"c", txid: 1, cmd: 0, value: b"new" };
    let delta = laid.leaf_delta(8, 64, &STAMP, &new).unwrap().addr;
    // probe, version found, lower bound, floor, version as of (4, 9), overlay's value; keys read by search, lower bound, floor
    type Worked = (&'static [u8], u64, usize, (usize, u64), u64, &'static [u8], [u32; 3]);
    let worked: [Worked; 8] = [
        (b"", 0, 0, (0, 21), 0, b"", [0, 0, 0]),
        (b"azz", 0, 0, (0, 21), 0, b"", [0, 0, 0]),
        (b"b", 0, 0, (0, 21), 0, b"", [2, 2, 2]),
        (b"bb", 5, 1, (1, 22), 4, b"2", [1, 2, 1]),
        (b"bbx", 0, 2, (1, 22), 0, b"", [2, 2, 2]),
        (b"be", 0, 3, (2, 23), 0, b"", [2, 2, 2]),
        (b"c", 0, 3, (2, 23), 0, b"new", [0, 0, 0]),
        (b"\xff", 0, 3, (2, 23), 0, b"", [0, 0, 0]),
    ];
    for (probe, ver, lower, floor, then, value, [by_search, by_lower, by_floor]) in worked {
        let txid = |found: Option<Found>| found.map_or(0, |f| f.txid);
        let (found, reads) = both.search(leaf.addr, probe).unwrap();
        assert_eq!((txid(found), reads), (ver, by_search), "search {probe:?}");
        for at in [leaf.addr, tree.addr] {
            let bound = both.lower_bound(at, probe, u64::MAX, u32::MAX);
            assert_eq!(bound, Ok((lower, by_lower)), "lower bound {probe:?}");
        }
        assert_eq!(both.floor(tree.addr, probe), Ok((Some(floor), by_floor)), "floor {probe:?}");
        let (found, reads) = both.as_of(leaf.addr, probe, 4, 9).unwrap();
        assert_eq!((txid(found), reads), (then, by_search), "as of {probe:?}");
        let laid = both.overlay(leaf.addr, &laid.arena, delta, probe).unwrap();
        let expected = match value {
            b"" => model::Laid::None,
            b"new" => model::Laid::Delta(value),
            _ => model::Laid::Page(value),
        };
        assert_eq!(laid, expected, "overlay {probe:?}");
    }
    let other = list_of(&[row(b"x", 1, 0, b"")]);
    assert_eq!(both.leaf(tree.next, 64, 256, &STAMP, &bounds, &other), Err(7));
}

#[test]
fn p13_other_prefix() {
    let mut both = arena(512);
    let bounds = Bounds { sibling: 0, lo: &[0, 0], hi: &[0, 0xff] };
    let list = list_of(&[row(&[0, 0xd4], 5, 0, b"x")]);
    let built = both.leaf(8, 64, 256, &STAMP, &bounds, &list).unwrap();
    assert_eq!(both.search(built.addr, &[0xfe, 0xd4]), Ok((None, 0)));
    assert!(both.search(built.addr, &[0, 0xd4]).unwrap().0.is_some());
}

/// Order 4's worked table: lo, hi, keys, and what a leaf and an index page of them answer, each key with (1, 0) `v` or page id 1.
#[test]
fn keys_between_the_boundaries() {
    type Worked =
        (&'static [u8], &'static [u8], &'static [&'static [u8]], usize, [Result<u64, u8>; 2]);
    let none: &[&[u8]] = &[];
    // the next free address where the table gives it, else 0
    let worked: [Worked; 18] = [
        (b"d", b"h", &[b"d"], 4096, [Ok(112), Ok(96)]),
        (b"d", b"h", &[b"gzz"], 4096, [Ok(0), Ok(0)]),
        (b"d", b"h", &[b"h"], 4096, [Err(10), Err(10)]),
        (b"d", b"h", &[b"czz"], 4096, [Err(10), Err(10)]),
        (b"d", b"", &[b"czz"], 4096, [Err(10), Err(10)]),
        (b"h", b"d", none, 4096, [Err(10), Err(10)]),
        (b"d", b"d", none, 4096, [Err(10), Err(10)]),
        (b"da", b"dc", &[b"d"], 4096, [Err(10), Err(10)]),
        (b"da", b"dc", &[b"dc"], 4096, [Err(10), Err(10)]),
        (b"da", b"dc", &[b"x"], 4096, [Err(7), Err(7)]),
        (b"d", b"h", &[b"x", b"e"], 4096, [Err(6), Err(6)]),
        (b"", b"h", &[b""], 4096, [Ok(0), Ok(0)]),
        (b"d", b"h", &[b"h"], 8, [Err(10), Err(10)]),
        (b"d", b"h", &[b"e"], 8, [Err(9), Err(9)]),
        // beside the table: no boundaries hold every key, and lower numbers come first
        (b"", b"", &[b"", b"\xff"], 4096, [Ok(0), Ok(0)]),
        (b"d", b"h", &[b"h", b"h"], 4096, [Err(6), Err(6)]),
        (b"da", b"da", &[b"x"], 4096, [Err(7), Err(7)]),
        (b"da", b"da", &[b"da"], 4096, [Err(10), Err(10)]),
    ];
    for (lo, hi, keys, len, expected) in worked {
        let bounds = Bounds { sibling: 0, lo, hi };
        let rows: Vec<Row> = keys.iter().map(|key| row(key, 1, 0, b"v")).collect();
        let children: Vec<_> = keys.iter().map(|key| (key.to_vec(), 1)).collect();
        let (mut page, mut tree) = (arena(len), arena(len));
        let built = [
            page.leaf(8, 64, 256, &Stamp::default(), &bounds, &list_of(&rows)),
            tree.index(8, &Stamp::default(), &bounds, &index_list_of(&children)),
        ];
        for (built, expected) in built.into_iter().zip(expected) {
            let about = format!("{lo:?} {hi:?} {keys:?}");
            match expected {
                Ok(0) => assert_eq!(built.map(|b| b.addr), Ok(8), "{about}"),
                _ => assert_eq!(built, expected.map(|next| Built { addr: 8, next }), "{about}"),
            }
        }
        for both in [page, tree].iter_mut().filter(|_| expected[0].is_ok()) {
            assert_eq!(both.check(8), Ok(()));
        }
    }
    // "hi is nonempty and lo is not below it" comes before 8 and 9, whatever the entries are
    let many: Vec<Row> = (0..65_536u64).map(|i| row(b"d", 65_536 - i, 0, b"")).collect();
    let bounds = Bounds { sibling: 0, lo: b"d", hi: b"d" };
    assert_eq!(judge::leaf(8, 8, 64, 256, &bounds, &list_of(&many)), Err(10));
}

/// Order 4's merges: A `d`..`h`, B `h`..`p`, C `p`..none, E `h`..`p` without keys, N without boundaries or keys.
#[test]
fn merges_of_neighbours() {
    let mut both = arena(4096);
    let mut next = 8;
    let mut page = |lo: &[u8], hi: &[u8], rows: &[Row]| {
        let bounds = Bounds { sibling: 0, lo, hi };
        let built = both.leaf(next, 64, 256, &Stamp::default(), &bounds, &list_of(rows)).unwrap();
        next = built.next;
        built.addr
    };
    let a = page(b"d", b"h", &[row(b"e", 1, 0, b"v")]);
    let b = page(b"h", b"p", &[row(b"i", 1, 0, b"v")]);
    let c = page(b"p", b"", &[row(b"q", 1, 0, b"v")]);
    let e = page(b"h", b"p", &[]);
    let n = page(b"", b"", &[]);
    assert_eq!(next, 472);
    let mut merge = |left, right| both.merge(472, 64, 256, &Stamp::default(), left, right);
    assert_eq!(merge(a, b), Ok(Built { addr: 472, next: 600 }));
    assert_eq!(merge(a, e).map(|built| built.addr), Ok(472));
    assert_eq!(merge(b, c).map(|built| built.addr), Ok(472));
    for (left, right, number) in
        [(a, c, 10), (b, a, 6), (e, a, 7), (c, n, 10), (n, n, 10), (e, e, 10), (a, a, 6)]
    {
        assert_eq!(merge(left, right), Err(number), "{left} {right}");
    }
}

/// A page from before order 4, as the Rust builds it: lo `d`, no hi, key `c`. The check and a merge say 4; every other reader answers
/// as the Rust does, which judges nothing.
#[test]
fn a_page_from_before_order_4() {
    let mut arena = Arena::new(4096, 0);
    let (before, right) = (Bounds { lo: b"d", ..NONE }, Bounds { lo: b"d", hi: b"h", sibling: 0 });
    let old = list::Entry { key: b"c", txid: 1, cmd: 0, value: b"v" };
    let page = arena.build_leaf(8, 64, 256, &STAMP, &before, &[old]);
    let tree = arena.build_index(page.next, &STAMP, &before, &[list::Child { key: b"c", pid: 1 }]);
    let neighbour = arena.build_leaf(tree.next, 64, 256, &STAMP, &right, &[]);
    let bytes = arena.bytes();
    assert_eq!(model::check(bytes, page.addr), Err(4));
    assert_eq!(model::check(bytes, tree.addr), Err(4));
    for (left, right) in [(page, neighbour), (neighbour, page), (tree, tree), (page, tree)] {
        let merged = judge::merge(bytes, neighbour.next, 64, 256, left.addr, right.addr);
        assert_eq!(merged.err(), Some(4));
    }
    let found = Found { pos: 0, txid: 1, cmd: 0, value: b"v" };
    let (by_rust, of_tree) = (arena.leaf_page(page.addr), arena.index_page(tree.addr));
    assert_eq!(model::search(bytes, page.addr, b"c"), Ok((Some(found), 1)));
    assert_eq!(by_rust.find(b"c"), (Some(found), 1));
    assert_eq!(model::as_of(bytes, page.addr, b"c", 1, 0), Ok((Some(found), 1)));
    for probe in [&b""[..], b"c", b"ca", b"d", b"x"] {
        let mut reads = 0u32;
        let pos = by_rust.lower_bound(probe, Ver::new(1, 0), &mut reads);
        assert_eq!(model::lower_bound(bytes, page.addr, probe, 1, 0), Ok((pos, reads)));
        let mut reads = 0u32;
        let floor = of_tree.floor(probe, &mut reads);
        assert_eq!(model::floor(bytes, tree.addr, probe), Ok((floor, reads)));
    }
    assert_eq!(model::lo(bytes, page.addr), Ok(&b"d"[..]));
    assert_eq!(model::hi(bytes, page.addr), Ok(None));
    assert_eq!(model::prefix(bytes, page.addr), Ok(&b""[..]));
    let (step, _) = model::Walk::forward(bytes, page.addr, 0, 1).unwrap().step().unwrap().unwrap();
    assert_eq!(step, by_rust.steps(0, 1)[0]);
    let mut laid = crate::arena(128);
    let new = list::Entry { key: b"x", txid: 1, cmd: 0, value: b"new" };
    let delta = laid.leaf_delta(8, 64, &STAMP, &new).unwrap().addr;
    let overlay = model::overlay(bytes, page.addr, laid.arena.bytes(), delta, b"c");
    assert_eq!(overlay, Ok(model::Laid::Page(b"v")));
    // the page is outside the domain of equality now
    let mut both = Both::new(Arena::from_bytes(bytes));
    assert_eq!(both.search(page.addr, b"c"), Ok((Some(found), 1)));
    assert_eq!(both.walk(page.addr, 0, 1).1, None);
    assert_eq!((both.asked.both, both.asked.model_alone), (0, 2));
}

#[test]
fn a_value_of_300_alone() {
    for place in 0..3 {
        let mut rows = vec![row(b"k", 100, 0, b"")];
        for i in 0..3 {
            rows.push(row(b"k", 90 - i as u64, 0, &vec![7; if i == place { 300 } else { 10 }]));
        }
        let mut both = arena(4096);
        let built = leaf(&mut both, 512, 256, &rows).unwrap();
        let expected = [vec![1, 2], vec![1, 1, 1], vec![2, 1]];
        assert_eq!(cuts(&mut both, built.addr), expected[place]);
    }
}

#[test]
fn number_8_by_entries() {
    let entries = |n: u64| -> Vec<u8> {
        let rows: Vec<Row> = (0..n).map(|i| row(b"", n - i, 0, b"")).collect();
        list_of(&rows)
    };
    assert_eq!(
        judge::leaf(1 << 24, 8, 64, RUST_BUDGET, &NONE, &entries(65_535)).map(|e| e.len()),
        Ok(65_535)
    );
    assert_eq!(judge::leaf(1 << 24, 8, 64, RUST_BUDGET, &NONE, &entries(65_536)), Err(8));
    let children = |n: u32| -> Vec<u8> {
        let children: Vec<_> = (0..n).map(|i| (i.to_be_bytes().to_vec(), 1)).collect();
        index_list_of(&children)
    };
    assert_eq!(judge::index(1 << 24, 8, &NONE, &children(65_535)).map(|e| e.len()), Ok(65_535));
    assert_eq!(judge::index(1 << 24, 8, &NONE, &children(65_536)), Err(8));
}

#[test]
fn the_largest_pages_are_built() {
    let rows: Vec<Row> = (0..65_535u32).map(|i| row(&i.to_be_bytes(), 1, 0, b"")).collect();
    let mut both = arena(4 << 20);
    let built = leaf(&mut both, 64, RUST_BUDGET, &rows).unwrap();
    assert_eq!(both.check(built.addr), Ok(()));
    let (found, reads) = both.search(built.addr, &70u32.to_be_bytes()).unwrap();
    assert_eq!(found.unwrap().pos, 70);
    assert!(reads <= 16);
}

#[test]
fn number_8_by_size() {
    // 255 inline values of 65,535 and one shorter: exactly 16,777,216 is the most
    let value = vec![1; 65_535];
    let entries: Vec<list::Entry> = (0..=254u8)
        .map(|i| list::Entry {
            key: std::slice::from_ref(&KEYS[i as usize]),
            txid: 1,
            cmd: 0,
            value: &value,
        })
        .collect();
    let size = 40 + 255 * (4 + 1 + 12 + 1 + 5 + 65_535);
    let left = 16_777_216 - size;
    for over in [0usize, 1] {
        let last = vec![2; left - 23 + over];
        let mut entries = entries.clone();
        entries.push(list::Entry { key: &KEYS[255..], txid: 1, cmd: 0, value: &last });
        let list = list::write_entries(&entries);
        let mut both = arena(16_777_216 + 64);
        let built = both.leaf(8, 65_536, RUST_BUDGET, &STAMP, &NONE, &list);
        assert_eq!(built.map(|b| b.addr), if over == 0 { Ok(8) } else { Err(8) });
    }
}

static KEYS: [u8; 256] = {
    let mut keys = [0; 256];
    let mut i = 0;
    while i < 256 {
        keys[i] = i as u8;
        i += 1;
    }
    keys
};

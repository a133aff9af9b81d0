//! Document 01's cases by number, through the safe calls.

use cresttrestle::*;

type Rows<'r> = &'r [(&'r [u8], (u64, u32), &'r [u8])];

fn rows(rows: Rows<'_>) -> Vec<u8> {
    let mut buffer = vec![0; 4096];
    let mut list = RowList::lent(&mut buffer).unwrap();
    for &(key, (txid, cmd), value) in rows {
        list.push(key, Ver::new(txid, cmd), value).unwrap();
    }
    list.bytes().to_vec()
}

const P5: Rows<'_> = &[(b"a", (5, 0), b"xy")];
const P7: Rows<'_> = &[(b"a", (5, 0), b"xy"), (b"a", (3, 0), b"z")];

#[test]
fn p3_prefix() {
    assert_eq!(calc_prefix(b"ab", Some(b"ad")), 1);
    assert_eq!(calc_prefix(b"ab", Some(b"ab")), 2);
    assert_eq!(calc_prefix(b"ab", None), 0);
    assert_eq!(calc_prefix(b"ab", Some(b"")), 0);
}

#[test]
fn p5_p6_room() {
    let mut bytes = [0xee; 112];
    let mut arena = Arena::new(&mut bytes);
    assert_eq!(arena.new_leaf(&rows(P5), Bounds::default(), Build::default()), Ok(Addr::new(8)));
    assert_eq!(arena.next(), Addr::new(112));
    // size 65, slot 44, behind the box header of 32
    assert_eq!(arena.bytes()[40..44], 65u32.to_le_bytes());
    assert_eq!(arena.bytes()[80..84], 44u32.to_le_bytes());

    let mut bytes = [0xee; 111];
    let mut arena = Arena::new(&mut bytes);
    let refused = arena.new_leaf(&rows(P5), Bounds::default(), Build::default());
    assert_eq!(refused, Err(Refusal::NoRoom));
    assert_eq!(arena.next(), Addr::FIRST);
    assert_eq!(bytes, [0xee; 111], "a refusal changes nothing");
}

#[test]
fn p7_history() {
    let mut bytes = [0; 240];
    let mut arena = Arena::new(&mut bytes);
    let leaf = arena.new_leaf(&rows(P7), Bounds::default(), Build::default()).unwrap();
    assert_eq!((leaf, arena.next()), (Addr::new(104), Addr::new(240)));
    let page = arena.page(leaf);
    assert_eq!(page.check(), Ok(()));
    let (found, reads) = page.search_counted(b"a").unwrap();
    let history = Some(History { page: Addr::new(8), slot: 0, count: 1 });
    assert_eq!(found, Some(Found { slot: 0, ver: Ver::new(5, 0), value: b"xy", history }));
    assert_eq!(reads, 1);
    let listed: Vec<_> = page.walk(..).unwrap().rows().map(Result::unwrap).collect();
    let key = Key { prefix: b"", rest: b"a" };
    assert_eq!(
        listed,
        [
            Row {
                key,
                ver: Ver::new(5, 0),
                value: b"xy",
                remote: None,
                entered: Some(Addr::new(8))
            },
            Row { key, ver: Ver::new(3, 0), value: b"z", remote: None, entered: None },
        ]
    );
    assert!(page.history_hints().unwrap().eq([Addr::new(8)]));
    assert_eq!(page.remote_hints().unwrap().len(), 0);
}

#[test]
fn p7_as_of() {
    let mut bytes = [0; 512];
    let mut arena = Arena::new(&mut bytes);
    let bounds = Bounds { lo: b"a", hi: Some(b"ab"), sibling: None };
    let leaf = arena.new_leaf(&rows(P7), bounds, Build::default()).unwrap();
    let empty = arena.new_leaf(&rows(&[]), bounds, Build::default()).unwrap();
    let page = arena.page(leaf);
    let head = Some(AsOf { slot: 0, ver: Ver::new(5, 0), value: b"xy" });
    let old = Some(AsOf { slot: 0, ver: Ver::new(3, 0), value: b"z" });
    for (ver, row) in [
        (Ver::NEWEST, head),
        (Ver::new(5, 0), head),
        (Ver::of_txid(4), old),
        (Ver::new(3, 0), old),
        (Ver::of_txid(2), None),
        (Ver::default(), None),
    ] {
        assert_eq!(page.as_of_counted(b"a", ver), Ok((row, 1)), "as of {ver:?}");
    }
    assert_eq!(page.as_of_counted(b"ab", Ver::NEWEST), Ok((None, 1)));
    assert_eq!(page.as_of_counted(b"b", Ver::NEWEST), Ok((None, 0)));
    // so does a page without keys; a history page is no leaf
    assert_eq!(arena.page(empty).as_of_counted(b"b", Ver::NEWEST), Ok((None, 0)));
    assert_eq!(arena.page(Addr::new(8)).as_of(b"a", Ver::NEWEST), Err(Refusal::BadFrame));
}

#[test]
fn p9_floor() {
    let mut buffer = [0; 64];
    let mut list = IndexList::lent(&mut buffer).unwrap();
    list.push(b"b", PageId::new(1)).unwrap();
    list.push(b"d", None).unwrap();
    let mut bytes = [0; 256];
    let mut arena = Arena::new(&mut bytes);
    let index = arena.new_intl(list.bytes(), Bounds::default(), Build::default()).unwrap();
    for (probe, slot, page) in
        [(b"a", 0, PageId::new(1)), (b"c", 0, PageId::new(1)), (b"d", 1, None), (b"e", 1, None)]
    {
        assert_eq!(arena.page(index).floor(probe), Ok(Some(Floor { slot, page })));
    }
    let children: Vec<_> =
        arena.page(index).walk(..).unwrap().children().map(Result::unwrap).collect();
    assert_eq!(children.len(), 2);
    assert!(children[1].key == b"d"[..] && children[1].page.is_none());
    assert_eq!(arena.page(index).walk(..).unwrap().rows().count(), 0);
}

#[test]
fn p11_twice() {
    let twice = rows(&[(b"a", (5, 0), b""), (b"a", (5, 0), b"")]);
    let mut bytes = [0; 512];
    let refused = Arena::new(&mut bytes).new_leaf(&twice, Bounds::default(), Build::default());
    assert_eq!(refused, Err(Refusal::OutOfOrder));
}

#[test]
fn p13_another_temperature() {
    let list = rows(&[(&[0x00, 0xd4], (5, 0), b"row")]);
    let bounds = Bounds { lo: &[0x00, 0x00], hi: Some(&[0x00, 0xff]), sibling: None };
    let mut bytes = [0; 512];
    let mut arena = Arena::new(&mut bytes);
    let leaf = arena.new_leaf(&list, bounds, Build::default()).unwrap();
    let page = arena.page(leaf);
    // order 3: a probe from elsewhere is no key of the page, and none is read
    assert_eq!(page.search_counted(&[0xfe, 0xd4]), Ok((None, 0)));
    let past = Bound { position: 1, at_key: false };
    assert_eq!(page.lower_bound_counted(&[0xfe, 0xd4], Ver::NEWEST), Ok((past, 0)));
    let first = Bound { position: 0, at_key: true };
    assert_eq!(page.lower_bound_counted(&[], Ver::NEWEST), Ok((first, 0)));
    for (from, to, count) in [(&[][..], &[0xfe][..], 1), (&[], &[0], 0), (&[0xfe], &[0xff], 0)] {
        assert_eq!(page.range(Some(from), Some(to)).unwrap().count(), count, "{from:?} to {to:?}");
    }
    assert!(page.search(&[0x00, 0xd4]).unwrap().is_some());
    let record = page.walk(..).unwrap().next().unwrap().unwrap();
    assert!(record.key() == [0x00, 0xd4][..]);
    assert_eq!((record.key().prefix, record.key().rest), (&[0x00][..], &[0xd4][..]));
}

fn children(keys: &[&[u8]]) -> Vec<u8> {
    let mut buffer = vec![0; 256];
    let mut list = IndexList::lent(&mut buffer).unwrap();
    keys.iter().for_each(|key| list.push(key, PageId::new(1)).unwrap());
    list.bytes().to_vec()
}

/// Order 4's worked table, leaf and index page; the address behind the page where the table gives it.
#[test]
fn keys_between_the_boundaries() {
    use Refusal::{NoRoom, OutOfOrder, Outside, WrongPrefix};
    type Worked<'w> = (&'w [u8], Option<&'w [u8]>, &'w [&'w [u8]], usize, Option<Refusal>);
    let worked: [Worked<'_>; 13] = [
        (b"d", Some(b"h"), &[b"gzz"], 512, None),
        (b"d", Some(b"h"), &[b"h"], 512, Some(Outside)),
        (b"d", Some(b"h"), &[b"czz"], 512, Some(Outside)),
        (b"d", None, &[b"czz"], 512, Some(Outside)),
        (b"h", Some(b"d"), &[], 512, Some(Outside)),
        (b"d", Some(b"d"), &[], 512, Some(Outside)),
        (b"da", Some(b"dc"), &[b"d"], 512, Some(Outside)),
        (b"da", Some(b"dc"), &[b"dc"], 512, Some(Outside)),
        (b"da", Some(b"dc"), &[b"x"], 512, Some(WrongPrefix)),
        (b"d", Some(b"h"), &[b"x", b"e"], 512, Some(OutOfOrder)),
        (b"", Some(b"h"), &[b""], 512, None),
        (b"d", Some(b"h"), &[b"h"], 8, Some(Outside)),
        (b"d", Some(b"h"), &[b"e"], 8, Some(NoRoom)),
    ];
    let build = Build::default();
    for (lo, hi, keys, len, refused) in worked {
        let bounds = Bounds { lo, hi, sibling: None };
        let leaf: Vec<(&[u8], _, &[u8])> =
            keys.iter().map(|&key| (key, (1, 0), &b"v"[..])).collect();
        let (mut a, mut b) = (vec![7; len], vec![7; len]);
        let leaf = Arena::new(&mut a).new_leaf(&rows(&leaf), bounds, build);
        let index = Arena::new(&mut b).new_intl(&children(keys), bounds, build);
        assert_eq!((leaf.err(), index.err()), (refused, refused), "{lo:?} {hi:?} {keys:?}");
        assert!(refused.is_none() || a == vec![7; len] && b == a, "a refusal changes nothing");
    }
    let bounds = Bounds { lo: b"d", hi: Some(b"h"), sibling: None };
    let (mut a, mut b) = ([0; 512], [0; 512]);
    let (mut leaf, mut index) = (Arena::new(&mut a), Arena::new(&mut b));
    leaf.new_leaf(&rows(&[(b"d", (1, 0), b"v")]), bounds, build).unwrap();
    index.new_intl(&children(&[b"d"]), bounds, build).unwrap();
    assert_eq!((leaf.next(), index.next()), (Addr::new(112), Addr::new(96)));
}

/// Order 4's merges: A `d`..`h`, B `h`..`p`, C `p`.. with a key each, E `h`..`p` and N without keys.
#[test]
fn merges_of_neighbours() {
    use Refusal::{OutOfOrder, Outside, WrongPrefix};
    let mut bytes = [0; 1024];
    let mut arena = Arena::new(&mut bytes);
    let mut page = |lo: &[u8], hi: &[u8], key: Option<&[u8]>| {
        let list: Vec<(&[u8], _, &[u8])> =
            key.map(|key| (key, (1, 0), &b"v"[..])).into_iter().collect();
        let bounds = Bounds { lo, hi: Some(hi), sibling: None };
        arena.new_leaf(&rows(&list), bounds, Build::default()).unwrap()
    };
    let a = page(b"d", b"h", Some(b"e"));
    let b = page(b"h", b"p", Some(b"i"));
    let c = page(b"p", b"", Some(b"q"));
    let e = page(b"h", b"p", None);
    let n = page(b"", b"", None);
    let next = arena.next();
    assert_eq!(next, Addr::new(472));
    let mut merge = |left, right| {
        let mut arena = Arena::resume(&mut bytes, next);
        arena.merge(left, right, Build::default()).map(|_| arena.next())
    };
    assert_eq!(merge(a, b), Ok(Addr::new(600)));
    assert!(merge(a, e).is_ok() && merge(b, c).is_ok());
    for (left, right, why) in [
        (a, c, Outside),
        (b, a, OutOfOrder),
        (e, a, WrongPrefix),
        (c, n, Outside),
        (n, n, Outside),
        (e, e, Outside),
        (a, a, OutOfOrder),
    ] {
        assert_eq!(merge(left, right), Err(why), "{left} {right}");
    }
}

/// A page from before order 4, lo `d`, no hi, key `c`: its lo was `c` when it was built here.
#[test]
fn a_page_from_before_order_4() {
    let mut bytes = [0; 512];
    let mut arena = Arena::new(&mut bytes);
    let list = rows(&[(b"c", (1, 0), b"v")]);
    let old = arena.new_leaf(&list, Bounds { lo: b"c", ..Bounds::default() }, Build::default());
    let right = Bounds { lo: b"d", hi: Some(b"h"), sibling: None };
    let (old, right) = (old.unwrap(), arena.new_leaf(&rows(&[]), right, Build::default()).unwrap());
    let next = arena.next();
    // behind the headers and one slot
    bytes[8 + 32 + 40 + 4] = b'd';
    let mut arena = Arena::resume(&mut bytes, next);
    assert_eq!(arena.merge(old, right, Build::default()), Err(Refusal::BadFrame));
    let page = arena.page(old);
    assert_eq!(page.check(), Err(Refusal::BadFrame));
    assert_eq!(page.info().unwrap().lo, b"d");
    assert_eq!(page.search(b"c").unwrap().unwrap().value, b"v");
    assert_eq!(page.as_of(b"c", Ver::NEWEST).unwrap().unwrap().value, b"v");
    assert_eq!(page.walk(..).unwrap().count(), 1);
    assert_eq!(page.range(Some(b"c"), Some(b"d")).unwrap().count(), 1);
}

#[test]
fn lists_that_are_full_stay() {
    let mut buffer = [0; 26];
    let mut list = RowList::lent(&mut buffer).unwrap();
    list.push(b"a", Ver::default(), b"12").unwrap();
    assert_eq!(list.bytes().len(), 26);
    let before = list.bytes().to_vec();
    assert_eq!(list.push(b"", Ver::default(), b""), Err(ListFull));
    assert_eq!(list.bytes(), before);
    assert!(RowList::lent(&mut [0; 4]).is_err());
    assert_eq!(IndexList::lent(&mut [0; 5]).unwrap().push(b"", None), Err(ListFull));
    let mut long = vec![0; 70_000];
    assert_eq!(
        RowList::lent(&mut long).unwrap().push(&[0; 65_536], Ver::default(), b""),
        Err(ListFull)
    );
}

#[test]
fn positions_outside_and_walks_that_end() {
    let mut bytes = [0; 512];
    let mut arena = Arena::new(&mut bytes);
    let leaf = arena.new_leaf(&rows(P7), Bounds::default(), Build::default()).unwrap();
    let page = arena.page(leaf);
    assert_eq!(page.walk(..2).err(), Some(Refusal::BadFrame));
    assert_eq!(page.walk(..=usize::MAX).err(), Some(Refusal::BadFrame));
    let (begin, end) = (5, 1);
    assert_eq!(page.walk(begin..end).unwrap().count(), 0);
    assert_eq!(page.walk(0..=0).unwrap().count(), 2);
    assert_eq!(page.walk_back(0, -1).err(), Some(Refusal::BadFrame));
    assert_eq!(page.walk_back(-1, 0).unwrap().count(), 0);
    // the old version's value claims 65,535 bytes more than its page has: the second step is refused, and the walk is over
    let value_size = 8 + 32 + 40 + 4 + 12 + 1;
    bytes[value_size + 2] = 1;
    let mut walk = View::new(&bytes).page(leaf).walk(..).unwrap();
    assert!(walk.next().unwrap().is_ok());
    assert_eq!(walk.next().unwrap().unwrap_err(), Refusal::BadFrame);
    assert!(walk.next().is_none());
}

/// What an iterator lists, by `next`. It must list the same by `fold` from every place on, also behind a copy, and stay at its end.
fn listed<I: Iterator<Item: PartialEq + std::fmt::Debug> + Clone>(mut walk: I) -> Vec<I::Item> {
    let (mut by_next, mut by_fold) = (Vec::new(), Vec::new());
    loop {
        let mut rest = Vec::new();
        walk.clone().for_each(|item| {
            rest.push(item);
            assert!(rest.len() < 1000, "a walk that does not end");
        });
        assert_eq!(walk.clone().count(), rest.len());
        by_fold.push(rest);
        let Some(item) = walk.next() else { break };
        by_next.push(item);
    }
    assert!(walk.next().is_none() && walk.count() == 0);
    for (taken, rest) in by_fold.iter().enumerate() {
        assert_eq!(*rest, by_next[taken..], "fold behind {taken} records");
    }
    by_next
}

/// A leaf of keys with one to three versions each, and how many rows it has.
fn leaf_of(keys: usize, bytes: &mut [u8]) -> (Addr, usize) {
    let (mut buffer, mut count) = (vec![0; 16_384], 0);
    let mut list = RowList::lent(&mut buffer).unwrap();
    for i in 0..keys {
        for older in 0..=i % 3 {
            let key = (i as u16).to_be_bytes();
            list.push(&key, Ver::new(9 - older as u64, 0), &[i as u8, older as u8]).unwrap();
            count += 1;
        }
    }
    let leaf = Arena::new(bytes).new_leaf(list.bytes(), Bounds::default(), Build::default());
    (leaf.unwrap(), count)
}

#[test]
fn walks_by_fold_and_by_next() {
    // every number of records up to more than two calls of the library read ahead
    for keys in 0..70 {
        let mut bytes = vec![0; 16_384];
        let (leaf, count) = leaf_of(keys, &mut bytes);
        let page = View::new(&bytes).page(leaf);
        let records = listed(page.walk(..).unwrap());
        assert_eq!(records.len(), count);
        let rows: Vec<_> =
            records.into_iter().map(|record| record.map(|r| r.row().unwrap())).collect();
        assert_eq!(listed(page.walk(..).unwrap().rows()), rows);
        assert_eq!(listed(page.walk(..).unwrap().children()), []);
        assert_eq!(listed(page.walk_back(keys as i64 - 1, 0).unwrap().rows()).len(), count);
        let mut again = rows.iter().map(|row| row.unwrap());
        for i in 0..keys as u16 {
            for older in 0..=i % 3 {
                let row = again.next().unwrap();
                assert!(row.key == i.to_be_bytes()[..] && row.value == [i as u8, older as u8]);
                assert_eq!(row.ver, Ver::new(9 - u64::from(older), 0));
            }
        }
    }
}

#[test]
fn index_walks_by_fold_and_by_next() {
    let mut buffer = vec![0; 4096];
    let mut list = IndexList::lent(&mut buffer).unwrap();
    for i in 0..150u16 {
        list.push(&i.to_be_bytes(), PageId::new(u64::from(i))).unwrap();
    }
    let mut bytes = vec![0; 8192];
    let mut arena = Arena::new(&mut bytes);
    let index = arena.new_intl(list.bytes(), Bounds::default(), Build::default()).unwrap();
    let page = arena.page(index);
    let children = listed(page.walk(..).unwrap().children());
    assert_eq!(children.len(), 150);
    for (i, child) in (0..).zip(&children) {
        let child = child.unwrap();
        assert!(child.key == (i as u16).to_be_bytes()[..] && child.page == PageId::new(i));
    }
    let records = listed(page.walk(..).unwrap());
    assert!(records.iter().map(|record| record.map(|r| r.child().unwrap())).eq(children));
    assert_eq!(listed(page.walk(..).unwrap().rows()), []);
}

#[test]
fn refusals_by_fold_and_by_next() {
    let mut bytes = vec![0; 16_384];
    let (leaf, count) = leaf_of(70, &mut bytes);
    let sound = bytes.clone();
    let rows = listed(View::new(&sound).page(leaf).walk(..).unwrap().rows());
    for refused in 0..count {
        // this row's value claims 65,536 bytes more than it has
        let value = rows[refused].unwrap().value;
        let at = value.as_ptr() as usize - sound.as_ptr() as usize;
        bytes.copy_from_slice(&sound);
        bytes[at - 2] = 1;
        let page = View::new(&bytes).page(leaf);
        let told = listed(page.walk(..).unwrap().rows());
        assert_eq!(told[..refused], rows[..refused]);
        assert_eq!(told[refused..], [Err(Refusal::BadFrame)]);
        let records = listed(page.walk(..).unwrap());
        assert!(records.into_iter().map(|record| record.map(|r| r.row().unwrap())).eq(told));
        // a refusal is no row and no child, so both tell it
        assert_eq!(listed(page.walk(..).unwrap().children()), [Err(Refusal::BadFrame)]);
    }
}

#[test]
fn refusals_by_number() {
    // the order in which they are judged
    for (n, why) in [1, 2, 3, 4, 5, 6, 7, 10, 8, 9].into_iter().zip(Refusal::ALL) {
        assert_eq!((why.number(), Refusal::of(n)), (n, Some(why)));
        assert!(!why.to_string().is_empty());
    }
    assert_eq!((Refusal::of(0), Refusal::of(11)), (None, None));
}

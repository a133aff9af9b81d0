//! The random cases stand where order 4 can be wrong: keys at the boundaries and just outside, neighbours that meet and pages that do not.
//! Counted over the cases themselves, without the library.

use std::collections::BTreeMap;

use differential::case::{At, List, Op, Place};
use differential::make;
use oracle::answer::Bounds;
use oracle::sample;

/// The keys of a list that is one.
fn keys(list: &List) -> Option<Vec<Vec<u8>>> {
    match list {
        List::Rows(rows) => Some(rows.iter().map(|row| row.key.clone()).collect()),
        List::Children(children) => Some(children.iter().map(|child| child.0.clone()).collect()),
        List::Bytes(_) => None,
    }
}

/// How two pages lie to each other.
fn pair((left, a): &(Place, Vec<Vec<u8>>), (right, b): &(Place, Vec<Vec<u8>>)) -> &'static str {
    match (left.hi.is_empty(), a.is_empty() || b.is_empty()) {
        (false, false) if left.hi == right.lo => "neighbours",
        (false, true) if left.hi == right.lo => "neighbours, one without keys",
        _ if !left.lo.is_empty() && right.hi == left.lo => "the wrong way round",
        (true, _) if right.lo.is_empty() => "the left without hi, the right without lo",
        (true, _) => "the left without hi",
        _ => "boundaries that do not meet",
    }
}

#[test]
fn cases_stand_at_the_boundaries() {
    let mut kinds = BTreeMap::<&str, usize>::new();
    let (mut inside, mut outside) = (0, 0);
    for n in 0..2000 {
        let mut pages = BTreeMap::new();
        for op in make::case(1, n).ops {
            match op {
                Op::Leaf { name, place, list, .. } | Op::Index { name, place, list, .. } => {
                    let Some(mut keys) = keys(&list) else { continue };
                    keys.dedup();
                    let bounds = Bounds { sibling: 0, lo: &place.lo, hi: &place.hi };
                    let good = bounds.rise() && keys.iter().all(|key| bounds.hold(key));
                    *if good { &mut inside } else { &mut outside } += 1;
                    for kind in sample::lies(&place.lo, &place.hi, &keys) {
                        *kinds.entry(kind).or_default() += 1;
                    }
                    if good {
                        pages.insert(name, (place, keys));
                    }
                }
                Op::Merge { name, left: At::Built(left), right: At::Built(right), .. } => {
                    let (Some(a), Some(b)) = (pages.get(&left), pages.get(&right)) else {
                        continue;
                    };
                    let kind = if left == right { "a page with itself" } else { pair(a, b) };
                    *kinds.entry(kind).or_default() += 1;
                    if kind.starts_with("neighbours") {
                        let (lo, hi) = (a.0.lo.clone(), b.0.hi.clone());
                        let merged = Place { sibling: 0, lo, hi };
                        pages.insert(name, (merged, [&a.1[..], &b.1].concat()));
                    }
                }
                _ => {}
            }
        }
    }
    println!("{inside} builds inside, {outside} outside: {kinds:#?}");
    assert!(inside > 8 * outside && outside > 100, "{inside} inside, {outside} outside");
    let neighbours = kinds["neighbours"] + kinds["neighbours, one without keys"];
    let others = ["the wrong way round", "the left without hi", "boundaries that do not meet"];
    assert!(neighbours > others.iter().map(|kind| kinds[kind]).sum(), "most merges meet");
    for (kind, times) in [
        ("no boundaries", 100),
        ("lo alone", 100),
        ("hi alone", 100),
        ("lo begins hi", 100),
        ("lo below hi", 500),
        ("lo is hi", 20),
        ("lo above hi", 10),
        ("a key that is lo", 300),
        ("lo and a byte more", 300),
        ("hi's last byte one less", 200),
        ("a beginning of hi", 100),
        ("a key between", 5000),
        ("a key where nothing lies between", 20),
        ("outside: hi", 40),
        ("outside: above hi", 40),
        ("outside: a beginning of lo", 20),
        ("outside: one byte below lo", 20),
        ("neighbours", 300),
        ("neighbours, one without keys", 300),
        ("the wrong way round", 50),
        ("the left without hi", 50),
        ("the left without hi, the right without lo", 50),
        ("boundaries that do not meet", 100),
        ("a page with itself", 50),
    ] {
        let made = kinds.get(kind).copied().unwrap_or(0);
        assert!(made >= times, "{kind}: {made} times");
    }
}

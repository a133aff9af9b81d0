//! The model and the Rust on random inputs: `Both` panics where they differ.

use std::collections::BTreeMap;

use oracle::answer::{Bounds, Stamp};
use oracle::arena::Arena;
use oracle::both::Both;
use oracle::judge::{self, Number};
use oracle::list::{Child, Entry};
use oracle::model;
use oracle::prng::Prng;
use oracle::sample::{self, Row, index_list_of, list_of};
use oracle::upstream::RUST_HIST_PAGE_BUDGET;

fn stamp(rng: &mut Prng) -> Stamp {
    Stamp {
        txid: rng.number(),
        group: rng.number() as u8,
        lsn: rng.number() >> 8,
        checkpoint: rng.number() >> 8,
    }
}

fn limit(rng: &mut Prng) -> usize {
    rng.pick(&[1, 2, 5, 8, 9, 16, 40, 64, 65, 300, 1000])
}

fn budget(rng: &mut Prng) -> u64 {
    match rng.below(5) {
        0 | 1 => 256,
        2 => rng.pick(&[judge::HIST_PAGE_BUDGET, RUST_HIST_PAGE_BUDGET as u64]),
        _ => rng.between(256, 900) as u64,
    }
}

/// Every reader of a page, on all that it holds and on what it does not.
fn read_all(both: &mut Both, rng: &mut Prng, addr: u64, prefix: &[u8], keys: &[Vec<u8>]) {
    let elems = keys.len();
    let index = model::page(both.arena.bytes(), addr).unwrap().is_index();
    assert_eq!(both.check(addr), Ok(()));
    let _ = (both.lo(addr).map(<[u8]>::len), both.hi(addr).is_ok(), both.prefix(addr).is_ok());
    let _ = (both.history_hints(addr), both.remote_hints(addr));
    assert_eq!(both.walk(addr, 0, elems as u64).1, None);
    let (a, b) = (rng.below(elems + 2), rng.below(elems + 2));
    let _ = both.walk(addr, a as u64, b as u64).1;
    if !index && elems > 0 {
        assert_eq!(both.walk_back(addr, elems as i64 - 1, 0).1, None);
        let _ = both.walk_back(addr, a as i64 - 1, b as i64 - 1).1;
    }
    for probe in sample::probes(rng, prefix, keys, 8) {
        let (txid, cmd) = rng.pick(&[(u64::MAX, u32::MAX), (0, 0), (1_000_500, 1), (1_000_000, 7)]);
        both.lower_bound(addr, &probe, txid, cmd).unwrap();
        if index {
            both.floor(addr, &probe).unwrap();
        } else {
            both.search(addr, &probe).unwrap();
            both.as_of(addr, &probe, txid, cmd).unwrap();
        }
    }
}

fn leaf(
    both: &mut Both,
    rng: &mut Prng,
    next: u64,
    limit: usize,
    bounds: &Bounds,
    rows: &[Row],
) -> oracle::answer::Built {
    let (budget, stamp) = (budget(rng), stamp(rng));
    both.leaf(next, limit as u64, budget, &stamp, bounds, &list_of(rows)).unwrap()
}

#[test]
fn leaves() {
    let mut rng = Prng::new(1);
    for _ in 0..1500 {
        let prefix = sample::prefix(&mut rng);
        let (lo, hi) = sample::bounds(&mut rng, &prefix);
        let count = rng.below(20);
        let keys = sample::keys_between(&mut rng, &lo, &hi, count);
        let limit = limit(&mut rng);
        let most = rng.pick(&[2, 5, 30]);
        let rows = sample::rows(&mut rng, &keys, most, limit);
        let mut both = Both::new(Arena::new(1 << 18, rng.number() as u8));
        let bounds = Bounds { sibling: rng.number(), lo: &lo, hi: &hi };
        let next = 8 + 8 * rng.below(4) as u64;
        let built = leaf(&mut both, &mut rng, next, limit, &bounds, &rows);
        read_all(&mut both, &mut rng, built.addr, &prefix, &keys);
    }
}

#[test]
fn indexes() {
    let mut rng = Prng::new(2);
    for _ in 0..1000 {
        let prefix = sample::prefix(&mut rng);
        let (lo, hi) = sample::bounds(&mut rng, &prefix);
        let count = rng.below(40);
        let keys = sample::keys_between(&mut rng, &lo, &hi, count);
        let children: Vec<_> = keys.iter().map(|k| (k.clone(), rng.number())).collect();
        let mut both = Both::new(Arena::new(1 << 17, rng.number() as u8));
        let bounds = Bounds { sibling: rng.number(), lo: &lo, hi: &hi };
        let stamp = stamp(&mut rng);
        let built = both.index(8, &stamp, &bounds, &index_list_of(&children)).unwrap();
        read_all(&mut both, &mut rng, built.addr, &prefix, &keys);
        // and merged with a second page, whose boundaries mostly meet the first one's
        let right_lo = if rng.once_in(4) { sample::rest(&mut rng) } else { hi.clone() };
        let bounds = Bounds { sibling: 2, lo: &right_lo, hi: &[] };
        let right = sample::keys_between(&mut rng, &right_lo, &[], 3);
        let children: Vec<_> = right.iter().map(|k| (k.clone(), 1)).collect();
        let other = both.index(built.next, &stamp, &bounds, &index_list_of(&children)).unwrap();
        let merged = both.merge(other.next, 64, 256, &stamp, built.addr, other.addr);
        if !hi.is_empty() && right_lo == hi {
            let keys = [keys, right].concat();
            read_all(&mut both, &mut rng, merged.unwrap().addr, &prefix, &keys);
        } else {
            // no key can be without the prefix: the new page has no hi
            let in_order = keys.last().is_none_or(|last| *last < right[0]);
            assert_eq!(merged, Err(if in_order { 10 } else { 6 }));
        }
    }
}

#[test]
fn merges() {
    let mut rng = Prng::new(3);
    for _ in 0..1200 {
        let prefix = sample::prefix(&mut rng);
        let (lo, hi) = sample::bounds(&mut rng, &prefix);
        let count = rng.between(1, 12);
        let keys = sample::keys_between(&mut rng, &lo, &hi, count);
        let limits = [limit(&mut rng), limit(&mut rng), limit(&mut rng)];
        let rows = sample::rows(&mut rng, &keys, 6, limits[0]);
        let cuts = sample::cuts(&mut rng, &lo, &hi, &keys, 1);
        let sides = sample::parted(&lo, &hi, &cuts, &rows, |row| &row.key);
        let mut both = Both::new(Arena::new(1 << 18, rng.number() as u8));
        let [(llo, lhi, left), (rlo, rhi, right)] = &sides[..] else { panic!("not one cut") };
        let bounds = Bounds { sibling: 1, lo: llo, hi: lhi };
        let left = leaf(&mut both, &mut rng, 8, limits[0], &bounds, left);
        let bounds = Bounds { sibling: 2, lo: rlo, hi: rhi };
        let right = leaf(&mut both, &mut rng, left.next, limits[1], &bounds, right);
        let (budget, stamp) = (budget(&mut rng), stamp(&mut rng));
        let built = both
            .merge(right.next, limits[2] as u64, budget, &stamp, left.addr, right.addr)
            .unwrap();
        read_all(&mut both, &mut rng, built.addr, &prefix, &keys);
        // the pages merged stay what they were
        assert_eq!(both.check(left.addr), Ok(()));
        assert_eq!(both.check(right.addr), Ok(()));
        // a merge of the merged page with an empty one, at another limit
        let bounds = Bounds { sibling: 2, lo: &hi, hi: &[] };
        let empty = both.leaf(built.next, 64, 256, &stamp, &bounds, &list_of(&[])).unwrap();
        let limit = limit(&mut rng) as u64;
        let again = both.merge(empty.next, limit, 300, &stamp, built.addr, empty.addr);
        if hi.is_empty() {
            assert_eq!(again, Err(10));
        } else {
            read_all(&mut both, &mut rng, again.unwrap().addr, &prefix, &keys);
        }
    }
}

/// Order 4 refuses what the sampler makes outside on purpose, with 10 and no other number, leaf and index page alike.
#[test]
fn refused_outside() {
    let mut rng = Prng::new(7);
    let (mut keys_refused, mut bounds_refused) = (0, 0);
    for _ in 0..1500 {
        let prefix = sample::prefix(&mut rng);
        let (lo, hi) = sample::bounds(&mut rng, &prefix);
        let count = rng.below(6);
        let mut keys = sample::keys_between(&mut rng, &lo, &hi, count);
        let stamp = stamp(&mut rng);
        let mut both = Both::new(Arena::new(1 << 15, 1));
        let mut number = |lo: &[u8], hi: &[u8], keys: &[Vec<u8>]| {
            let bounds = Bounds { sibling: 0, lo, hi };
            let rows = sample::rows(&mut rng, keys, 3, 8);
            let children: Vec<_> = keys.iter().map(|k| (k.clone(), 1)).collect();
            let before = both.asked.both;
            let leaf = both.leaf(8, 8, 256, &stamp, &bounds, &list_of(&rows)).err();
            let index = both.index(8, &stamp, &bounds, &index_list_of(&children)).err();
            assert_eq!(leaf, index);
            // what is refused the Rust is not asked about
            assert_eq!(both.asked.both - before, if leaf.is_none() { 2 } else { 0 });
            leaf
        };
        assert_eq!(number(&lo, &hi, &keys), None);
        let mut again = Prng::new(count as u64);
        if let Some((lo, hi)) = sample::bounds_fallen(&mut again, &lo, &hi) {
            assert_eq!(number(&lo, &hi, &[]), Some(10));
            bounds_refused += 1;
        }
        if let Some(key) = sample::key_outside(&mut again, &lo, &hi) {
            keys.push(key);
            keys.sort();
            assert_eq!(number(&lo, &hi, &keys), Some(10));
            keys_refused += 1;
        }
    }
    assert!(keys_refused > 1000 && bounds_refused > 1000, "{keys_refused} {bounds_refused}");
}

/// The sampler makes each kind of place for a key and of boundaries, and often enough.
#[test]
fn the_sampler_meets_the_boundaries() {
    let mut rng = Prng::new(8);
    let mut kinds = BTreeMap::<&str, usize>::new();
    let mut met =
        |all: &[&'static str]| all.iter().for_each(|kind| *kinds.entry(kind).or_default() += 1);
    for _ in 0..2000 {
        let prefix = sample::prefix(&mut rng);
        let (lo, hi) = sample::bounds(&mut rng, &prefix);
        let keys = sample::keys_between(&mut rng, &lo, &hi, 6);
        let bounds = Bounds { sibling: 0, lo: &lo, hi: &hi };
        assert!(bounds.rise() && keys.iter().all(|key| bounds.hold(key)));
        met(&sample::lies(&lo, &hi, &keys));
        if let Some(key) = sample::key_outside(&mut rng, &lo, &hi) {
            assert!(!bounds.hold(&key));
            met(&sample::lies(&lo, &hi, &[key])[1..]);
        }
        if let Some((lo, hi)) = sample::bounds_fallen(&mut rng, &lo, &hi) {
            assert!(!Bounds { sibling: 0, lo: &lo, hi: &hi }.rise());
            met(&sample::lies(&lo, &hi, &[]));
        }
        let cuts = sample::cuts(&mut rng, &lo, &hi, &keys, 2);
        let sides = sample::parted(&lo, &hi, &cuts, &keys, |key| key);
        assert!(sides.windows(2).all(|two| two[0].1 == two[1].0 && !two[0].1.is_empty()));
        assert!(sides.iter().flat_map(|side| side.2.clone()).eq(keys.clone()));
        met(if cuts.len() == 2 { &["three sides"] } else { &["two sides"] });
        for side in &sides {
            met(if side.2.is_empty() { &["an empty side"] } else { &["a side with keys"] });
        }
        for cut in &cuts {
            met(if keys.contains(cut) { &["a cut at a key"] } else { &["a cut between keys"] });
        }
    }
    // seven ways that boundaries lie, five of keys inside and five outside, six of sides and cuts
    assert_eq!(kinds.len(), 23, "{kinds:?}");
    for (kind, times) in kinds {
        assert!(times >= if kind == "two sides" { 10 } else { 40 }, "{kind}: {times} times");
    }
}

#[test]
fn deltas_and_overlays() {
    let mut rng = Prng::new(4);
    for _ in 0..1500 {
        let prefix = sample::prefix(&mut rng);
        let (lo, hi) = sample::bounds(&mut rng, &prefix);
        let count = rng.below(6);
        let keys = sample::keys_between(&mut rng, &lo, &hi, count);
        let limit = limit(&mut rng);
        let rows = sample::rows(&mut rng, &keys, 3, limit);
        let mut page = Both::new(Arena::new(1 << 17, 3));
        let bounds = Bounds { sibling: 1, lo: &lo, hi: &hi };
        let built = leaf(&mut page, &mut rng, 8, limit, &bounds, &rows);

        let key = sample::probes(&mut rng, &prefix, &keys, 1).pop().unwrap();
        let len = sample::value_len(&mut rng, limit);
        let value = sample::filling(&mut rng, len);
        let (txid, cmd) = (999_990 + rng.below(1020) as u64, rng.below(4) as u32);
        let mut delta = Both::new(Arena::new(1 << 14, rng.number() as u8));
        let e = Entry { key: &key, txid, cmd, value: &value };
        let d = delta.leaf_delta(8, limit as u64, &stamp(&mut rng), &e).unwrap();
        assert_eq!(delta.leaf_delta_key(d.addr), Ok((&key[..], txid, cmd)));
        assert_eq!(delta.leaf_delta_value(d.addr), Ok(&value[..]));
        for probe in sample::probes(&mut rng, &prefix, &keys, 4).iter().chain([&key]) {
            page.overlay(built.addr, &delta.arena, d.addr, probe).unwrap();
        }

        let c = Child { key: &key, pid: rng.number() };
        let d = delta.index_delta(d.next, &stamp(&mut rng), &c).unwrap();
        assert_eq!(delta.index_delta_key(d.addr), Ok(&key[..]));
        assert_eq!(delta.index_delta_pid(d.addr), Ok(c.pid));
        let refused: Result<_, Number> = page.overlay(built.addr, &delta.arena, d.addr, &key);
        assert_eq!(refused, Err(4));
    }
}

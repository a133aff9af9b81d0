//! Merges two neighbouring leaves into one; both stay in the arena as they were.
//! Run: cargo run --offline -p cresttrestle --example merge

use cresttrestle::{Addr, Arena, Bounds, Build, PageId, Refusal, RowList, Ver};
use std::error::Error;

fn leaf(
    arena: &mut Arena<'_>,
    bounds: Bounds<'_>,
    rows: &[(&str, u64, &str)],
) -> Result<Addr, Box<dyn Error>> {
    let mut list_bytes = [0; 512];
    let mut list = RowList::lent(&mut list_bytes)?;
    for (key, txid, value) in rows {
        list.push(key.as_bytes(), Ver::new(*txid, 0), value.as_bytes())?;
    }
    Ok(arena.new_leaf(list.bytes(), bounds, Build::default())?)
}

fn main() -> Result<(), Box<dyn Error>> {
    let mut bytes = [0; 2048];
    let mut arena = Arena::new(&mut bytes);
    let left = Bounds { lo: b"k1", hi: Some(b"k5"), sibling: PageId::new(2) };
    let left = leaf(&mut arena, left, &[("k1", 9, "one"), ("k3", 9, "three"), ("k3", 5, "drei")])?;
    let right = Bounds { lo: b"k5", hi: Some(b"k9"), sibling: PageId::new(3) };
    let right = leaf(&mut arena, right, &[("k5", 9, "five"), ("k8", 9, "eight")])?;

    let both = arena.merge(left, right, Build::default())?;
    let info = arena.page(both).info()?;
    println!("merged at {both}: {} keys from {} on", info.len, info.lo.escape_ascii());
    for row in arena.page(both).walk(..)?.rows() {
        let row = row?;
        println!("  {:?} {} {}", row.key, row.ver.txid, row.value.escape_ascii());
    }
    assert_eq!((info.len, info.hi, info.sibling), (4, Some(&b"k9"[..]), PageId::new(3)));

    // the wrong way round the keys do not rise, a page with a gap before it is no neighbour, and nothing is written
    let apart = Bounds { lo: b"k6", hi: Some(b"k9"), sibling: None };
    let apart = leaf(&mut arena, apart, &[("k8", 9, "eight")])?;
    let next = arena.next();
    assert_eq!(arena.merge(right, left, Build::default()), Err(Refusal::OutOfOrder));
    assert_eq!(arena.merge(left, apart, Build::default()), Err(Refusal::Outside));
    assert_eq!(arena.next(), next);
    Ok(())
}

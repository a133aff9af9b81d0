//! Walks a leaf forward, backward and between two keys.
//! Run: cargo run --offline -p cresttrestle --example walk

use cresttrestle::{Arena, Bounds, Build, Refusal, RowList, Ver, Walk};
use std::error::Error;

fn show(title: &str, walk: Walk<'_>) -> Result<usize, Refusal> {
    println!("{title}");
    let mut rows = 0;
    for row in walk.rows() {
        // a damaged record ends the walk with its refusal; the rows before it are good
        let row = row?;
        println!("  {:?} {} {}", row.key, row.ver.txid, row.value.escape_ascii());
        rows += 1;
    }
    Ok(rows)
}

fn main() -> Result<(), Box<dyn Error>> {
    let mut list_bytes = [0; 512];
    let mut list = RowList::lent(&mut list_bytes)?;
    for (key, txid, value) in [
        ("ice", 9, "blue"),
        ("ice", 4, "white"),
        ("moss", 5, "green"),
        ("rock", 7, "grey"),
        ("rock", 2, "black"),
    ] {
        list.push(key.as_bytes(), Ver::new(txid, 0), value.as_bytes())?;
    }
    let mut bytes = [0; 1024];
    let mut arena = Arena::new(&mut bytes);
    let leaf = arena.new_leaf(list.bytes(), Bounds::default(), Build::default())?;

    let page = arena.page(leaf);
    let last = page.info()?.len as i64 - 1;
    assert_eq!(show("all, older rows behind the newest:", page.walk(..)?)?, 5);
    assert_eq!(show("backward, each key still newest first:", page.walk_back(last, 0)?)?, 5);
    assert_eq!(show("from j up to below rock:", page.range(Some(b"j"), Some(b"rock"))?)?, 1);
    Ok(())
}

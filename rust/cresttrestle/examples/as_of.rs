//! Works a flight of last season out again: the correction as it was then, not the one of today.
//! Run: cargo run --offline -p cresttrestle --example as_of

use cresttrestle::{Arena, Bounds, Build, RowList, Ver};
use std::error::Error;

fn main() -> Result<(), Box<dyn Error>> {
    // Three corrections of one sensor at -30.0, the newest first, and one of another written this season.
    let mut list_bytes = [0; 512];
    let mut list = RowList::lent(&mut list_bytes)?;
    list.push(b"7 -30.0", Ver::new(12, 0), b"-1840 cm")?;
    list.push(b"7 -30.0", Ver::new(9, 0), b"-1790 cm")?;
    list.push(b"7 -30.0", Ver::new(4, 0), b"-1755 cm")?;
    list.push(b"8 -30.0", Ver::new(11, 0), b"-1105 cm")?;
    let mut bytes = [0; 1024];
    let mut arena = Arena::new(&mut bytes);
    let leaf = arena.new_leaf(list.bytes(), Bounds::default(), Build::default())?;
    let page = arena.page(leaf);

    // The flight was reduced when transaction 10 was the last: every row that it or an earlier one wrote was there.
    let last_season = Ver::of_txid(10);
    let then = page.as_of(b"7 -30.0", last_season)?.ok_or("no row that old")?;
    let today = page.search(b"7 -30.0")?.ok_or("no such row")?;
    println!("then  {} (transaction {})", then.value.escape_ascii(), then.ver.txid);
    println!("today {} (transaction {})", today.value.escape_ascii(), today.ver.txid);
    assert_eq!((then.ver.txid, then.value), (9, &b"-1790 cm"[..]));
    assert_eq!((today.ver.txid, today.value), (12, &b"-1840 cm"[..]));

    // Sensor 8 had no row yet: none, which is no refusal.
    assert_eq!(page.as_of(b"8 -30.0", last_season)?, None);
    Ok(())
}

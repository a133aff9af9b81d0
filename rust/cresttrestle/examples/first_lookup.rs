//! Builds a leaf of barometer corrections and looks one up.
//! Run: cargo run --offline -p cresttrestle --example first_lookup

use cresttrestle::{Arena, Bounds, Build, RowList, Ver};
use std::error::Error;

/// The product's key: a serial, then the temperature in tenths plus 32,768, so that colder comes first.
fn key(serial: u32, tenths: i16) -> [u8; 6] {
    let [a, b, c, d] = serial.to_be_bytes();
    let [e, f] = ((i32::from(tenths) + 32_768) as u16).to_be_bytes();
    [a, b, c, d, e, f]
}

fn main() -> Result<(), Box<dyn Error>> {
    // 1. A list: keys rising, the newest version of a key first. It lives in a lent buffer.
    let mut list_bytes = [0; 256];
    let mut list = RowList::lent(&mut list_bytes)?;
    list.push(&key(7, -300), Ver::new(12, 0), &(-1840i32).to_be_bytes())?;
    list.push(&key(7, -300), Ver::new(9, 0), &(-1790i32).to_be_bytes())?;
    list.push(&key(7, -295), Ver::new(9, 0), &(-1733i32).to_be_bytes())?;

    // 2. A page of it, in an arena of lent bytes.
    let mut bytes = [0; 1024];
    let mut arena = Arena::new(&mut bytes);
    let leaf = arena.new_leaf(list.bytes(), Bounds::default(), Build::default())?;

    // 3. The lookup: the newest row of the key, its value borrowed from the arena.
    let found = arena.page(leaf).search(&key(7, -300))?.ok_or("no such row")?;
    let correction = i32::from_be_bytes(found.value.try_into()?);
    println!("serial 7 at -30.0: {correction} cm, written by transaction {}", found.ver.txid);
    assert_eq!(correction, -1840);
    Ok(())
}

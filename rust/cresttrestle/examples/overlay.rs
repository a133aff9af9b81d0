//! Looks a row up where a fresh delta, in a buffer of its own, lies over a page.
//! Run: cargo run --offline -p cresttrestle --example overlay

use cresttrestle::{Arena, Bounds, Build, Laid, RowList, Ver};
use std::error::Error;

fn main() -> Result<(), Box<dyn Error>> {
    let mut list_bytes = [0; 256];
    let mut list = RowList::lent(&mut list_bytes)?;
    list.push(b"pump", Ver::new(5, 0), b"off")?;
    list.push(b"vent", Ver::new(5, 0), b"open")?;
    let mut bytes = [0; 1024];
    let mut arena = Arena::new(&mut bytes);
    let leaf = arena.new_leaf(list.bytes(), Bounds::default(), Build::default())?;

    let mut fresh_bytes = [0; 128];
    let mut fresh = Arena::new(&mut fresh_bytes);
    let delta = fresh.delta_leaf(b"pump", Ver::new(8, 0), b"on", Build::default())?;

    let (page, delta) = (arena.page(leaf), fresh.view().delta(delta));
    for key in ["pump", "vent", "door"] {
        match page.overlay(delta, key.as_bytes())? {
            Some(Laid::Delta(value)) => println!("{key}: {} (delta)", value.escape_ascii()),
            Some(Laid::Page(value)) => println!("{key}: {} (page)", value.escape_ascii()),
            None => println!("{key}: none"),
        }
    }
    assert_eq!(page.overlay(delta, b"pump")?, Some(Laid::Delta(b"on")));
    Ok(())
}

//! Document 01's numbers of refusal for builds, merges and deltas, and those that the orders add, from
//! the papers alone. "Each is judged on the whole input, lower numbers first", but for 10, "judged
//! after 7 and before 8": every judgement below asks its questions in the order 1 2 3 4 5 6 7 10 8 9
//! and stops at the first that applies.
//! What is accepted comes back as the items that the page will hold, for `image` and the Rust.

use crate::answer::{Bounds, What};
use crate::image::{self, Item};
use crate::list::{self, Child, Entry};
use crate::model;

/// A number of refusal.
pub type Number = u8;

/// "inline limit not 1..65,536; budget not 256..131,072; lo or hi over 4,096"
pub const BAD_LIMIT: Number = 1;
/// "next free address below 8, not a multiple of 8, or above the arena's length"
pub const BAD_ARENA: Number = 2;
/// "version not 1, count not what remains, header or entry cut short, key over 4,096, value over
/// 65,536"
pub const BAD_LIST: Number = 3;
/// "an address is no frame's, a byte read is not as laid out, ..."
pub const BAD_FRAME: Number = 4;
/// "merging leaf with index"
pub const MIXED_KINDS: Number = 5;
/// "an entry not above the one before"
pub const OUT_OF_ORDER: Number = 6;
/// "a key .. does not begin with the page's prefix"; by order 3 "7 stays for keys handed to a build or
/// merge only"
pub const WRONG_PREFIX: Number = 7;
/// "over 65,535 entries (in a merge, records of both), or size plus hint room over 16,777,216"
pub const TOO_BIG: Number = 8;
/// "next plus all rounded frames exceeds the arena"
pub const NO_ROOM: Number = 9;
/// Order 4: "a key below lo, or not below a nonempty hi, is refused, a lo not below a nonempty hi too,
/// and a merge needs the left hi to equal the right lo, with a left page without hi refused"
pub const OUTSIDE: Number = 10;

pub const MAX_KEY: usize = 4_096;
pub const MAX_VALUE: usize = 65_536;
pub const MAX_LIMIT: u64 = 65_536;
pub const MIN_BUDGET: u64 = 256;
pub const MAX_BUDGET: u64 = 131_072;
/// What a caller without an opinion passes (order 2); the Rust's own is `upstream::RUST_HIST_PAGE_BUDGET`.
pub const HIST_PAGE_BUDGET: u64 = 32_768;
pub const MAX_ENTRIES: usize = 65_535;
pub const MAX_PAYLOAD: usize = 16_777_216;

/// `Err(number)` exactly when the number applies.
fn refuse_if(applies: bool, number: Number) -> Result<(), Number> {
    if applies { Err(number) } else { Ok(()) }
}

fn limit_ok(limit: u64) -> Result<(), Number> {
    refuse_if(!(1..=MAX_LIMIT).contains(&limit), BAD_LIMIT)
}

fn budget_ok(budget: u64) -> Result<(), Number> {
    refuse_if(!(MIN_BUDGET..=MAX_BUDGET).contains(&budget), BAD_LIMIT)
}

fn bounds_ok(bounds: &Bounds) -> Result<(), Number> {
    refuse_if(bounds.lo.len() > MAX_KEY || bounds.hi.len() > MAX_KEY, BAD_LIMIT)
}

fn next_ok(arena_len: usize, next: u64) -> Result<(), Number> {
    refuse_if(next < 8 || !next.is_multiple_of(8) || next > arena_len as u64, BAD_ARENA)
}

/// "Keys compare by bytes, a proper prefix first; at equal keys the newer version comes first":
/// above is a greater key, or the same key in a strictly older version.
fn leaf_above(before: &Item, after: &Item) -> bool {
    after.key > before.key
        || after.key == before.key && (after.txid, after.cmd) < (before.txid, before.cmd)
}

fn leaf_order_ok(items: &[Item]) -> Result<(), Number> {
    let rising = items.windows(2).all(|w| leaf_above(&w[0], &w[1]));
    refuse_if(!rising, OUT_OF_ORDER)
}

fn index_order_ok(children: &[Child]) -> Result<(), Number> {
    let rising = children.windows(2).all(|w| w[0].key < w[1].key);
    refuse_if(!rising, OUT_OF_ORDER)
}

fn room_ok(arena_len: usize, next: u64, frames: usize) -> Result<(), Number> {
    refuse_if(next as usize + frames > arena_len, NO_ROOM)
}

/// Numbers 7 and 10 of the keys that a page is to hold. Boundaries that do not rise are 10 on a page
/// without keys too.
fn keys_ok<'k>(
    bounds: &Bounds,
    keys: impl Iterator<Item = &'k [u8]> + Clone,
) -> Result<(), Number> {
    let prefix = image::prefix(bounds.lo, bounds.hi);
    refuse_if(keys.clone().any(|key| !key.starts_with(prefix)), WRONG_PREFIX)?;
    refuse_if(!bounds.rise() || keys.into_iter().any(|key| !bounds.hold(key)), OUTSIDE)
}

/// Numbers 6, 7 and 10 of a leaf, whether its items come from a list or from two pages.
fn leaf_keys_ok(bounds: &Bounds, items: &[Item]) -> Result<(), Number> {
    leaf_order_ok(items)?;
    keys_ok(bounds, items.iter().map(|i| &i.key[..]))
}

/// The same of an index page.
fn index_keys_ok(bounds: &Bounds, children: &[Child]) -> Result<(), Number> {
    index_order_ok(children)?;
    keys_ok(bounds, children.iter().map(|c| c.key))
}

/// Number 10 of a merge beside its keys': "the left hi to equal the right lo, with a left page without
/// hi refused", also where the right lo is empty too.
fn meet_ok(left_hi: &[u8], right_lo: &[u8]) -> Result<(), Number> {
    refuse_if(left_hi.is_empty() || left_hi != right_lo, OUTSIDE)
}

/// Numbers 8 and 9 of a leaf.
fn leaf_fits(
    arena_len: usize,
    next: u64,
    limit: u64,
    budget: u64,
    bounds: &Bounds,
    items: &[Item],
) -> Result<(), Number> {
    refuse_if(items.len() > MAX_ENTRIES, TOO_BIG)?;
    let sizes = image::leaf_sizes(limit as usize, budget as usize, bounds, items);
    refuse_if(sizes.payload > MAX_PAYLOAD, TOO_BIG)?;
    room_ok(arena_len, next, sizes.frames)
}

/// Numbers 8 and 9 of an index page. Its payload is its size: there are no hints.
fn index_fits(
    arena_len: usize,
    next: u64,
    bounds: &Bounds,
    children: &[Child],
) -> Result<(), Number> {
    refuse_if(children.len() > MAX_ENTRIES, TOO_BIG)?;
    let size = image::index_size(bounds, children);
    refuse_if(size > MAX_PAYLOAD, TOO_BIG)?;
    room_ok(arena_len, next, image::rounded(size))
}

/// A leaf build: 1, 2, 3, 6, 7, 10, 8, 9.
pub fn leaf<'a>(
    arena_len: usize,
    next: u64,
    limit: u64,
    budget: u64,
    bounds: &Bounds,
    list: &'a [u8],
) -> Result<Vec<Entry<'a>>, Number> {
    limit_ok(limit)?;
    budget_ok(budget)?;
    bounds_ok(bounds)?;
    next_ok(arena_len, next)?;
    let entries = list::entries(list)?;
    let items: Vec<Item> = entries.iter().map(Item::arriving).collect();
    leaf_keys_ok(bounds, &items)?;
    leaf_fits(arena_len, next, limit, budget, bounds, &items)?;
    Ok(entries)
}

/// An index build: 1 (for lo and hi only, DECIDED 19), 2, 3, 6, 7, 10, 8, 9.
pub fn index<'a>(
    arena_len: usize,
    next: u64,
    bounds: &Bounds,
    list: &'a [u8],
) -> Result<Vec<Child<'a>>, Number> {
    bounds_ok(bounds)?;
    next_ok(arena_len, next)?;
    let children = list::children(list)?;
    index_keys_ok(bounds, &children)?;
    index_fits(arena_len, next, bounds, &children)?;
    Ok(children)
}

/// What two pages hold together, to be built anew.
pub enum Merged {
    Leaf { sibling: u64, lo: Vec<u8>, hi: Vec<u8>, items: Vec<Item> },
    Index { sibling: u64, lo: Vec<u8>, hi: Vec<u8>, children: Vec<(Vec<u8>, u64)> },
}

/// A merge: 1, 2, 4, 5, 6, 7, 10, 8, 9.
/// "What a merge reads must be sound within the arena below the next free address: the check run
/// on that part of the arena says exactly that" (DECIDED 20).
pub fn merge(
    arena: &[u8],
    next: u64,
    limit: u64,
    budget: u64,
    left: u64,
    right: u64,
) -> Result<Merged, Number> {
    limit_ok(limit)?;
    budget_ok(budget)?;
    next_ok(arena.len(), next)?;
    let below = &arena[..next as usize];
    model::check(below, left)?;
    model::check(below, right)?;
    let (l, r) = (model::page(below, left)?, model::page(below, right)?);
    refuse_if(l.is_index() != r.is_index(), MIXED_KINDS)?;

    // "Merge takes lo and every record of the left, then of the right, hi and right_sibling of the
    // right, and builds anew."
    let (lo, hi, sibling) = (l.lo(below).to_vec(), r.hi(below).to_vec(), r.sibling);
    let bounds = Bounds { sibling, lo: &lo, hi: &hi };
    if l.is_index() {
        let mut children = page_children(below, left)?;
        children.extend(page_children(below, right)?);
        let lent: Vec<Child> = children.iter().map(|(key, pid)| Child { key, pid: *pid }).collect();
        index_keys_ok(&bounds, &lent)?;
        meet_ok(l.hi(below), r.lo(below))?;
        index_fits(arena.len(), next, &bounds, &lent)?;
        Ok(Merged::Index { sibling, lo, hi, children })
    } else {
        // A crafted sound page can stand for more records than memory holds (heads may share
        // their old versions), so the records are counted first; 6, 7 and 10 need each key's first
        // and last record only, and still come before 8.
        let many = count(below, left)? + count(below, right)? > MAX_ENTRIES as u64;
        let mut items = page_items(below, left, many)?;
        items.extend(page_items(below, right, many)?);
        leaf_keys_ok(&bounds, &items)?;
        meet_ok(l.hi(below), r.lo(below))?;
        refuse_if(many, TOO_BIG)?;
        leaf_fits(arena.len(), next, limit, budget, &bounds, &items)?;
        Ok(Merged::Leaf { sibling, lo, hi, items })
    }
}

/// How many records a sound leaf page stands for.
fn count(arena: &[u8], addr: u64) -> Result<u64, Number> {
    let page = model::page(arena, addr)?;
    let mut records = 0;
    for pos in 0..page.elems {
        let head = model::leaf_record(arena, &page, pos)?;
        records += 1 + head.value.history.map_or(0, |h| u64::from(h.count));
    }
    Ok(records)
}

/// The records of a sound leaf page in order. With `ends` only the first and the last version of
/// each key: enough for order and prefix, since a sound page is in order within itself.
fn page_items(arena: &[u8], addr: u64, ends: bool) -> Result<Vec<Item>, Number> {
    let page = model::page(arena, addr)?;
    let prefix = page.prefix(arena);
    let mut items: Vec<Item> = Vec::new();
    let mut walk = model::Walk::forward(arena, addr, 0, page.elems as u64)?;
    while let Some((step, on)) = walk.step()? {
        let What::Leaf { txid, cmd, value } = step.what else {
            return Err(BAD_FRAME);
        };
        let key = [prefix, step.rest].concat();
        if ends && items.len() >= 2 && items[items.len() - 2].key == key {
            items.pop();
        }
        items.push(Item { key, txid, cmd, value: value.to_vec(), remote: walk.remote_of_next()? });
        walk = on;
    }
    Ok(items)
}

fn page_children(arena: &[u8], addr: u64) -> Result<Vec<(Vec<u8>, u64)>, Number> {
    let page = model::page(arena, addr)?;
    let prefix = page.prefix(arena);
    let mut children = Vec::new();
    let mut walk = model::Walk::forward(arena, addr, 0, page.elems as u64)?;
    while let Some((step, on)) = walk.step()? {
        let What::Index { pid } = step.what else {
            return Err(BAD_FRAME);
        };
        children.push(([prefix, step.rest].concat(), pid));
        walk = on;
    }
    Ok(children)
}

/// "A delta's key and value over their limits are 3."
fn delta_lengths_ok(key: &[u8], value: &[u8]) -> Result<(), Number> {
    refuse_if(key.len() > MAX_KEY || value.len() > MAX_VALUE, BAD_LIST)
}

/// A leaf delta: 1 (the limit), 2, 3, 9.
pub fn leaf_delta(arena_len: usize, next: u64, limit: u64, e: &Entry) -> Result<(), Number> {
    limit_ok(limit)?;
    next_ok(arena_len, next)?;
    delta_lengths_ok(e.key, e.value)?;
    room_ok(arena_len, next, image::leaf_delta_frames(limit as usize, e))
}

/// An index delta: 2, 3, 9.
pub fn index_delta(arena_len: usize, next: u64, c: &Child) -> Result<(), Number> {
    next_ok(arena_len, next)?;
    delta_lengths_ok(c.key, &[])?;
    room_ok(arena_len, next, image::index_delta_frames(c))
}

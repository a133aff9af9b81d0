//! Every reader of document 01 as a total function on any arena, sound or damaged, written from
//! the paper and DECIDED.md alone. It is the second source for sound pages and the only one for
//! damaged ones, so it is plain before it is fast. Comments quote the sentence that decides.

use std::cmp::Ordering;

use crate::answer::{Bounds, Found, Step, What};
use crate::judge::{BAD_FRAME, MAX_KEY, MAX_VALUE, Number};

/// `Err(4)` unless the byte read is as laid out.
fn laid_out(ok: bool) -> Result<(), Number> {
    if ok { Ok(()) } else { Err(BAD_FRAME) }
}

/// A little-endian number of `width` bytes at `at`, which must lie inside.
fn number(bytes: &[u8], at: usize, width: usize) -> Result<u64, Number> {
    let part = part(bytes, at, width)?;
    Ok(part.iter().rev().fold(0, |n, &b| n << 8 | u64::from(b)))
}

fn part(bytes: &[u8], at: usize, len: usize) -> Result<&[u8], Number> {
    let end = at.checked_add(len).ok_or(BAD_FRAME)?;
    bytes.get(at..end).ok_or(BAD_FRAME)
}

// ---------------------------------------------------------------------------------------------
// Headers

/// A frame whose box header is as laid out.
#[derive(Clone, Copy, Debug)]
struct Frame {
    addr: u64,
    kind: u8,
    node_type: u8,
    flag: u8,
    link: u64,
    payload_at: usize,
    payload_size: usize,
}

const BASE: u8 = 1;
const DELTA: u8 = 2;
const REMOTE: u8 = 3;
const LEAF: u8 = 1;
const INDEX: u8 = 2;
const SIBLING: u8 = 1;

/// "An address is a frame's offset, a multiple of 8, at least 8 ... A frame takes 32 + payload
/// bytes, rounded up to 8 ... An address is a frame's when that stretch lies in the arena and its
/// box header is as laid out."
fn frame(arena: &[u8], addr: u64) -> Result<Frame, Number> {
    laid_out(addr >= 8 && addr.is_multiple_of(8) && addr <= arena.len() as u64)?;
    let at = addr as usize;
    let f = Frame {
        addr,
        payload_size: number(arena, at, 4)? as usize,
        kind: number(arena, at + 4, 1)? as u8,
        node_type: number(arena, at + 5, 1)? as u8,
        flag: number(arena, at + 6, 1)? as u8,
        link: number(arena, at + 8, 8)?,
        payload_at: at + 32,
    };
    let txid = number(arena, at + 16, 8)?;
    part(arena, at, (32 + f.payload_size).div_ceil(8) * 8)?;
    // "kind u8 (1 base, 2 delta, 3 remote); node_type u8 (1 leaf, 2 index); flag u8 (1 sibling,
    // else 0)"
    laid_out((BASE..=REMOTE).contains(&f.kind))?;
    laid_out(f.node_type == LEAF || f.node_type == INDEX)?;
    laid_out(f.flag <= SIBLING)?;
    // "flag 1 anywhere but on a history page, or a nonzero link anywhere else, is 4. A history page
    // is: kind base, node_type leaf, flag sibling." (DECIDED 8)
    let history = f.kind == BASE && f.node_type == LEAF && f.flag == SIBLING;
    laid_out(history || f.flag == 0 && f.link == 0)?;
    // "A remote frame has txid 0, node_type 1."
    laid_out(f.kind != REMOTE || txid == 0 && f.node_type == LEAF)?;
    Ok(f)
}

#[derive(Clone, Copy, Debug, PartialEq, Eq)]
pub enum Kind {
    Leaf,
    Index,
    History,
}

/// A page whose two headers are as laid out. Offsets are from the base header.
#[derive(Clone, Copy, Debug)]
pub struct Page {
    pub addr: u64,
    pub kind: Kind,
    pub elems: usize,
    pub sibling: u64,
    at: usize,
    size: usize,
    payload_size: usize,
    lo_len: usize,
    hi_len: usize,
    prefix_len: usize,
    many: bool,
    link: u64,
}

impl Page {
    pub fn is_index(&self) -> bool {
        self.kind == Kind::Index
    }

    /// Where the records begin: behind header, slots, lo and hi.
    fn first(&self) -> usize {
        40 + 4 * self.elems + self.lo_len + self.hi_len
    }

    /// The page without hints.
    fn body<'a>(&self, arena: &'a [u8]) -> &'a [u8] {
        &arena[self.at..self.at + self.size]
    }

    pub fn lo<'a>(&self, arena: &'a [u8]) -> &'a [u8] {
        let from = 40 + 4 * self.elems;
        &self.body(arena)[from..from + self.lo_len]
    }

    pub fn hi<'a>(&self, arena: &'a [u8]) -> &'a [u8] {
        let from = 40 + 4 * self.elems + self.lo_len;
        &self.body(arena)[from..from + self.hi_len]
    }

    pub fn prefix<'a>(&self, arena: &'a [u8]) -> &'a [u8] {
        &self.lo(arena)[..self.prefix_len]
    }

    fn bounds<'a>(&self, arena: &'a [u8]) -> Bounds<'a> {
        Bounds { sibling: self.sibling, lo: self.lo(arena), hi: self.hi(arena) }
    }
}

/// "Other readers judge both headers in full (an empty history page or a link not upward
/// included)": DECIDED 9 and 10 say what that is.
fn any_page(arena: &[u8], addr: u64) -> Result<Page, Number> {
    let f = frame(arena, addr)?;
    laid_out(f.kind == BASE && f.payload_size >= 40)?;
    let field = |at: usize, width: usize| number(arena, f.payload_at + at, width);
    let page = Page {
        addr,
        kind: match (f.node_type, f.flag) {
            (INDEX, _) => Kind::Index,
            (_, SIBLING) => Kind::History,
            _ => Kind::Leaf,
        },
        elems: field(4, 2)? as usize,
        sibling: field(8, 8)?,
        at: f.payload_at,
        size: field(0, 4)? as usize,
        payload_size: f.payload_size,
        lo_len: field(24, 4)? as usize,
        hi_len: field(28, 4)? as usize,
        prefix_len: field(32, 4)? as usize,
        many: field(38, 1)? == 1,
        link: f.link,
    };
    // "split_elems, merging_child, merging and padding are 0."
    laid_out(field(6, 2)? == 0 && field(16, 8)? == 0)?;
    laid_out(field(36, 1)? == 0 && field(39, 1)? == 0)?;
    // "is_index is 1 exactly when node_type is 2"
    laid_out(field(37, 1)? == u64::from(page.is_index()))?;
    // "has_multiple_versions is 0 or 1, and 0 on index and history pages"
    laid_out(field(38, 1)? <= 1 && (page.kind == Kind::Leaf || !page.many))?;
    // "lo_len and hi_len <= 4,096; prefix_len <= lo_len"
    laid_out(page.lo_len <= MAX_KEY && page.hi_len <= MAX_KEY)?;
    laid_out(page.prefix_len <= page.lo_len)?;
    // "size >= 40 + 4 elems + lo_len + hi_len; size <= payload_size"
    laid_out(page.first() <= page.size && page.size <= page.payload_size)?;
    // "Index and history pages have payload_size equal to size" (DECIDED 10)
    laid_out(page.kind == Kind::Leaf || page.payload_size == page.size)?;
    // "a history page has at least one element, no boundaries, sibling 0, and its link is 0 or
    // above its own address"
    if page.kind == Kind::History {
        laid_out(page.elems >= 1 && page.lo_len == 0 && page.hi_len == 0 && page.sibling == 0)?;
        laid_out(page.link == 0 || page.link > f.addr)?;
    }
    Ok(page)
}

/// "A history page, delta or remote where a page is wanted is 4."
pub fn page(arena: &[u8], addr: u64) -> Result<Page, Number> {
    let page = any_page(arena, addr)?;
    laid_out(page.kind != Kind::History)?;
    Ok(page)
}

fn page_of(arena: &[u8], addr: u64, kind: Kind) -> Result<Page, Number> {
    let page = any_page(arena, addr)?;
    laid_out(page.kind == kind)?;
    Ok(page)
}

// ---------------------------------------------------------------------------------------------
// Lengths, keys, values

/// "Lengths are unsigned LEB128, shortest form only, at most five bytes, within u32." The number
/// and the bytes that it takes.
pub fn length(bytes: &[u8], at: usize) -> Result<(u64, usize), Number> {
    let mut n = 0u64;
    for i in 0..5 {
        let byte = number(bytes, at + i, 1)?;
        n += (byte % 128) << (7 * i);
        if byte < 128 {
            // a last byte 0 behind another would not be the shortest form
            laid_out(i == 0 || byte != 0)?;
            laid_out(n <= u64::from(u32::MAX))?;
            return Ok((n, i + 1));
        }
    }
    Err(BAD_FRAME)
}

#[derive(Clone, Copy, Debug, PartialEq, Eq)]
struct LeafKey<'a> {
    rest: &'a [u8],
    txid: u64,
    cmd: u32,
    end: usize,
}

/// "Leaf key: LEB128 length of the rest, version, key without the page's prefix"; the length counts
/// both (DECIDED 1), the whole key is at most 4,096 (DECIDED 27).
fn leaf_key(bytes: &[u8], at: usize, prefix_len: usize) -> Result<LeafKey<'_>, Number> {
    let (counted, taken) = length(bytes, at)?;
    laid_out(counted >= 12 && prefix_len as u64 + counted - 12 <= MAX_KEY as u64)?;
    let (at, rest) = (at + taken, counted as usize - 12);
    Ok(LeafKey {
        txid: number(bytes, at, 8)?,
        cmd: number(bytes, at + 8, 4)? as u32,
        rest: part(bytes, at + 12, rest)?,
        end: at + 12 + rest,
    })
}

/// "Index key: length, key".
fn index_key(bytes: &[u8], at: usize, prefix_len: usize) -> Result<(&[u8], usize), Number> {
    let (rest, taken) = length(bytes, at)?;
    laid_out(prefix_len as u64 + rest <= MAX_KEY as u64)?;
    let rest = part(bytes, at + taken, rest as usize)?;
    Ok((rest, at + taken + rest.len()))
}

/// A history reference, its form judged and nothing else (DECIDED 28).
#[derive(Clone, Copy, Debug, PartialEq, Eq)]
pub struct HistoryRef {
    pub addr: u64,
    pub slot: usize,
    pub count: u32,
}

/// A value whose form is judged and whose remote frame is not yet: `inline` or `remote` has it.
#[derive(Clone, Copy, Debug)]
pub struct Value<'a> {
    pub history: Option<HistoryRef>,
    pub remote: u64,
    size: usize,
    inline: &'a [u8],
    is_remote: bool,
    end: usize,
}

/// "Value: flag u8 (1 has history, 2 is remote, 3 both, 0 neither); with history (heads only),
/// address u64, slot u16, count u32, at least 1; then size u32; then the bytes, or a remote address
/// u64." A value is at most 65,536 (DECIDED 27).
fn value(bytes: &[u8], at: usize, head: bool) -> Result<Value<'_>, Number> {
    let flag = number(bytes, at, 1)?;
    laid_out(flag <= 3)?;
    let (has_history, is_remote) = (flag % 2 == 1, flag >= 2);
    laid_out(head || !has_history)?;
    let mut at = at + 1;
    let mut history = None;
    if has_history {
        let h = HistoryRef {
            addr: number(bytes, at, 8)?,
            slot: number(bytes, at + 8, 2)? as usize,
            count: number(bytes, at + 10, 4)? as u32,
        };
        laid_out(h.count >= 1)?;
        history = Some(h);
        at += 14;
    }
    let size = number(bytes, at, 4)? as usize;
    laid_out(size <= MAX_VALUE)?;
    at += 4;
    if is_remote {
        let remote = number(bytes, at, 8)?;
        Ok(Value { history, remote, size, inline: &[], is_remote, end: at + 8 })
    } else {
        let inline = part(bytes, at, size)?;
        Ok(Value { history, remote: 0, size, inline, is_remote, end: at + size })
    }
}

/// "Remote frame payload: size u64, bytes"; "a remote frame's payload is exactly 8 + size"
/// (DECIDED 11).
fn remote(arena: &[u8], addr: u64) -> Result<&[u8], Number> {
    let f = frame(arena, addr)?;
    laid_out(f.kind == REMOTE && f.payload_size >= 8)?;
    laid_out(number(arena, f.payload_at, 8)? == f.payload_size as u64 - 8)?;
    part(arena, f.payload_at + 8, f.payload_size - 8)
}

/// The whole bytes of a value: "A reader that hands a value back judges its remote frame in the
/// same step" (DECIDED 28), "remote size equal".
fn resolve<'a>(arena: &'a [u8], v: &Value<'a>) -> Result<&'a [u8], Number> {
    if !v.is_remote {
        return Ok(v.inline);
    }
    let bytes = remote(arena, v.remote)?;
    laid_out(bytes.len() == v.size)?;
    Ok(bytes)
}

// ---------------------------------------------------------------------------------------------
// Records at a slot

/// "A slot points at or behind the end of hi, and below size" (DECIDED 26); "a position is outside
/// the page" is 4.
fn slot(arena: &[u8], page: &Page, pos: usize) -> Result<usize, Number> {
    laid_out(pos < page.elems)?;
    let at = number(page.body(arena), 40 + 4 * pos, 4)? as usize;
    laid_out(page.first() <= at && at < page.size)?;
    Ok(at)
}

#[derive(Clone, Copy, Debug)]
pub struct LeafRecord<'a> {
    pub rest: &'a [u8],
    pub txid: u64,
    pub cmd: u32,
    pub value: Value<'a>,
}

pub fn leaf_record<'a>(arena: &'a [u8], page: &Page, pos: usize) -> Result<LeafRecord<'a>, Number> {
    let body = page.body(arena);
    let key = leaf_key(body, slot(arena, page, pos)?, page.prefix_len)?;
    let value = value(body, key.end, true)?;
    Ok(LeafRecord { rest: key.rest, txid: key.txid, cmd: key.cmd, value })
}

/// "History key: version only." No history inside a history: "(heads only)".
fn history_record<'a>(arena: &'a [u8], page: &Page, pos: usize) -> Result<LeafRecord<'a>, Number> {
    let body = page.body(arena);
    let at = slot(arena, page, pos)?;
    Ok(LeafRecord {
        rest: &[],
        txid: number(body, at, 8)?,
        cmd: number(body, at + 8, 4)? as u32,
        value: value(body, at + 12, false)?,
    })
}

/// "its value is a page id u64": the key rest, the id, the record's end.
fn index_record<'a>(
    arena: &'a [u8],
    page: &Page,
    pos: usize,
) -> Result<(&'a [u8], u64, usize), Number> {
    let body = page.body(arena);
    let (rest, end) = index_key(body, slot(arena, page, pos)?, page.prefix_len)?;
    Ok((rest, number(body, end, 8)?, end + 8))
}

// ---------------------------------------------------------------------------------------------
// The check

/// "Gapless in slot order": each slot is where the record before ended, the first behind hi. The
/// last may end before `size`: "tail ... not judged".
fn gapless(
    arena: &[u8],
    page: &Page,
    mut end_of: impl FnMut(usize) -> Result<usize, Number>,
) -> Result<(), Number> {
    let mut expected = page.first();
    for pos in 0..page.elems {
        laid_out(slot(arena, page, pos)? == expected)?;
        expected = end_of(pos)?;
    }
    Ok(())
}

/// A history page whole: "all slots, gapless, not only the named ones" (DECIDED 23). The versions
/// of different keys stand side by side in it, so it has no order of its own.
fn sound_history(arena: &[u8], addr: u64) -> Result<Page, Number> {
    let page = page_of(arena, addr, Kind::History)?;
    gapless(arena, &page, |pos| {
        let record = history_record(arena, &page, pos)?;
        resolve(arena, &record.value)?;
        Ok(record.value.end)
    })?;
    Ok(page)
}

/// The history page judged last: "a page whose address equals the last one judged need not be
/// judged again" (DECIDED 23). It changes no answer, only the time.
type Last = Option<Page>;

fn sound_history_once(arena: &[u8], addr: u64, last: &mut Last) -> Result<Page, Number> {
    match last {
        Some(page) if page.addr == addr => Ok(*page),
        _ => {
            let page = sound_history(arena, addr)?;
            *last = Some(page);
            Ok(page)
        }
    }
}

/// "versions of a key grow strictly older ... history and remotes resolve (slot below its page's
/// elems) ... links end while count remains" is 4.
fn sound_versions(
    arena: &[u8],
    head: &LeafRecord,
    h: &HistoryRef,
    last: &mut Last,
) -> Result<(), Number> {
    let mut page = sound_history_once(arena, h.addr, last)?;
    laid_out(h.slot < page.elems)?;
    let (mut slot, mut newer) = (h.slot, (head.txid, head.cmd));
    for _ in 0..h.count {
        if slot == page.elems {
            page = sound_history_once(arena, page.link, last)?;
            slot = 0;
        }
        let record = history_record(arena, &page, slot)?;
        laid_out((record.txid, record.cmd) < newer)?;
        newer = (record.txid, record.cmd);
        slot += 1;
    }
    Ok(())
}

/// "hint counts fit the payload": the two counts, or none where there is no payload behind `size`.
fn hint_counts(arena: &[u8], page: &Page) -> Result<Option<(usize, usize)>, Number> {
    if page.payload_size == page.size {
        return Ok(None);
    }
    let payload = &arena[page.at..page.at + page.payload_size];
    let histories = number(payload, page.size, 4)? as usize;
    part(payload, page.size + 4, 8 * histories)?;
    let remotes_at = page.size + 4 + 8 * histories;
    let remotes = number(payload, remotes_at, 4)? as usize;
    part(payload, remotes_at + 4, 8 * remotes)?;
    Ok(Some((histories, remotes)))
}

/// Order 4: "each key between", as a whole key. The judgement of one key by its rest; one buffer serves them all.
fn between(arena: &[u8], page: &Page) -> impl FnMut(&[u8]) -> Result<(), Number> {
    let (bounds, prefix_len) = (page.bounds(arena), page.prefix_len);
    let mut key = page.prefix(arena).to_vec();
    move |rest| {
        key.truncate(prefix_len);
        key.extend(rest);
        laid_out(bounds.hold(&key))
    }
}

fn sound_leaf(arena: &[u8], page: &Page) -> Result<(), Number> {
    let mut before: Option<&[u8]> = None;
    let mut many = false;
    let mut last = None;
    let mut between = between(arena, page);
    gapless(arena, page, |pos| {
        let record = leaf_record(arena, page, pos)?;
        laid_out(before.is_none_or(|b| b < record.rest))?;
        between(record.rest)?;
        before = Some(record.rest);
        resolve(arena, &record.value)?;
        if let Some(h) = &record.value.history {
            many = true;
            sound_versions(arena, &record, h, &mut last)?;
        }
        Ok(record.value.end)
    })?;
    // "has_multiple_versions is 1 exactly when a head has history"
    laid_out(many == page.many)?;
    hint_counts(arena, page)?;
    Ok(())
}

fn sound_index(arena: &[u8], page: &Page) -> Result<(), Number> {
    let mut before: Option<&[u8]> = None;
    let mut between = between(arena, page);
    gapless(arena, page, |pos| {
        let (rest, _, end) = index_record(arena, page, pos)?;
        laid_out(before.is_none_or(|b| b < rest))?;
        between(rest)?;
        before = Some(rest);
        Ok(end)
    })
}

/// "A check call says so or 4." It takes leaf and index pages (DECIDED 24). Order 4: "Sound frames keep
/// the same rule", here and nowhere else; the bytes of lo and hi are no fields of the header.
pub fn check(arena: &[u8], addr: u64) -> Result<(), Number> {
    let page = page(arena, addr)?;
    laid_out(page.bounds(arena).rise())?;
    if page.is_index() { sound_index(arena, &page) } else { sound_leaf(arena, &page) }
}

/// The soundness of one frame of any kind (DECIDED 24: "a definition of its own").
pub fn sound(arena: &[u8], addr: u64) -> Result<(), Number> {
    let f = frame(arena, addr)?;
    match f.kind {
        BASE if f.flag == SIBLING => sound_history(arena, addr).map(|_| ()),
        BASE => check(arena, addr),
        DELTA if f.node_type == LEAF => {
            leaf_delta_key(arena, addr)?;
            leaf_delta_value(arena, addr).map(|_| ())
        }
        DELTA => {
            index_delta_key(arena, addr)?;
            index_delta_pid(arena, addr).map(|_| ())
        }
        _ => laid_out(remote(arena, addr)?.len() <= MAX_VALUE),
    }
}

// ---------------------------------------------------------------------------------------------
// Searches

/// "All three searches halve as in 001: middle is low + (high - low)/2." `stop` says whether an
/// equal key ends it. The equal position, else where low ended; and the keys read.
fn halve(
    elems: usize,
    stop: bool,
    mut key_against_probe: impl FnMut(usize) -> Result<Ordering, Number>,
) -> Result<(Result<usize, usize>, u32), Number> {
    let (mut low, mut high, mut reads) = (0, elems, 0);
    while low < high {
        let middle = low + (high - low) / 2;
        reads += 1;
        match key_against_probe(middle)? {
            Ordering::Less => low = middle + 1,
            Ordering::Equal if stop => return Ok((Ok(middle), reads)),
            _ => high = middle,
        }
    }
    Ok((Err(low), reads))
}

/// Where a probe of any length stands among a page's keys. Order 3: "A probe that doesn't begin with
/// the prefix should be answered as if whole keys were compared": all of them begin with it, so the
/// probe stands before the first or behind the last, and no key is read.
fn stands(
    arena: &[u8],
    page: &Page,
    probe: &[u8],
    stop: bool,
    key_against_rest: impl Fn(usize, &[u8]) -> Result<Ordering, Number>,
) -> Result<(Result<usize, usize>, u32), Number> {
    let prefix = page.prefix(arena);
    match probe.strip_prefix(prefix) {
        Some(rest) => halve(page.elems, stop, |pos| key_against_rest(pos, rest)),
        None if probe < prefix => Ok((Err(0), 0)),
        None => Ok((Err(page.elems), 0)),
    }
}

/// "A halving step judges the middle's slot and key." (DECIDED 25)
fn leaf_key_at<'a>(arena: &'a [u8], page: &Page, pos: usize) -> Result<LeafKey<'a>, Number> {
    leaf_key(page.body(arena), slot(arena, page, pos)?, page.prefix_len)
}

fn index_key_at<'a>(arena: &'a [u8], page: &Page, pos: usize) -> Result<&'a [u8], Number> {
    Ok(index_key(page.body(arena), slot(arena, page, pos)?, page.prefix_len)?.0)
}

/// "Lower bound gives the first position not less, past the end otherwise"; an index page ignores
/// the version (DECIDED 32). The position and the keys read.
pub fn lower_bound(
    arena: &[u8],
    addr: u64,
    probe: &[u8],
    txid: u64,
    cmd: u32,
) -> Result<(usize, u32), Number> {
    let page = page(arena, addr)?;
    // "A page without keys answers none (lower bound: past the end, 0) before the probe is judged."
    if page.elems == 0 {
        return Ok((0, 0));
    }
    let (end, reads) = stands(arena, &page, probe, false, |pos, rest| {
        if page.is_index() {
            return Ok(index_key_at(arena, &page, pos)?.cmp(rest));
        }
        let key = leaf_key_at(arena, &page, pos)?;
        // "at equal keys the newer version comes first"
        Ok(key.rest.cmp(rest).then((txid, cmd).cmp(&(key.txid, key.cmd))))
    })?;
    Ok((end.unwrap_or_else(|low| low), reads))
}

/// "Floor gives the greatest key not above, slot 0 below the first." Position and page id, or none
/// on a page without keys; and the keys read (the page id is no key: DECIDED 33).
pub fn floor(arena: &[u8], addr: u64, probe: &[u8]) -> Result<(Option<(usize, u64)>, u32), Number> {
    let page = page_of(arena, addr, Kind::Index)?;
    if page.elems == 0 {
        return Ok((None, 0));
    }
    let (end, reads) = stands(arena, &page, probe, true, |pos, rest| {
        Ok(index_key_at(arena, &page, pos)?.cmp(rest))
    })?;
    let pos = match end {
        Ok(equal) => equal,
        Err(low) => low.saturating_sub(1),
    };
    let (_, pid, _) = index_record(arena, &page, pos)?;
    Ok((Some((pos, pid)), reads))
}

/// "Search stops at an equal key." It judges a history reference's form and does not follow it.
pub fn search<'a>(
    arena: &'a [u8],
    addr: u64,
    probe: &[u8],
) -> Result<(Option<Found<'a>>, u32), Number> {
    let page = page_of(arena, addr, Kind::Leaf)?;
    if page.elems == 0 {
        return Ok((None, 0));
    }
    let (end, reads) = stands(arena, &page, probe, true, |pos, rest| {
        Ok(leaf_key_at(arena, &page, pos)?.rest.cmp(rest))
    })?;
    let Ok(pos) = end else {
        return Ok((None, reads));
    };
    let head = leaf_record(arena, &page, pos)?;
    let value = resolve(arena, &head.value)?;
    Ok((Some(Found { pos, txid: head.txid, cmd: head.cmd, value }), reads))
}

/// Order 1: "Given a key and a version, hand back the newest record of that key that is no newer than
/// it, head or history, across linked pages, with its own version. If all are newer, or the key is
/// absent, the answer is none. Refusals: 4 .. as for a search" (7 is gone with order 3). The key's slot
/// stands with it; the keys read are the halving's.
pub fn as_of<'a>(
    arena: &'a [u8],
    addr: u64,
    probe: &[u8],
    txid: u64,
    cmd: u32,
) -> Result<(Option<Found<'a>>, u32), Number> {
    let page = page_of(arena, addr, Kind::Leaf)?;
    if page.elems == 0 {
        return Ok((None, 0));
    }
    let (end, reads) = stands(arena, &page, probe, true, |pos, rest| {
        Ok(leaf_key_at(arena, &page, pos)?.rest.cmp(rest))
    })?;
    let Ok(pos) = end else {
        return Ok((None, reads));
    };
    // a record that is handed back is judged whole, its remote frame too; one that is skipped is
    // judged as far as it must be read: a head's value for its history, an old one's version
    let handed = |r: &LeafRecord<'a>| {
        let value = resolve(arena, &r.value)?;
        Ok((Some(Found { pos, txid: r.txid, cmd: r.cmd, value }), reads))
    };
    let head = leaf_record(arena, &page, pos)?;
    if (head.txid, head.cmd) <= (txid, cmd) {
        return handed(&head);
    }
    let Some(history) = head.value.history else {
        return Ok((None, reads));
    };
    let mut page = page_of(arena, history.addr, Kind::History)?;
    let mut at = history.slot;
    laid_out(at < page.elems)?;
    for _ in 0..history.count {
        if at == page.elems {
            page = page_of(arena, page.link, Kind::History)?;
            at = 0;
        }
        let (key, body) = (slot(arena, &page, at)?, page.body(arena));
        let version = (number(body, key, 8)?, number(body, key + 8, 4)? as u32);
        if version <= (txid, cmd) {
            return handed(&history_record(arena, &page, at)?);
        }
        at += 1;
    }
    Ok((None, reads))
}

// ---------------------------------------------------------------------------------------------
// Walks

/// Where a walk stands. A step hands back the record and the walk moved on.
#[derive(Clone, Copy, Debug)]
pub struct Walk<'a> {
    arena: &'a [u8],
    page: Page,
    heads: Heads,
    old: Option<Old<'a>>,
}

#[derive(Clone, Copy, Debug)]
enum Heads {
    /// from the position, up to below the end
    Up(usize, usize),
    /// from the position, down to and with the end
    Down(i64, i64),
}

/// The old versions of a head that are still to come.
#[derive(Clone, Copy, Debug)]
struct Old<'a> {
    rest: &'a [u8],
    page: Page,
    slot: usize,
    left: u32,
}

impl<'a> Walk<'a> {
    /// "Forward takes positions begin to end (end above elems is 4 at any begin; begin above end
    /// lists nothing)."
    pub fn forward(arena: &'a [u8], addr: u64, begin: u64, end: u64) -> Result<Self, Number> {
        let page = page(arena, addr)?;
        laid_out(end <= page.elems as u64)?;
        let heads = Heads::Up(begin.min(end) as usize, end as usize);
        Ok(Walk { arena, page, heads, old: None })
    }

    /// "Backward (leaves only) counts down from a signed start to a signed end, both included;
    /// start below end lists nothing. Otherwise an end below 0 or a start at or above elems is 4."
    pub fn backward(arena: &'a [u8], addr: u64, start: i64, end: i64) -> Result<Self, Number> {
        let page = page_of(arena, addr, Kind::Leaf)?;
        laid_out(start < end || end >= 0 && start < page.elems as i64)?;
        Ok(Walk { arena, page, heads: Heads::Down(start, end), old: None })
    }

    /// The next position, and the walk behind it.
    fn next_head(&self) -> Option<(usize, Heads)> {
        match self.heads {
            Heads::Up(at, end) if at < end => Some((at, Heads::Up(at + 1, end))),
            Heads::Down(at, end) if at >= end => Some((at as usize, Heads::Down(at - 1, end))),
            _ => None,
        }
    }

    /// The record that the next step hands back, as it stands in its page; the walk moved on; and
    /// the history page entered, or 0. `None` at the end. "History stays newest first either way."
    fn record(&self) -> Result<Option<(LeafRecord<'a>, Walk<'a>, u64)>, Number> {
        let mut on = *self;
        if let Some(mut old) = self.old {
            let mut entered = 0;
            if old.slot >= old.page.elems {
                // "links end while count remains" is 4: address 0 is no frame's
                entered = old.page.link;
                old.page = page_of(self.arena, entered, Kind::History)?;
                old.slot = 0;
            }
            let record = history_record(self.arena, &old.page, old.slot)?;
            old.slot += 1;
            old.left -= 1;
            on.old = (old.left > 0).then_some(old);
            return Ok(Some((LeafRecord { rest: old.rest, ..record }, on, entered)));
        }
        let Some((pos, heads)) = self.next_head() else {
            return Ok(None);
        };
        on.heads = heads;
        let record = leaf_record(self.arena, &self.page, pos)?;
        let Some(h) = record.value.history else {
            return Ok(Some((record, on, 0)));
        };
        // "A walk's head step enters the history page: its headers, its kind and slot < elems are
        // judged there." (DECIDED 29)
        let page = page_of(self.arena, h.addr, Kind::History)?;
        laid_out(h.slot < page.elems)?;
        on.old = Some(Old { rest: record.rest, page, slot: h.slot, left: h.count });
        Ok(Some((record, on, h.addr)))
    }

    /// "A walk's step takes the walk and hands back the record with the walk moved on, naming any
    /// history page just entered."
    pub fn step(&self) -> Result<Option<(Step<'a>, Walk<'a>)>, Number> {
        if self.page.is_index() {
            let Some((pos, heads)) = self.next_head() else {
                return Ok(None);
            };
            let (rest, pid, _) = index_record(self.arena, &self.page, pos)?;
            let step = Step { rest, what: What::Index { pid }, entered: 0 };
            return Ok(Some((step, Walk { heads, ..*self })));
        }
        let Some((record, on, entered)) = self.record()? else {
            return Ok(None);
        };
        let value = resolve(self.arena, &record.value)?;
        let what = What::Leaf { txid: record.txid, cmd: record.cmd, value };
        Ok(Some((Step { rest: record.rest, what, entered }, on)))
    }

    /// The remote address of the record that the next step hands back, 0 where it is inline.
    pub fn remote_of_next(&self) -> Result<u64, Number> {
        Ok(self.record()?.map_or(0, |(record, _, _)| record.value.remote))
    }
}

// ---------------------------------------------------------------------------------------------
// Parts and hints

pub fn lo(arena: &[u8], addr: u64) -> Result<&[u8], Number> {
    Ok(page(arena, addr)?.lo(arena))
}

/// "An empty hi is stored as none."
pub fn hi(arena: &[u8], addr: u64) -> Result<Option<&[u8]>, Number> {
    let hi = page(arena, addr)?.hi(arena);
    Ok((!hi.is_empty()).then_some(hi))
}

pub fn prefix(arena: &[u8], addr: u64) -> Result<&[u8], Number> {
    Ok(page(arena, addr)?.prefix(arena))
}

fn addresses(arena: &[u8], at: usize, count: usize) -> Result<Option<Vec<u64>>, Number> {
    let list: Result<Vec<u64>, Number> = (0..count).map(|i| number(arena, at + 8 * i, 8)).collect();
    Ok(Some(list?).filter(|l| !l.is_empty()))
}

/// "Each hint reader answers none when its own count is 0" (DECIDED 15); the addresses themselves
/// are not judged. Leaves only.
pub fn history_hints(arena: &[u8], addr: u64) -> Result<Option<Vec<u64>>, Number> {
    let page = page_of(arena, addr, Kind::Leaf)?;
    match hint_counts(arena, &page)? {
        None => Ok(None),
        Some((histories, _)) => addresses(arena, page.at + page.size + 4, histories),
    }
}

pub fn remote_hints(arena: &[u8], addr: u64) -> Result<Option<Vec<u64>>, Number> {
    let page = page_of(arena, addr, Kind::Leaf)?;
    match hint_counts(arena, &page)? {
        None => Ok(None),
        Some((histories, remotes)) => {
            addresses(arena, page.at + page.size + 8 + 8 * histories, remotes)
        }
    }
}

// ---------------------------------------------------------------------------------------------
// Deltas and the overlay

/// "Delta payload: klen u32, vlen u32, key, value"; "a delta's exactly 8 + klen + vlen"
/// (DECIDED 11). The bytes of the key and of the value.
fn delta(arena: &[u8], addr: u64, node_type: u8) -> Result<(&[u8], &[u8]), Number> {
    let f = frame(arena, addr)?;
    laid_out(f.kind == DELTA && f.node_type == node_type && f.payload_size >= 8)?;
    let klen = number(arena, f.payload_at, 4)? as usize;
    let vlen = number(arena, f.payload_at + 4, 4)? as usize;
    laid_out(f.payload_size == 8 + klen + vlen)?;
    let key = part(arena, f.payload_at + 8, klen)?;
    Ok((key, part(arena, f.payload_at + 8 + klen, vlen)?))
}

/// "A delta key drops no prefix": key, txid, cmd.
pub fn leaf_delta_key(arena: &[u8], addr: u64) -> Result<(&[u8], u64, u32), Number> {
    let (bytes, _) = delta(arena, addr, LEAF)?;
    let key = leaf_key(bytes, 0, 0)?;
    laid_out(key.end == bytes.len())?;
    Ok((key.rest, key.txid, key.cmd))
}

/// The value whole, its remote resolved in the same buffer.
pub fn leaf_delta_value(arena: &[u8], addr: u64) -> Result<&[u8], Number> {
    let (_, bytes) = delta(arena, addr, LEAF)?;
    let v = value(bytes, 0, false)?;
    laid_out(v.end == bytes.len())?;
    resolve(arena, &v)
}

pub fn index_delta_key(arena: &[u8], addr: u64) -> Result<&[u8], Number> {
    let (bytes, _) = delta(arena, addr, INDEX)?;
    let (key, end) = index_key(bytes, 0, 0)?;
    laid_out(end == bytes.len())?;
    Ok(key)
}

pub fn index_delta_pid(arena: &[u8], addr: u64) -> Result<u64, Number> {
    let (_, bytes) = delta(arena, addr, INDEX)?;
    laid_out(bytes.len() == 8)?;
    number(bytes, 0, 8)
}

/// Where an overlay's value came from.
#[derive(Clone, Copy, Debug, PartialEq, Eq)]
pub enum Laid<'p, 'd> {
    Delta(&'d [u8]),
    Page(&'p [u8]),
    None,
}

/// "Overlay lookup takes an arena with a leaf page and a second buffer with one leaf delta. Both
/// frames' headers and the delta's key are judged for 4 .. If the delta's key is the probe and it is
/// no older than the page's head, or the page has none, its value is handed back from the delta's
/// buffer; otherwise the page's." (DECIDED 36; a probe without the prefix is no key of the page: order 3)
pub fn overlay<'p, 'd>(
    arena: &'p [u8],
    addr: u64,
    buffer: &'d [u8],
    delta_addr: u64,
    probe: &[u8],
) -> Result<Laid<'p, 'd>, Number> {
    let page = page_of(arena, addr, Kind::Leaf)?;
    let (key, txid, cmd) = leaf_delta_key(buffer, delta_addr)?;
    let mut pos = None;
    if page.elems > 0 {
        let at = |pos, rest: &[u8]| Ok(leaf_key_at(arena, &page, pos)?.rest.cmp(rest));
        pos = stands(arena, &page, probe, true, at)?.0.ok();
    }
    let head = match pos {
        Some(pos) => Some((pos, leaf_key_at(arena, &page, pos)?)),
        None => None,
    };
    match head {
        // values are judged only where they are handed back
        Some((pos, head)) if key != probe || (txid, cmd) < (head.txid, head.cmd) => {
            let record = leaf_record(arena, &page, pos)?;
            Ok(Laid::Page(resolve(arena, &record.value)?))
        }
        None if key != probe => Ok(Laid::None),
        _ => Ok(Laid::Delta(leaf_delta_value(buffer, delta_addr)?)),
    }
}

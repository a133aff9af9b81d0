//! The bytes of a build, straight from document 01's building rules 1 to 7 and its layouts.
//! Nothing here calls or follows base.rs: a frame is a list of bytes, an arena receives them.

use crate::answer::{Bounds, Built, Stamp};
use crate::list::{Child, Entry};

/// A record on its way into a leaf: a list's entry, or a record of a page that is merged,
/// with the address of the remote frame that it arrives with, or 0.
#[derive(Clone, Debug, PartialEq, Eq)]
pub struct Item {
    pub key: Vec<u8>,
    pub txid: u64,
    pub cmd: u32,
    pub value: Vec<u8>,
    pub remote: u64,
}

impl Item {
    pub fn arriving(e: &Entry) -> Self {
        Item { key: e.key.to_vec(), txid: e.txid, cmd: e.cmd, value: e.value.to_vec(), remote: 0 }
    }
}

/// "A frame takes 32 + payload bytes, rounded up to 8".
pub fn rounded(payload: usize) -> usize {
    (32 + payload).div_ceil(8) * 8
}

/// Rule 1: "count of equal leading bytes of lo and hi; 0 without hi."
pub fn prefix<'a>(lo: &'a [u8], hi: &[u8]) -> &'a [u8] {
    let mut n = 0;
    while n < lo.len() && n < hi.len() && lo[n] == hi[n] {
        n += 1;
    }
    &lo[..n]
}

/// "Lengths are unsigned LEB128 (DWARF 5, 7.6), shortest form only".
pub fn length(n: usize) -> Vec<u8> {
    let mut out = Vec::new();
    let mut rest = n;
    loop {
        let low = (rest % 128) as u8;
        rest /= 128;
        if rest == 0 {
            out.push(low);
            return out;
        }
        out.push(low + 128);
    }
}

fn version(txid: u64, cmd: u32) -> Vec<u8> {
    [&txid.to_le_bytes()[..], &cmd.to_le_bytes()[..]].concat()
}

/// "Leaf key: LEB128 length of the rest, version, key without the page's prefix." The length
/// counts version and key rest together (DECIDED 1).
fn leaf_key(rest: &[u8], txid: u64, cmd: u32) -> Vec<u8> {
    [&length(12 + rest.len())[..], &version(txid, cmd), rest].concat()
}

/// "Index key: length, key".
fn index_key(rest: &[u8]) -> Vec<u8> {
    [&length(rest.len())[..], rest].concat()
}

/// "Inline exactly when size is below the inline limit."
fn is_remote(limit: usize, size: usize) -> bool {
    size >= limit
}

/// Rule 3 and rule 5: 5 + n or 13 without history, 19 + n or 27 with.
fn value_size(with_history: bool, limit: usize, size: usize) -> usize {
    5 + if with_history { 14 } else { 0 } + if is_remote(limit, size) { 8 } else { size }
}

/// "Value: flag u8 (1 has history, 2 is remote, 3 both, 0 neither); with history (heads only),
/// address u64, slot u16, count u32; then size u32; then the bytes, or a remote address u64."
fn value(history: Option<(u64, u16, u32)>, bytes: &[u8], remote: u64) -> Vec<u8> {
    let mut out = vec![0u8];
    if let Some((addr, slot, count)) = history {
        out[0] += 1;
        out.extend(addr.to_le_bytes());
        out.extend(slot.to_le_bytes());
        out.extend(count.to_le_bytes());
    }
    out.extend((bytes.len() as u32).to_le_bytes());
    if remote != 0 {
        out[0] += 2;
        out.extend(remote.to_le_bytes());
    } else {
        out.extend(bytes);
    }
    out
}

/// A frame's box header and payload, rounded with zeros.
struct BoxHead {
    kind: u8,
    node_type: u8,
    flag: u8,
    link: u64,
    txid: u64,
}

fn frame(head: &BoxHead, stamp: &Stamp, payload: &[u8]) -> Vec<u8> {
    let mut out = Vec::new();
    out.extend((payload.len() as u32).to_le_bytes());
    out.extend([head.kind, head.node_type, head.flag, stamp.group]);
    out.extend(head.link.to_le_bytes());
    out.extend(head.txid.to_le_bytes());
    // "lsn is the larger of the given and the checkpoint's."
    out.extend(stamp.lsn.max(stamp.checkpoint).to_le_bytes());
    out.extend(payload);
    out.resize(rounded(payload.len()), 0);
    out
}

/// "A remote frame has txid 0, node_type 1." "Remote frame payload: size u64, bytes."
fn remote_frame(stamp: &Stamp, bytes: &[u8]) -> Vec<u8> {
    let head = BoxHead { kind: 3, node_type: 1, flag: 0, link: 0, txid: 0 };
    let payload = [&(bytes.len() as u64).to_le_bytes()[..], bytes].concat();
    frame(&head, stamp, &payload)
}

/// "Page: base header, elems slots of u32 (record offset from the base header), lo, hi, records."
/// `size` may exceed what they fill: "The tail stays unused and zero."
fn page(size: usize, is_index: bool, many: bool, bounds: &Bounds, records: &[Vec<u8>]) -> Vec<u8> {
    let mut out = Vec::new();
    out.extend((size as u32).to_le_bytes());
    out.extend((records.len() as u16).to_le_bytes());
    out.extend([0; 2]); // split_elems
    out.extend(bounds.sibling.to_le_bytes());
    out.extend([0; 8]); // merging_child
    out.extend((bounds.lo.len() as u32).to_le_bytes());
    out.extend((bounds.hi.len() as u32).to_le_bytes());
    out.extend((prefix(bounds.lo, bounds.hi).len() as u32).to_le_bytes());
    out.extend([0, u8::from(is_index), u8::from(many), 0]);
    let mut at = 40 + 4 * records.len() + bounds.lo.len() + bounds.hi.len();
    for record in records {
        out.extend((at as u32).to_le_bytes());
        at += record.len();
    }
    out.extend(bounds.lo);
    out.extend(bounds.hi);
    out.extend(records.concat());
    assert!(out.len() <= size);
    out.resize(size, 0);
    out
}

/// Rule 2: "The first version of each key is its head, in the page. The rest are old versions,
/// joined in order for all keys." Each head with the number of its old versions.
fn heads(items: &[Item]) -> Vec<(usize, usize)> {
    let mut out: Vec<(usize, usize)> = Vec::new();
    for (i, item) in items.iter().enumerate() {
        match out.last_mut() {
            Some((head, old)) if items[*head].key == item.key => *old += 1,
            _ => out.push((i, 0)),
        }
    }
    out
}

/// Rule 2's old versions, as places in the items.
fn old_versions(items: &[Item]) -> Vec<usize> {
    heads(items).iter().flat_map(|&(head, old)| head + 1..=head + old).collect()
}

/// Rule 3: "Old versions fill history pages greedily. Page starts at 40; each adds
/// 12 + value size + 4; one is taken while the total is at most the budget. One too large alone gets its own
/// page." How many each page takes.
fn cuts(limit: usize, budget: usize, items: &[Item], old: &[usize]) -> Vec<usize> {
    let mut cuts: Vec<usize> = Vec::new();
    let mut total = 0;
    for &i in old {
        let adds = 12 + value_size(false, limit, items[i].value.len()) + 4;
        match cuts.last_mut() {
            Some(taken) if total + adds <= budget => {
                *taken += 1;
                total += adds;
            }
            _ => {
                cuts.push(1);
                total = 40 + adds;
            }
        }
    }
    cuts
}

fn history_size(limit: usize, items: &[Item], old: &[usize]) -> usize {
    let each = |&i: &usize| 12 + value_size(false, limit, items[i].value.len()) + 4;
    40 + old.iter().map(each).sum::<usize>()
}

/// The bytes of the new remote frame that an item needs: none when inline, and none when it
/// "still at or above the limit keeps its address" (rule 7).
fn remote_room(limit: usize, item: &Item) -> usize {
    if is_remote(limit, item.value.len()) && item.remote == 0 {
        rounded(8 + item.value.len())
    } else {
        0
    }
}

/// Rule 5, `size`: "40 + 4 per head + lo + hi + head keys + head values without history + for each
/// key with old versions, the whole size with history (19 + n, or 27 remote) of its second
/// version's value."
fn leaf_size(limit: usize, bounds: &Bounds, items: &[Item]) -> usize {
    let dropped = prefix(bounds.lo, bounds.hi).len();
    let mut size = 40 + bounds.lo.len() + bounds.hi.len();
    for (head, old) in heads(items) {
        let item = &items[head];
        let counted = 12 + item.key.len() - dropped;
        size += 4 + length(counted).len() + counted;
        size += value_size(false, limit, item.value.len());
        if old > 0 {
            size += value_size(true, limit, items[head + 1].value.len());
        }
    }
    size
}

/// Rule 6's room: "none if there are no history pages and no remotes counted; else u32 count and
/// history addresses, u32 count and remote addresses. Room counts each value that arrives as a
/// remote or is at or above the limit."
fn hint_room(limit: usize, history_pages: usize, items: &[Item]) -> usize {
    let counts = |i: &&Item| i.remote != 0 || is_remote(limit, i.value.len());
    let counted = items.iter().filter(counts).count();
    if history_pages == 0 && counted == 0 { 0 } else { 8 + 8 * history_pages + 8 * counted }
}

/// What the judge asks of a leaf before anything is written.
pub struct LeafSizes {
    /// "Size plus hint room" (DECIDED 16).
    pub payload: usize,
    /// All newly written frames with their rounding (DECIDED 17).
    pub frames: usize,
}

pub fn leaf_sizes(limit: usize, budget: usize, bounds: &Bounds, items: &[Item]) -> LeafSizes {
    let old = old_versions(items);
    let cuts = cuts(limit, budget, items, &old);
    let payload = leaf_size(limit, bounds, items) + hint_room(limit, cuts.len(), items);
    let mut frames = rounded(payload);
    let mut done = 0;
    for taken in cuts {
        frames += rounded(history_size(limit, items, &old[done..done + taken]));
        done += taken;
    }
    frames += items.iter().map(|i| remote_room(limit, i)).sum::<usize>();
    LeafSizes { payload, frames }
}

/// Frames collected upward from the next free address.
struct Frames {
    start: u64,
    bytes: Vec<u8>,
    /// Every remote that the page names, history's first, then heads' (rule 6).
    remotes: Vec<u64>,
}

impl Frames {
    fn next(&self) -> u64 {
        self.start + self.bytes.len() as u64
    }

    /// Rule 4: a page is followed by the new remote frames of its records. Each record's remote
    /// address, 0 where the value is inline: kept, or where its frame will stand behind the page.
    fn remotes_behind(&mut self, page_frame: usize, limit: usize, items: &[&Item]) -> Vec<u64> {
        let mut at = self.next() + page_frame as u64;
        let mut out = Vec::new();
        for item in items {
            let addr = match is_remote(limit, item.value.len()) {
                false => 0,
                true if item.remote != 0 => item.remote,
                true => at,
            };
            at += remote_room(limit, item) as u64;
            out.push(addr);
        }
        self.remotes.extend(out.iter().filter(|&&addr| addr != 0));
        out
    }

    fn write_remotes(&mut self, stamp: &Stamp, limit: usize, items: &[&Item]) {
        for item in items {
            if remote_room(limit, item) > 0 {
                self.bytes.extend(remote_frame(stamp, &item.value));
            }
        }
    }
}

/// A leaf build or the leaf part of a merge: the bytes from `next` on, and where the page is.
pub fn leaf(
    next: u64,
    limit: usize,
    budget: usize,
    stamp: &Stamp,
    bounds: &Bounds,
    items: &[Item],
) -> (Built, Vec<u8>) {
    let old = old_versions(items);
    let cuts = cuts(limit, budget, items, &old);
    let mut out = Frames { start: next, bytes: Vec::new(), remotes: Vec::new() };

    // Rule 4: "History pages come first (flag sibling, no boundaries, sibling id 0), each followed
    // by its remote frames; each links to the next."
    let mut history_addrs: Vec<u64> = Vec::new();
    let mut places: Vec<(u64, u16)> = Vec::new();
    let mut done = 0;
    for (n, &taken) in cuts.iter().enumerate() {
        let these = &old[done..done + taken];
        done += taken;
        let held: Vec<&Item> = these.iter().map(|&i| &items[i]).collect();
        let size = history_size(limit, items, these);
        let addr = out.next();
        let behind: usize = held.iter().map(|i| remote_room(limit, i)).sum();
        let link = if n + 1 < cuts.len() { addr + rounded(size) as u64 + behind as u64 } else { 0 };
        let remotes = out.remotes_behind(rounded(size), limit, &held);
        // "History key: version only."
        let records: Vec<Vec<u8>> = held
            .iter()
            .zip(&remotes)
            .map(|(i, &r)| [version(i.txid, i.cmd), value(None, &i.value, r)].concat())
            .collect();
        let head = BoxHead { kind: 1, node_type: 1, flag: 1, link, txid: stamp.txid };
        let payload = page(size, false, false, &Bounds::default(), &records);
        out.bytes.extend(frame(&head, stamp, &payload));
        out.write_remotes(stamp, limit, &held);
        history_addrs.push(addr);
        places.extend((0..taken).map(|slot| (addr, slot as u16)));
    }

    // "Then the leaf page, then the heads' remote frames."
    let heads = heads(items);
    let held: Vec<&Item> = heads.iter().map(|&(i, _)| &items[i]).collect();
    let size = leaf_size(limit, bounds, items);
    let room = hint_room(limit, cuts.len(), items);
    let addr = out.next();
    let remotes = out.remotes_behind(rounded(size + room), limit, &held);
    let dropped = prefix(bounds.lo, bounds.hi).len();
    let mut records = Vec::new();
    let mut olds_before = 0;
    for (&(i, old), &remote) in heads.iter().zip(&remotes) {
        let item = &items[i];
        let history = (old > 0).then(|| {
            let (addr, slot) = places[olds_before];
            (addr, slot, old as u32)
        });
        olds_before += old;
        let key = leaf_key(&item.key[dropped..], item.txid, item.cmd);
        records.push([key, value(history, &item.value, remote)].concat());
    }
    let mut payload = page(size, false, !old.is_empty(), bounds, &records);
    // Rule 6. A count is the number of addresses written; the rest of the room is zero.
    if room > 0 {
        payload.extend((history_addrs.len() as u32).to_le_bytes());
        payload.extend(history_addrs.iter().flat_map(|a| a.to_le_bytes()));
        payload.extend((out.remotes.len() as u32).to_le_bytes());
        payload.extend(out.remotes.iter().flat_map(|a| a.to_le_bytes()));
    }
    assert!(payload.len() <= size + room);
    payload.resize(size + room, 0);
    let head = BoxHead { kind: 1, node_type: 1, flag: 0, link: 0, txid: stamp.txid };
    out.bytes.extend(frame(&head, stamp, &payload));
    out.write_remotes(stamp, limit, &held);
    (Built { addr, next: out.next() }, out.bytes)
}

pub fn index_size(bounds: &Bounds, children: &[Child]) -> usize {
    let dropped = prefix(bounds.lo, bounds.hi).len();
    let each = |c: &Child| 4 + index_key(&c.key[dropped..]).len() + 8;
    40 + bounds.lo.len() + bounds.hi.len() + children.iter().map(each).sum::<usize>()
}

/// An index build or the index part of a merge.
pub fn index(next: u64, stamp: &Stamp, bounds: &Bounds, children: &[Child]) -> (Built, Vec<u8>) {
    let dropped = prefix(bounds.lo, bounds.hi).len();
    let records: Vec<Vec<u8>> = children
        .iter()
        .map(|c| [index_key(&c.key[dropped..]), c.pid.to_le_bytes().to_vec()].concat())
        .collect();
    let head = BoxHead { kind: 1, node_type: 2, flag: 0, link: 0, txid: stamp.txid };
    let payload = page(index_size(bounds, children), true, false, bounds, &records);
    let bytes = frame(&head, stamp, &payload);
    (Built { addr: next, next: next + bytes.len() as u64 }, bytes)
}

/// "Delta payload: klen u32, vlen u32, key, value." klen and vlen are the encoded sizes
/// (DECIDED 2).
fn delta_payload(key: &[u8], value: &[u8]) -> Vec<u8> {
    let klen = (key.len() as u32).to_le_bytes();
    let vlen = (value.len() as u32).to_le_bytes();
    [&klen[..], &vlen[..], key, value].concat()
}

pub fn leaf_delta_frames(limit: usize, e: &Entry) -> usize {
    let key = leaf_key(e.key, e.txid, e.cmd).len();
    remote_room(limit, &Item::arriving(e))
        + rounded(8 + key + value_size(false, limit, e.value.len()))
}

/// "A delta key drops no prefix; its remote frame, if any, comes first." A leaf delta carries its
/// version's txid (DECIDED 3).
pub fn leaf_delta(next: u64, limit: usize, stamp: &Stamp, e: &Entry) -> (Built, Vec<u8>) {
    let mut bytes = Vec::new();
    let mut remote = 0;
    if is_remote(limit, e.value.len()) {
        remote = next;
        bytes = remote_frame(stamp, e.value);
    }
    let addr = next + bytes.len() as u64;
    let head = BoxHead { kind: 2, node_type: 1, flag: 0, link: 0, txid: e.txid };
    let payload = delta_payload(&leaf_key(e.key, e.txid, e.cmd), &value(None, e.value, remote));
    bytes.extend(frame(&head, stamp, &payload));
    (Built { addr, next: next + bytes.len() as u64 }, bytes)
}

pub fn index_delta_frames(c: &Child) -> usize {
    rounded(8 + index_key(c.key).len() + 8)
}

/// An index delta carries the given txid (DECIDED 3).
pub fn index_delta(next: u64, stamp: &Stamp, c: &Child) -> (Built, Vec<u8>) {
    let head = BoxHead { kind: 2, node_type: 2, flag: 0, link: 0, txid: stamp.txid };
    let payload = delta_payload(&index_key(c.key), &c.pid.to_le_bytes());
    let bytes = frame(&head, stamp, &payload);
    (Built { addr: next, next: next + bytes.len() as u64 }, bytes)
}

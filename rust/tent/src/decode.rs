//! Document 01's layouts once more, for people: the proved check says 4, these readers say at which byte and why.
//! They are written from the paper alone; tests hold them against the check on every vector and on random damage.

use std::fmt;

/// A place in the arena that is not as laid out.
#[derive(Clone, Debug, PartialEq, Eq)]
pub struct Fault {
    pub at: usize,
    pub words: String,
}

impl fmt::Display for Fault {
    fn fmt(&self, f: &mut fmt::Formatter) -> fmt::Result {
        write!(f, "at {} (0x{:x}): {}", self.at, self.at, self.words)
    }
}

/// A reader's refusal.
pub fn fault<T>(at: usize, words: impl Into<String>) -> Result<T, Fault> {
    Err(Fault { at, words: words.into() })
}

/// The table's lengths.
pub const MAX_KEY: usize = 4_096;
pub const MAX_VALUE: usize = 65_536;

/// Bytes of a frame and where they stand in the arena, so that a fault can name its place.
#[derive(Clone, Copy)]
pub struct Part<'a> {
    pub bytes: &'a [u8],
    pub start: usize,
}

impl<'a> Part<'a> {
    /// The place of an offset in the arena.
    pub fn place(&self, at: usize) -> usize {
        self.start + at
    }

    fn take(&self, at: usize, len: usize, what: &str) -> Result<&'a [u8], Fault> {
        match at.checked_add(len).and_then(|end| self.bytes.get(at..end)) {
            Some(part) => Ok(part),
            None => fault(
                self.place(at),
                format!(
                    "{what} of {len} bytes runs over the end at {}",
                    self.place(self.bytes.len())
                ),
            ),
        }
    }

    pub fn number(&self, at: usize, width: usize, what: &str) -> Result<u64, Fault> {
        Ok(self.take(at, width, what)?.iter().rev().fold(0, |n, &b| n << 8 | u64::from(b)))
    }
}

// ---- box header

pub const BASE: u64 = 1;
pub const DELTA: u64 = 2;
pub const REMOTE: u64 = 3;
pub const LEAF: u64 = 1;
pub const INDEX: u64 = 2;

/// A box header's fields as they are, judged by `faults`.
#[derive(Clone, Copy, Debug)]
pub struct Frame {
    pub addr: usize,
    pub payload_size: usize,
    pub kind: u64,
    pub node_type: u64,
    pub flag: u64,
    pub group: u64,
    pub link: u64,
    pub txid: u64,
    pub lsn: u64,
}

impl Frame {
    /// The header at an address; refused where no header can stand.
    pub fn read(arena: &[u8], addr: u64) -> Result<Self, Fault> {
        let at = usize::try_from(addr).unwrap_or(usize::MAX);
        if addr == 0 {
            return fault(0, "address 0 is none");
        }
        if addr < 8 || !addr.is_multiple_of(8) {
            return fault(
                at,
                format!("address {addr} is no frame's: addresses are multiples of 8"),
            );
        }
        if at > arena.len() || arena.len() - at < 32 {
            return fault(
                at,
                format!(
                    "address {addr} has no room for a box header in the arena of {} bytes",
                    arena.len()
                ),
            );
        }
        let head = Part { bytes: arena, start: 0 };
        let field = |from: usize, width: usize| head.number(at + from, width, "box header");
        Ok(Frame {
            addr: at,
            payload_size: field(0, 4)? as usize,
            kind: field(4, 1)?,
            node_type: field(5, 1)?,
            flag: field(6, 1)?,
            group: field(7, 1)?,
            link: field(8, 8)?,
            txid: field(16, 8)?,
            lsn: field(24, 8)?,
        })
    }

    /// Where the frame ends, its rounding included.
    pub fn end(&self) -> usize {
        self.addr + (32 + self.payload_size).next_multiple_of(8)
    }

    pub fn is_history(&self) -> bool {
        self.kind == BASE && self.node_type == LEAF && self.flag == 1
    }

    /// The payload, as far as it lies in the arena.
    pub fn payload<'a>(&self, arena: &'a [u8]) -> Part<'a> {
        let start = self.addr + 32;
        Part { bytes: &arena[start..arena.len().min(start + self.payload_size)], start }
    }

    /// Everything of the box header that is not as laid out.
    pub fn faults(&self, arena: &[u8]) -> Vec<Fault> {
        let mut out = Vec::new();
        let mut say = |from: usize, words: String| out.push(Fault { at: self.addr + from, words });
        if self.end() > arena.len() {
            say(
                0,
                format!(
                    "payload_size {} ends the frame at {}, outside the arena of {} bytes",
                    self.payload_size,
                    self.end(),
                    arena.len()
                ),
            );
        }
        if !(BASE..=REMOTE).contains(&self.kind) {
            say(4, format!("kind {} is none of 1 base, 2 delta, 3 remote", self.kind));
        }
        if self.node_type != LEAF && self.node_type != INDEX {
            say(5, format!("node_type {} is neither 1 leaf nor 2 index", self.node_type));
        }
        if self.flag > 1 {
            say(6, format!("flag {} is neither 0 nor 1", self.flag));
        } else if self.flag == 1 && !self.is_history() {
            say(6, "flag 1 (sibling) stands on history pages only".into());
        }
        if self.link != 0 && !self.is_history() {
            say(8, format!("link {} stands on a frame that is no history page", self.link));
        }
        if self.kind == REMOTE && self.node_type == INDEX {
            say(5, "a remote frame has node_type 1".into());
        }
        if self.kind == REMOTE && self.txid != 0 {
            say(16, format!("a remote frame has txid 0, not {}", self.txid));
        }
        out
    }
}

// ---- base header

/// A base header's fields as they are, judged by `faults`.
#[derive(Clone, Copy, Debug)]
pub struct Base {
    pub size: usize,
    pub elems: usize,
    pub split_elems: u64,
    pub right_sibling: u64,
    pub merging_child: u64,
    pub lo_len: usize,
    pub hi_len: usize,
    pub prefix_len: usize,
    pub merging: u64,
    pub is_index: u64,
    pub many: u64,
    pub padding: u64,
}

impl Base {
    pub fn read(payload: &Part) -> Result<Self, Fault> {
        if payload.bytes.len() < 40 {
            return fault(
                payload.start,
                format!("a payload of {} bytes has no room for a base header", payload.bytes.len()),
            );
        }
        let field = |from: usize, width: usize| payload.number(from, width, "base header");
        Ok(Base {
            size: field(0, 4)? as usize,
            elems: field(4, 2)? as usize,
            split_elems: field(6, 2)?,
            right_sibling: field(8, 8)?,
            merging_child: field(16, 8)?,
            lo_len: field(24, 4)? as usize,
            hi_len: field(28, 4)? as usize,
            prefix_len: field(32, 4)? as usize,
            merging: field(36, 1)?,
            is_index: field(37, 1)?,
            many: field(38, 1)?,
            padding: field(39, 1)?,
        })
    }

    /// Where the records begin: behind header, slots, lo and hi.
    pub fn first(&self) -> usize {
        40 + 4 * self.elems + self.lo_len + self.hi_len
    }

    /// Everything of the base header that is not as laid out, given its frame.
    pub fn faults(&self, frame: &Frame) -> Vec<Fault> {
        let mut out = Vec::new();
        let mut say =
            |from: usize, words: String| out.push(Fault { at: frame.addr + 32 + from, words });
        let index = frame.node_type == INDEX;
        if self.size < self.first() {
            say(
                0,
                format!(
                    "size {} is below {}, the end of slots and boundaries",
                    self.size,
                    self.first()
                ),
            );
        }
        if self.size > frame.payload_size {
            say(0, format!("size {} is above payload_size {}", self.size, frame.payload_size));
        } else if (index || frame.is_history()) && self.size != frame.payload_size {
            say(
                0,
                format!(
                    "size {} must be payload_size {} on index and history pages",
                    self.size, frame.payload_size
                ),
            );
        }
        for (from, n, name) in [
            (6, self.split_elems, "split_elems"),
            (16, self.merging_child, "merging_child"),
            (36, self.merging, "merging"),
            (39, self.padding, "padding"),
        ] {
            if n != 0 {
                say(from, format!("{name} is {n}, not 0"));
            }
        }
        for (from, n, name) in [(24, self.lo_len, "lo_len"), (28, self.hi_len, "hi_len")] {
            if n > MAX_KEY {
                say(from, format!("{name} {n} is over 4096"));
            }
        }
        if self.prefix_len > self.lo_len {
            say(32, format!("prefix_len {} is above lo_len {}", self.prefix_len, self.lo_len));
        }
        if self.is_index != u64::from(index) {
            say(
                37,
                format!("is_index is {} where node_type is {}", self.is_index, frame.node_type),
            );
        }
        if self.many > 1 {
            say(38, format!("has_multiple_versions is {}, neither 0 nor 1", self.many));
        } else if self.many == 1 && (index || frame.is_history()) {
            say(38, "has_multiple_versions is 1 on a page that is no leaf".into());
        }
        if frame.is_history() {
            if self.elems == 0 {
                say(4, "a history page is empty".into());
            }
            if self.lo_len != 0 || self.hi_len != 0 {
                say(24, "a history page has boundaries".into());
            }
            if self.right_sibling != 0 {
                say(8, format!("a history page has the sibling {}", self.right_sibling));
            }
            if frame.link != 0 && frame.link <= frame.addr as u64 {
                out.push(Fault {
                    at: frame.addr + 8,
                    words: format!("link {} does not lead upward", frame.link),
                });
            }
        }
        out
    }
}

// ---- boundaries

/// A page's boundaries. An empty hi is none.
#[derive(Clone, Copy, Debug)]
pub struct Edges<'a> {
    pub lo: &'a [u8],
    pub hi: &'a [u8],
}

impl Edges<'_> {
    /// Whether lo is below hi.
    pub fn rise(&self) -> bool {
        self.hi.is_empty() || self.lo < self.hi
    }

    /// On which side of the boundaries a whole key lies, nothing where it lies between them.
    pub fn outside(&self, key: &[u8]) -> Option<&'static str> {
        if key < self.lo {
            Some("below lo")
        } else if !self.hi.is_empty() && key >= self.hi {
            Some("not below hi")
        } else {
            None
        }
    }
}

// ---- records

#[derive(Clone, Copy, Debug, PartialEq, Eq, PartialOrd, Ord)]
pub struct Version {
    pub txid: u64,
    pub cmd: u32,
}

impl fmt::Display for Version {
    fn fmt(&self, f: &mut fmt::Formatter) -> fmt::Result {
        if self.cmd == 0 {
            write!(f, "{}", self.txid)
        } else {
            write!(f, "{}.{}", self.txid, self.cmd)
        }
    }
}

#[derive(Clone, Copy, Debug)]
pub struct History {
    pub addr: u64,
    pub slot: usize,
    pub count: u32,
}

#[derive(Clone, Copy, Debug)]
pub enum Bytes<'a> {
    Inline(&'a [u8]),
    /// the frame's address and the size that it must have
    Remote(u64, usize),
}

#[derive(Clone, Copy, Debug)]
pub struct Value<'a> {
    pub history: Option<History>,
    pub bytes: Bytes<'a>,
    pub end: usize,
}

/// A slot's record offset, inside the page's records.
pub fn slot(page: &Part, base: &Base, pos: usize) -> Result<usize, Fault> {
    let at = 40 + 4 * pos;
    let offset = page.number(at, 4, "slot")? as usize;
    if offset < base.first() {
        return fault(
            page.place(at),
            format!(
                "offset {offset} lies before the records, which begin at offset {}",
                base.first()
            ),
        );
    }
    if offset >= base.size {
        return fault(
            page.place(at),
            format!("offset {offset} is outside the page of {} bytes", base.size),
        );
    }
    Ok(offset)
}

/// Unsigned LEB128, shortest form, at most five bytes, within u32: the number and the bytes that it takes.
fn length(page: &Part, at: usize) -> Result<(usize, usize), Fault> {
    let mut n = 0u64;
    for i in 0..5 {
        let byte = page.number(at + i, 1, "length")?;
        n += (byte % 128) << (7 * i);
        if byte < 128 {
            if i > 0 && byte == 0 {
                return fault(page.place(at), "the length is not in its shortest form");
            }
            if n > u64::from(u32::MAX) {
                return fault(page.place(at), format!("the length {n} is over u32"));
            }
            return Ok((n as usize, i + 1));
        }
    }
    fault(page.place(at), "the length does not end within five bytes")
}

fn version(page: &Part, at: usize) -> Result<Version, Fault> {
    Ok(Version {
        txid: page.number(at, 8, "version")?,
        cmd: page.number(at + 8, 4, "version")? as u32,
    })
}

fn rest<'a>(page: &Part<'a>, at: usize, len: usize, prefix_len: usize) -> Result<&'a [u8], Fault> {
    if prefix_len + len > MAX_KEY {
        return fault(page.place(at), format!("a key of {} bytes is over 4096", prefix_len + len));
    }
    page.take(at, len, "key")
}

/// A leaf key: the rest behind the prefix, its version, and where the value begins.
pub fn leaf_key<'a>(
    page: &Part<'a>,
    at: usize,
    prefix_len: usize,
) -> Result<(&'a [u8], Version, usize), Fault> {
    let (counted, taken) = length(page, at)?;
    let Some(len) = counted.checked_sub(12) else {
        return fault(
            page.place(at),
            format!("the length {counted} has no room for a version of 12 bytes"),
        );
    };
    let from = at + taken;
    Ok((rest(page, from + 12, len, prefix_len)?, version(page, from)?, from + 12 + len))
}

/// An index record: the rest of its key, the page id, and its end.
pub fn index_record<'a>(
    page: &Part<'a>,
    at: usize,
    prefix_len: usize,
) -> Result<(&'a [u8], u64, usize), Fault> {
    let (len, taken) = length(page, at)?;
    let key = rest(page, at + taken, len, prefix_len)?;
    let end = at + taken + len;
    Ok((key, page.number(end, 8, "page id")?, end + 8))
}

/// A history record: its version and value.
pub fn history_record<'a>(page: &Part<'a>, at: usize) -> Result<(Version, Value<'a>), Fault> {
    Ok((version(page, at)?, value(page, at + 12, false)?))
}

/// A value; `head` says whether a history reference may stand in it.
pub fn value<'a>(page: &Part<'a>, at: usize, head: bool) -> Result<Value<'a>, Fault> {
    let flag = page.number(at, 1, "value's flag")?;
    if flag > 3 {
        return fault(page.place(at), format!("the value's flag is {flag}, over 3"));
    }
    let (mut history, mut from) = (None, at + 1);
    if flag % 2 == 1 {
        if !head {
            return fault(page.place(at), "an older version's value has a history of its own");
        }
        let count = page.number(from + 10, 4, "history reference")? as u32;
        history = Some(History {
            addr: page.number(from, 8, "history reference")?,
            slot: page.number(from + 8, 2, "history reference")? as usize,
            count,
        });
        if count == 0 {
            return fault(page.place(from + 10), "the history's count is 0");
        }
        from += 14;
    }
    let size = page.number(from, 4, "value's size")? as usize;
    if size > MAX_VALUE {
        return fault(page.place(from), format!("a value of {size} bytes is over 65536"));
    }
    from += 4;
    if flag >= 2 {
        let addr = page.number(from, 8, "remote address")?;
        return Ok(Value { history, bytes: Bytes::Remote(addr, size), end: from + 8 });
    }
    Ok(Value { history, bytes: Bytes::Inline(page.take(from, size, "value")?), end: from + size })
}

/// The bytes of the remote frame at an address, whatever their number.
pub fn remote(arena: &[u8], addr: u64) -> Result<&[u8], Fault> {
    let frame = Frame::read(arena, addr)?;
    if let Some(first) = frame.faults(arena).into_iter().next() {
        return Err(first);
    }
    if frame.kind != REMOTE {
        return fault(
            frame.addr + 4,
            format!("kind {} where a remote frame (3) is wanted", frame.kind),
        );
    }
    let payload = frame.payload(arena);
    let size = payload.number(0, 8, "remote frame's size")?;
    if size != payload.bytes.len() as u64 - 8 {
        return fault(
            payload.start,
            format!(
                "the remote frame's size {size} is not its payload's {}",
                payload.bytes.len() - 8
            ),
        );
    }
    Ok(&payload.bytes[8..])
}

/// A value's bytes, whether they stand in the page or in a remote frame.
pub fn whole<'a>(arena: &'a [u8], value: &Value<'a>) -> Result<&'a [u8], Fault> {
    match value.bytes {
        Bytes::Inline(bytes) => Ok(bytes),
        Bytes::Remote(addr, size) => {
            let bytes = remote(arena, addr)?;
            if bytes.len() != size {
                return fault(
                    addr as usize + 32,
                    format!("the remote frame holds {} bytes, the value says {size}", bytes.len()),
                );
            }
            Ok(bytes)
        }
    }
}

/// The two counts of the hints behind `size` and where their addresses stand; none where there is no payload behind it.
pub fn hints(payload: &Part, base: &Base) -> Result<Option<[(usize, usize); 2]>, Fault> {
    if payload.bytes.len() == base.size {
        return Ok(None);
    }
    let mut at = base.size;
    let mut out = [(0, 0); 2];
    for (which, found) in ["history", "remote"].into_iter().zip(&mut out) {
        let count = payload.number(at, 4, &format!("count of {which} hints"))? as usize;
        payload.take(at + 4, 8 * count, &format!("list of {count} {which} hints"))?;
        *found = (at + 4, count);
        at += 4 + 8 * count;
    }
    Ok(Some(out))
}

/// A delta's key and value parts.
pub fn delta<'a>(payload: &Part<'a>) -> Result<(Part<'a>, Part<'a>), Fault> {
    let klen = payload.number(0, 4, "klen")? as usize;
    let vlen = payload.number(4, 4, "vlen")? as usize;
    if payload.bytes.len() != 8 + klen + vlen {
        return fault(
            payload.start,
            format!(
                "klen {klen} and vlen {vlen} do not fill the payload of {} bytes",
                payload.bytes.len()
            ),
        );
    }
    let (key, value) = payload.bytes[8..].split_at(klen);
    Ok((
        Part { bytes: key, start: payload.place(8) },
        Part { bytes: value, start: payload.place(8 + klen) },
    ))
}

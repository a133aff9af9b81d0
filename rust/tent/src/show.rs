//! Writes a page as text: header fields by name, boundaries, each record with its older versions, unused bytes and hints. A damaged
//! place is marked where it stands with `!!`, the byte and the reason, and what can still be read is shown.
//! A page is called sound exactly where the proved check says 0 (tests/show.rs).

use crate::decode::*;
use crate::rows::{Form, as_of_text};
use cresttrestle::Ver;
use std::collections::BTreeMap;
use std::fmt::Write;
use std::rc::Rc;

/// What a frame is found to be.
#[derive(Clone, Copy, Debug, PartialEq, Eq)]
pub enum Verdict {
    Sound,
    /// as laid out, but no leaf or index page
    NoPage,
    Damaged,
}

/// A record as it was printed.
#[derive(Clone, Debug, PartialEq, Eq)]
pub struct Line {
    pub key: Vec<u8>,
    pub what: What,
}

#[derive(Clone, Debug, PartialEq, Eq)]
pub enum What {
    Row(Version, Vec<u8>),
    Child(u64),
}

pub struct Shown {
    pub text: String,
    pub verdict: Verdict,
    pub faults: Vec<Fault>,
    pub lines: Vec<Line>,
    /// The rows that are marked as the answers as of `Look::as_of`.
    pub answers: Vec<Line>,
}

/// How a page is printed: long keys and values whole or cut, in which form beside hex, and the version as of which each key's row is
/// marked.
#[derive(Clone, Copy)]
pub struct Look {
    pub full: bool,
    pub form: Form,
    pub as_of: Option<Ver>,
}

/// Shows the frame at an address.
pub fn frame(arena: &[u8], addr: u64, look: Look) -> Shown {
    let mut teller = Teller {
        arena,
        look,
        text: String::new(),
        faults: Vec::new(),
        lines: Vec::new(),
        answers: Vec::new(),
        open: None,
        pages: BTreeMap::new(),
    };
    let is_page = teller.frame(addr).is_some();
    let verdict = match (teller.faults.is_empty(), is_page) {
        (true, true) => Verdict::Sound,
        (true, false) => Verdict::NoPage,
        _ => Verdict::Damaged,
    };
    let last = match verdict {
        Verdict::Sound => "sound".to_string(),
        Verdict::NoPage => "as laid out, but no leaf or index page".to_string(),
        Verdict::Damaged => format!("damaged, faults: {}", teller.faults.len()),
    };
    teller.say(0, last);
    for fault in &teller.faults {
        writeln!(teller.text, "  {fault}").expect("text");
    }
    let Teller { text, faults, lines, answers, .. } = teller;
    Shown { text, verdict, faults, lines, answers }
}

/// What a page says of all its keys: the bytes that stand before each, and what they lie between, where that can be told.
#[derive(Clone, Copy)]
struct Keys<'k> {
    prefix: &'k [u8],
    edges: Option<Edges<'k>>,
}

/// A history page that was judged: its records, those that can be read.
struct Old<'a> {
    addr: u64,
    link: u64,
    records: Vec<Option<(Version, Value<'a>)>>,
}

struct Teller<'a> {
    arena: &'a [u8],
    look: Look,
    text: String,
    faults: Vec<Fault>,
    lines: Vec<Line>,
    answers: Vec<Line>,
    /// the version as of which the key at hand has no answer yet
    open: Option<Ver>,
    /// history pages by address, each judged once; none where the headers cannot be read
    pages: BTreeMap<u64, Option<Rc<Old<'a>>>>,
}

/// The most bytes of a key or value that are printed where they are not wanted in full.
const SHOWN: usize = 32;

impl<'a> Teller<'a> {
    fn say(&mut self, deep: usize, line: impl AsRef<str>) {
        writeln!(self.text, "{:1$}{2}", "", 2 * deep, line.as_ref()).expect("text");
    }

    fn field(&mut self, at: usize, name: &str, n: u64, meaning: &str) {
        self.say(
            2,
            format!(
                "{at:>8}  {name:<22}{n}{}{meaning}",
                if meaning.is_empty() { "" } else { "  " }
            ),
        );
    }

    /// Marks a damaged place.
    fn mark(&mut self, deep: usize, fault: Fault) {
        self.say(deep, format!("!! {fault}"));
        self.faults.push(fault);
    }

    fn keep<T>(&mut self, deep: usize, read: Result<T, Fault>) -> Option<T> {
        read.map_err(|fault| self.mark(deep, fault)).ok()
    }

    /// Bytes as text where they are printable, and in hex.
    fn bytes(&self, bytes: &[u8]) -> String {
        let cut = if self.look.full || bytes.len() <= SHOWN { bytes } else { &bytes[..SHOWN - 8] };
        let hex: String = cut.iter().map(|b| format!("{b:02x}")).collect();
        let text = if cut.iter().all(|b| (0x20..0x7f).contains(b)) {
            format!("{:?} ", String::from_utf8_lossy(cut))
        } else {
            String::new()
        };
        match (bytes.is_empty(), cut.len() < bytes.len()) {
            (true, _) => "empty".into(),
            (_, false) => format!("{text}{hex}"),
            (_, true) => format!("{text}{hex}.. ({} bytes)", bytes.len()),
        }
    }

    /// A key, with what it says in the barometer form where that is asked for.
    fn key(&self, key: &[u8]) -> String {
        self.beside(Form::key_text, key)
    }

    /// A value, likewise.
    fn value(&self, value: &[u8]) -> String {
        self.beside(Form::value_text, value)
    }

    fn beside(&self, text: fn(Form, &[u8]) -> String, bytes: &[u8]) -> String {
        let said = text(Form::Barometer, bytes);
        let barometer = self.look.form == Form::Barometer && !said.starts_with("0x");
        if barometer { format!("{said} {}", self.bytes(bytes)) } else { self.bytes(bytes) }
    }

    /// The frame, whatever it is; `Some` where it is a leaf or index page.
    fn frame(&mut self, addr: u64) -> Option<()> {
        let frame = self.keep(0, Frame::read(self.arena, addr))?;
        let name = match (frame.kind, frame.node_type, frame.flag) {
            (DELTA, LEAF, _) => "leaf delta",
            (DELTA, ..) => "index delta",
            (REMOTE, ..) => "remote frame",
            (BASE, LEAF, 1) => "history page",
            (_, INDEX, _) => "index page",
            _ => "leaf page",
        };
        self.say(
            0,
            format!("{name} at {addr}, {} bytes, up to {}", frame.end() - frame.addr, frame.end()),
        );
        self.box_header(&frame);
        match frame.kind {
            DELTA => self.delta(&frame),
            REMOTE => {
                let size = remote(self.arena, addr).map(|bytes| (bytes.len(), self.bytes(bytes)));
                if let Some((len, bytes)) = self.keep(1, size) {
                    self.say(1, format!("value of {len} bytes: {bytes}"));
                    if len > MAX_VALUE {
                        let words = format!("a value of {len} bytes is over {MAX_VALUE}");
                        self.mark(1, Fault { at: frame.addr + 32, words });
                    }
                }
            }
            _ if frame.is_history() => {
                let old = self.old_page(addr, true);
                self.say(1, format!("{} records", old.map_or(0, |o| o.records.len())));
            }
            _ => return self.page(&frame),
        }
        None
    }

    fn box_header(&mut self, frame: &Frame) {
        let kind = ["", "base", "delta", "remote"].get(frame.kind as usize).copied().unwrap_or("");
        let node = ["", "leaf", "index"].get(frame.node_type as usize).copied().unwrap_or("");
        self.say(1, "box header");
        let link = match (frame.is_history(), frame.link) {
            (true, 0) => "none",
            (true, _) => "the next history page",
            _ => "",
        };
        let flag = if frame.flag == 1 { "sibling" } else { "" };
        for (from, name, n, meaning) in [
            (0, "payload_size", frame.payload_size as u64, ""),
            (4, "kind", frame.kind, kind),
            (5, "node_type", frame.node_type, node),
            (6, "flag", frame.flag, flag),
            (7, "group", frame.group, ""),
            (8, "link", frame.link, link),
            (16, "txid", frame.txid, ""),
            (24, "lsn", frame.lsn, ""),
        ] {
            self.field(frame.addr + from, name, n, meaning);
        }
        for fault in frame.faults(self.arena) {
            self.mark(2, fault);
        }
    }

    fn base_header(&mut self, frame: &Frame, base: &Base) {
        let at = frame.addr + 32;
        self.say(1, "base header");
        for (from, name, n, meaning) in [
            (0, "size", base.size as u64, ""),
            (4, "elems", base.elems as u64, ""),
            (6, "split_elems", base.split_elems, ""),
            (
                8,
                "right_sibling",
                base.right_sibling,
                if base.right_sibling == 0 { "none" } else { "a page id" },
            ),
            (16, "merging_child", base.merging_child, ""),
            (24, "lo_len", base.lo_len as u64, ""),
            (28, "hi_len", base.hi_len as u64, ""),
            (32, "prefix_len", base.prefix_len as u64, ""),
            (36, "merging", base.merging, ""),
            (37, "is_index", base.is_index, ""),
            (38, "has_multiple_versions", base.many, ""),
            (39, "padding", base.padding, ""),
        ] {
            self.field(at + from, name, n, meaning);
        }
        for fault in base.faults(frame) {
            self.mark(2, fault);
        }
    }

    fn page(&mut self, frame: &Frame) -> Option<()> {
        let payload = frame.payload(self.arena);
        let base = self.keep(1, Base::read(&payload))?;
        self.base_header(frame, &base);
        let page = Part {
            bytes: &payload.bytes[..base.size.min(payload.bytes.len())],
            start: payload.start,
        };
        let from = 40 + 4 * base.elems;
        let lo = page.bytes.get(from..from + base.lo_len);
        let hi = page.bytes.get(from + base.lo_len..base.first());
        let prefix = lo.and_then(|lo| lo.get(..base.prefix_len)).unwrap_or_default();
        self.say(1, "boundaries");
        for (name, bytes) in [("lo", lo), ("hi", hi), ("prefix", Some(prefix))] {
            let words = match bytes {
                None => "not in the page".into(),
                Some([]) if name == "hi" => "none".into(),
                Some(bytes) => self.bytes(bytes),
            };
            self.say(2, format!("{name:<8}{words}"));
        }
        // where the header's faults leave no boundaries, or no key can lie between them, the keys are not held against them
        let mut edges = match (lo, hi) {
            (Some(lo), Some(hi)) if base.prefix_len <= lo.len() => Some(Edges { lo, hi }),
            _ => None,
        };
        if edges.is_some_and(|edges| !edges.rise()) {
            self.mark(2, Fault { at: page.place(from), words: "lo is not below hi".into() });
            edges = None;
        }
        let keys = Keys { prefix, edges };
        let end = if frame.node_type == INDEX {
            self.children(&page, &base, keys)
        } else {
            self.heads(&page, &base, keys)
        };
        if let Some(end) = end.filter(|&end| end <= page.bytes.len()) {
            self.unused(1, "unused tail", page.place(end), &page.bytes[end..]);
        }
        if frame.node_type != INDEX {
            self.hints(&payload, &base);
        }
        let used = payload.start + payload.bytes.len();
        self.unused(1, "rounding", used, self.arena.get(used..frame.end()).unwrap_or_default());
        Some(())
    }

    fn unused(&mut self, deep: usize, name: &str, at: usize, bytes: &[u8]) {
        if !bytes.is_empty() {
            let zero = if bytes.iter().all(|&b| b == 0) { "zero" } else { "not zero (not judged)" };
            self.say(deep, format!("{name}: {} bytes at {at}, {zero}", bytes.len()));
        }
    }

    /// Reads slots in order, each record where the one before ended; answers where the last one ends. A record that cannot be read
    /// tells nothing of where the next begins, so only its own fault is marked.
    fn slots(
        &mut self,
        page: &Part<'a>,
        base: &Base,
        mut record: impl FnMut(&mut Self, usize, usize) -> Option<usize>,
    ) -> Option<usize> {
        let mut expected = Some(base.first());
        for pos in 0..base.elems {
            if page.bytes.len() < 44 + 4 * pos {
                // the header's fault has said so; the slots that are missing need not be named one by one
                self.mark(
                    2,
                    Fault {
                        at: page.place(40 + 4 * pos),
                        words: format!("slots {pos} to {} are outside the page", base.elems - 1),
                    },
                );
                return None;
            }
            let read = slot(page, base, pos)
                .map_err(|f| Fault { words: format!("slot {pos}: {}", f.words), ..f });
            let at = self.keep(2, read);
            if let (Some(at), Some(wanted)) = (at, expected)
                && at != wanted
            {
                let words = format!(
                    "slot {pos}: offset {at} is not {wanted}, where the record before ends"
                );
                self.mark(2, Fault { at: page.place(40 + 4 * pos), words });
            }
            expected = at.and_then(|at| record(self, pos, at));
        }
        expected
    }

    fn children(&mut self, page: &Part<'a>, base: &Base, keys: Keys) -> Option<usize> {
        self.say(1, format!("keys: {}", base.elems));
        let mut before: Option<&[u8]> = None;
        self.slots(page, base, |t, pos, at| {
            let (rest, pid, end) = t.keep(2, index_record(page, at, base.prefix_len))?;
            let key = [keys.prefix, rest].concat();
            t.say(
                2,
                format!(
                    "slot {pos}, record at {}: key {}  page id {pid}",
                    page.place(at),
                    t.key(&key)
                ),
            );
            t.rising(page.place(at), &mut before, rest);
            t.between(page.place(at), keys.edges, &key);
            t.lines.push(Line { key, what: What::Child(pid) });
            Some(end)
        })
    }

    /// Keys rise strictly.
    fn rising(&mut self, at: usize, before: &mut Option<&'a [u8]>, rest: &'a [u8]) {
        if before.is_some_and(|b| b >= rest) {
            self.mark(3, Fault { at, words: "the key is not above the one before".into() });
        }
        *before = Some(rest);
    }

    /// Each key is lo or above it, and below hi.
    fn between(&mut self, at: usize, edges: Option<Edges>, key: &[u8]) {
        if let Some(side) = edges.and_then(|edges| edges.outside(key)) {
            let words = format!("key {} is outside the boundaries: {side}", self.key(key));
            self.mark(3, Fault { at, words });
        }
    }

    fn heads(&mut self, page: &Part<'a>, base: &Base, keys: Keys) -> Option<usize> {
        self.say(1, format!("keys: {}", base.elems));
        let (mut before, mut many, mut all) = (None, false, 0);
        let end = self.slots(page, base, |t, pos, at| {
            let (rest, version, from) = t.keep(2, leaf_key(page, at, base.prefix_len))?;
            let key = [keys.prefix, rest].concat();
            t.say(2, format!("slot {pos}, record at {}: key {}", page.place(at), t.key(&key)));
            t.rising(page.place(at), &mut before, rest);
            t.between(page.place(at), keys.edges, &key);
            let value = t.keep(3, value(page, from, true))?;
            all += 1;
            t.open = t.look.as_of;
            let read = t.row(3, &key, version, &value, "");
            t.keep(3, read);
            match value.history {
                Some(history) => {
                    many = true;
                    t.versions(&key, version, &history, page.place(from));
                }
                None => t.all_newer(3),
            }
            t.open = None;
            Some(value.end)
        });
        if all == base.elems && base.many <= 1 && many != (base.many == 1) {
            let words = format!(
                "has_multiple_versions is {} where {} key has older versions",
                base.many,
                if many { "a" } else { "no" }
            );
            self.mark(2, Fault { at: page.place(38), words });
        }
        end
    }

    /// One version of a key with its value; a value that cannot be read is handed back as a fault, not yet marked.
    fn row(
        &mut self,
        deep: usize,
        key: &[u8],
        version: Version,
        value: &Value<'a>,
        from: &str,
    ) -> Result<(), Fault> {
        let far = match value.bytes {
            Bytes::Inline(_) => String::new(),
            Bytes::Remote(addr, _) => format!("  in the remote frame at {addr}"),
        };
        // the first that is no newer answers; where it cannot be read, none does
        let answers = self.open.take_if(|as_of| Ver::new(version.txid, version.cmd) <= *as_of);
        match whole(self.arena, value) {
            Ok(bytes) => {
                let mark =
                    answers.map_or(String::new(), |v| format!("  <-- as of {}", as_of_text(v)));
                self.say(
                    deep,
                    format!("version {version}  value {}{far}{from}{mark}", self.value(bytes)),
                );
                let line = Line { key: key.to_vec(), what: What::Row(version, bytes.to_vec()) };
                self.answers.extend(answers.map(|_| line.clone()));
                self.lines.push(line);
                Ok(())
            }
            Err(fault) => {
                self.say(deep, format!("version {version}  value cannot be read{far}{from}"));
                Err(fault)
            }
        }
    }

    /// Behind the last version of a key: whether the answer as of a version is none.
    fn all_newer(&mut self, deep: usize) {
        if let Some(as_of) = self.open.take() {
            self.say(deep, format!("as of {}: none, all are newer", as_of_text(as_of)));
        }
    }

    /// The older versions of a head, newest first, through linked history pages.
    fn versions(&mut self, key: &[u8], head: Version, history: &History, at: usize) {
        self.say(
            4,
            format!(
                "history: {} older, from slot {} of the history page at {}",
                history.count, history.slot, history.addr
            ),
        );
        let Some(mut page) = self.old_page(history.addr, false) else {
            return self.say(4, "the history page cannot be read");
        };
        if history.slot >= page.records.len() {
            let words = format!(
                "history slot {} is outside its page of {} records",
                history.slot,
                page.records.len()
            );
            return self.mark(4, Fault { at, words });
        }
        let (mut slot, mut newer) = (history.slot, head);
        for left in (1..=history.count).rev() {
            // more than once only behind an empty page, which is marked as such
            while slot == page.records.len() {
                if page.link == 0 {
                    let words = format!("the links end while {left} older versions remain");
                    return self.mark(4, Fault { at: page.addr as usize + 8, words });
                }
                // upward links only, so that this ends; a link that is not is marked with its page
                let Some(next) = Some(page.link)
                    .filter(|&l| l > page.addr)
                    .and_then(|l| self.old_page(l, false))
                else {
                    return self.say(4, "the next history page cannot be read");
                };
                (page, slot) = (next, 0);
            }
            match &page.records[slot] {
                None => {
                    self.open = None;
                    self.say(
                        4,
                        format!("an older version in slot {slot} of {} cannot be read", page.addr),
                    )
                }
                Some((version, value)) => {
                    let (version, value) = (*version, *value);
                    // a remote that does not resolve was marked with its page
                    let _ = self.row(
                        4,
                        key,
                        version,
                        &value,
                        &format!("  (page {}, slot {slot})", page.addr),
                    );
                    if version >= newer {
                        self.mark(
                            4,
                            Fault {
                                at: page.addr as usize,
                                words: format!("version {version} is not older than {newer}"),
                            },
                        );
                    }
                    newer = version;
                }
            }
            slot += 1;
        }
        self.all_newer(4);
    }

    /// Judges the history page at an address, whole, once; with `shown` prints its header and records.
    fn old_page(&mut self, addr: u64, shown: bool) -> Option<Rc<Old<'a>>> {
        if let Some(known) = self.pages.get(&addr) {
            return known.clone();
        }
        let page = self.judge_old(addr, shown).map(Rc::new);
        self.pages.insert(addr, page.clone());
        page
    }

    fn judge_old(&mut self, addr: u64, shown: bool) -> Option<Old<'a>> {
        let frame = self.keep(
            4,
            Frame::read(self.arena, addr)
                .map_err(|f| Fault { words: format!("history page: {}", f.words), ..f }),
        )?;
        let mut faults = if shown { Vec::new() } else { frame.faults(self.arena) };
        if !frame.is_history() {
            faults
                .push(Fault { at: frame.addr + 4, words: "a history page is wanted here".into() });
        }
        for fault in faults {
            self.mark(
                4,
                Fault { words: format!("history page at {addr}: {}", fault.words), ..fault },
            );
        }
        if !frame.is_history() {
            return None;
        }
        let payload = frame.payload(self.arena);
        let base = self.keep(4, Base::read(&payload))?;
        if shown {
            self.base_header(&frame, &base);
        } else {
            for fault in base.faults(&frame) {
                self.mark(
                    4,
                    Fault { words: format!("history page at {addr}: {}", fault.words), ..fault },
                );
            }
        }
        let page = Part {
            bytes: &payload.bytes[..base.size.min(payload.bytes.len())],
            start: payload.start,
        };
        let mut records = Vec::new();
        self.slots(&page, &base, |t, pos, at| {
            records.resize_with(pos, || None);
            let read = history_record(&page, at).map_err(|f| Fault {
                words: format!("history page at {addr}, slot {pos}: {}", f.words),
                ..f
            });
            let (version, value) = t.keep(4, read)?;
            records.push(Some((version, value)));
            // a head that leads here shows the value; a remote that does not resolve is marked here, once
            match whole(t.arena, &value) {
                Ok(bytes) if shown => {
                    t.say(2, format!("slot {pos}: version {version}  value {}", t.value(bytes)))
                }
                Ok(_) => (),
                Err(fault) => t.mark(
                    4,
                    Fault {
                        words: format!("history page at {addr}, slot {pos}: {}", fault.words),
                        ..fault
                    },
                ),
            }
            Some(value.end)
        });
        records.resize_with(base.elems, || None);
        Some(Old { addr, link: frame.link, records })
    }

    fn hints(&mut self, payload: &Part<'a>, base: &Base) {
        // behind a size that is above the payload there is no place for hints; the header's fault has said so
        if base.size > payload.bytes.len() {
            return;
        }
        let Some(counts) = self.keep(1, hints(payload, base)) else { return };
        let Some(counts) = counts else { return self.say(1, "hints: none") };
        self.say(1, format!("hints at {}", payload.place(base.size)));
        let mut used = base.size;
        for (name, (at, count)) in ["history pages", "remote frames"].into_iter().zip(counts) {
            let list: Vec<String> = (0..count)
                .filter_map(|i| payload.number(at + 8 * i, 8, "").ok())
                .map(|a| a.to_string())
                .collect();
            self.say(
                2,
                format!("{name}: {}", if list.is_empty() { "none".into() } else { list.join(" ") }),
            );
            used = at + 8 * count;
        }
        self.unused(2, "spare room", payload.place(used), &payload.bytes[used..]);
    }

    fn delta(&mut self, frame: &Frame) {
        let payload = frame.payload(self.arena);
        let Some((key, val)) = self.keep(1, delta(&payload)) else { return };
        if frame.node_type == INDEX {
            // an index delta is an index record in two parts: the key, then the page id
            let whole = Part { bytes: &payload.bytes[8..], start: payload.place(8) };
            let read = index_record(&whole, 0, 0)
                .and_then(|(k, pid, end)| filled(&whole, end).map(|()| (k, pid)));
            if let Some((k, pid)) = self.keep(1, read) {
                if val.bytes.len() != 8 {
                    return self.mark(
                        1,
                        Fault {
                            at: payload.start + 4,
                            words: format!("vlen {} is not 8", val.bytes.len()),
                        },
                    );
                }
                self.say(1, format!("key {}  page id {pid}", self.key(k)));
            }
            return;
        }
        let read = leaf_key(&key, 0, 0)
            .and_then(|(k, version, end)| filled(&key, end).map(|()| (k, version)));
        let Some((k, version)) = self.keep(1, read) else { return };
        self.say(1, format!("key {}", self.key(k)));
        let read = value(&val, 0, false).and_then(|v| filled(&val, v.end).map(|()| v));
        if let Some(v) = self.keep(1, read) {
            let read = self.row(1, k, version, &v, "");
            self.keep(1, read);
        }
    }
}

/// What a delta holds ends where its part ends.
fn filled(part: &Part, end: usize) -> Result<(), Fault> {
    if end == part.bytes.len() {
        Ok(())
    } else {
        fault(part.place(end), format!("{} bytes too many", part.bytes.len() - end))
    }
}

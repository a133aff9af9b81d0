//! The proved library's answers, through the crate, on memory between guard pages.

use cresttrestle::{
    Addr, Arena, AsOf, Bounds, Build, Kind, Laid, Page, PageId, Record, Refusal, Ver, View, Walk,
    calc_prefix,
};
use oracle::answer::Stamp;
use oracle::image;
use oracle::list;
use oracle::sample::Row;

use crate::case::{Names, Op, Place, Read, Sizes, damage};
use crate::guard::Guarded;
use crate::said::Said;
use crate::theirs::entry;

/// A wrong answer put in on purpose: only the tests of this tool ask for one, to see that it is found and made small.
#[derive(Clone, Copy, Debug, Default, PartialEq, Eq)]
pub enum Fault {
    #[default]
    None,
    /// A search's slot is one too many from the third on.
    Slot,
    /// A search says one key read too few on pages of eight keys and more.
    Reads,
    /// The last byte of a leaf is wrong where its list has over 200 bytes.
    Byte,
    /// A refused merge writes a byte.
    Refused,
    /// A walk loses the record that enters a second history page.
    Lost,
    /// A search that finds slot 2 or above reads a byte behind the arena.
    Outside,
    /// A list in disorder is refused with 7 and not with 6 where the page has a hi.
    Number,
    /// As of a version: the newest row that is older, for no newer.
    Older,
    /// As of a version: a key's newest row is never considered where it has older ones.
    Headless,
    /// As of a version: the history is followed one row short.
    Short,
    /// A leaf: the numbers are judged as they count, so 10 comes behind 8 and 9.
    Last,
    /// A leaf: a key that is hi counts as inside.
    HiInside,
    /// A leaf: a key that is lo counts as outside.
    LoOutside,
    /// The check asks for nothing of the boundaries.
    Unbounded,
    /// A merge does not compare boundaries: it asks only that the right page's first key is above the left's.
    FirstKeys,
}

/// The arena, the second buffer and what is lent beside them.
#[derive(Default)]
pub struct Ours {
    arena: Guarded,
    buffer: Guarded,
    lent: [Guarded; 3],
    at_start: bool,
    pub fault: Fault,
}

fn build(sizes: Sizes, stamp: &Stamp) -> Build {
    let Stamp { txid, group, lsn, checkpoint } = *stamp;
    Build { limit: sizes.limit, budget: sizes.budget, group, txid, lsn, checkpoint }
}

/// Limit and budget where a call takes none.
const UNUSED: Sizes = Sizes { limit: 0, budget: 0 };

fn refused(say: &mut Said, why: Refusal) {
    say.refused(why.number());
}

/// One build in these bytes: address and next free address, or the number; where it ended.
fn built(
    bytes: &mut [u8],
    next: u64,
    say: &mut Said,
    make: impl FnOnce(&mut Arena<'_>) -> Result<Addr, Refusal>,
) -> Option<usize> {
    let mut arena = Arena::resume(bytes, Addr::new(next));
    match make(&mut arena) {
        Ok(addr) => {
            say.word(addr.get());
            say.word(arena.next().get());
            Some(arena.next().get() as usize)
        }
        Err(why) => {
            refused(say, why);
            if arena.next().get() != next {
                say.name("the next free address moved");
            }
            None
        }
    }
}

fn number(page: Option<PageId>) -> u64 {
    page.map_or(0, PageId::get)
}

impl Ours {
    pub fn begin(&mut self, len: usize, fill: u8, at_start: bool) {
        self.at_start = at_start;
        self.arena.fill(len, fill, at_start);
        self.buffer.fill(0, 0, at_start);
    }

    pub fn bytes(&self) -> &[u8] {
        self.arena.bytes()
    }

    pub fn buffer(&self) -> &[u8] {
        self.buffer.bytes()
    }

    /// One operation, and what it answers.
    pub fn apply(&mut self, op: &Op, names: &Names, say: &mut Said) {
        match op {
            Op::Put { .. } | Op::Add { .. } | Op::Copy { .. } | Op::Strike { .. } => {
                if let Some((at, bytes)) = damage(op, self.bytes(), names) {
                    put(self.arena.bytes_mut(), at, &bytes);
                }
            }
            Op::Cut { len } => {
                let cut = front(self.bytes(), *len).to_vec();
                self.arena.lend(&cut, self.at_start);
            }
            Op::Buffer { bytes } => {
                self.buffer.lend(bytes, self.at_start);
            }
            Op::BufferPut { at, bytes } => put(self.buffer.bytes_mut(), *at, bytes),
            Op::BufferCut { len } => {
                let cut = front(self.buffer(), *len).to_vec();
                self.buffer.lend(&cut, self.at_start);
            }
            Op::Ask { at, read } => self.ask(names.at(*at), read, names, say),
            Op::Common { lo, hi } => {
                let [a, b, _] = &mut self.lent;
                let (lo, hi) = (a.lend(lo, self.at_start), b.lend(hi, self.at_start));
                say.word(calc_prefix(lo, Some(hi)) as u64);
            }
            Op::Lay { limit, row, .. } => {
                self.buffer.lend(&room_to_lay(*limit, row), self.at_start);
                self.build(op, names, say);
            }
            _ => self.build(op, names, say),
        }
    }

    /// One build, in the arena or (`Lay`) in the second buffer.
    fn build(&mut self, op: &Op, names: &Names, say: &mut Said) {
        let Ours { arena, buffer, lent: [a, b, c], at_start, fault } = self;
        let (at_start, fault) = (*at_start, *fault);
        let mut lend = |list: &[u8], place: &Place| {
            a.lend(list, at_start);
            b.lend(&place.lo, at_start);
            c.lend(&place.hi, at_start);
        };
        match op {
            Op::Leaf { next, sizes, stamp, place, list, .. } => {
                let list = list.bytes();
                lend(&list, place);
                let (lo, hi, sibling) = (b.bytes(), Some(c.bytes()), PageId::new(place.sibling));
                let (next, build) = (names.next(*next), build(*sizes, stamp));
                let end = built(arena.bytes_mut(), next, say, |arena| {
                    new_leaf(arena, a.bytes(), Bounds { lo, hi, sibling }, build, fault)
                });
                if let (Fault::Byte, Some(end), 201..) = (fault, end, list.len()) {
                    arena.bytes_mut()[end - 1] ^= 1;
                }
            }
            Op::Index { next, stamp, place, list, .. } => {
                lend(&list.bytes(), place);
                let (lo, hi, sibling) = (b.bytes(), Some(c.bytes()), PageId::new(place.sibling));
                let (next, build) = (names.next(*next), build(UNUSED, stamp));
                built(arena.bytes_mut(), next, say, |arena| {
                    arena.new_intl(a.bytes(), Bounds { lo, hi, sibling }, build)
                });
            }
            Op::Merge { next, sizes, stamp, left, right, .. } => {
                let (left, right) = (Addr::new(names.at(*left)), Addr::new(names.at(*right)));
                let (next, build) = (names.next(*next), build(*sizes, stamp));
                let bytes = arena.bytes_mut();
                let end = built(bytes, next, say, |arena| merge(arena, left, right, build, fault));
                if let (Fault::Refused, None, Some(last)) = (fault, end, bytes.last_mut()) {
                    *last ^= 1;
                }
            }
            Op::LeafDelta { limit, stamp, row, .. } | Op::Lay { limit, stamp, row } => {
                let (bytes, next) = match op {
                    Op::LeafDelta { next, .. } => (arena.bytes_mut(), names.next(*next)),
                    _ => (buffer.bytes_mut(), 8),
                };
                let build = build(Sizes { limit: *limit, budget: 0 }, stamp);
                let (key, value) = (a.lend(&row.key, at_start), b.lend(&row.value, at_start));
                let ver = Ver::new(row.txid, row.cmd);
                built(bytes, next, say, |arena| arena.delta_leaf(key, ver, value, build));
            }
            Op::IndexDelta { next, stamp, key, pid, .. } => {
                let (next, build) = (names.next(*next), build(UNUSED, stamp));
                let (key, page) = (a.lend(key, at_start), PageId::new(*pid));
                built(arena.bytes_mut(), next, say, |arena| arena.delta_index(key, page, build));
            }
            _ => unreachable!("no build"),
        }
    }

    /// The answer to one question.
    fn ask(&mut self, addr: u64, read: &Read, names: &Names, say: &mut Said) {
        let Ours { arena, buffer, lent: [a, b, _], at_start, fault } = self;
        let view = View::new(arena.bytes());
        let page = view.page(Addr::new(addr));
        match read {
            Read::Check => match page.check() {
                Ok(()) => say.name("sound"),
                Err(_) if *fault == Fault::Unbounded && sound_elsewhere(view, page) => {
                    say.name("sound")
                }
                Err(why) => refused(say, why),
            },
            Read::Info => match page.info() {
                Ok(info) => {
                    say.name(if info.kind == Kind::Leaf { "leaf" } else { "index" });
                    say.word(info.len as u64);
                    say.part(info.lo);
                    match info.hi {
                        Some(hi) => say.part(hi),
                        None => say.name("none"),
                    }
                    say.part(info.prefix);
                    say.word(number(info.sibling));
                }
                Err(why) => refused(say, why),
            },
            Read::Hints => {
                for hints in [page.history_hints(), page.remote_hints()] {
                    match hints {
                        Ok(hints) => {
                            say.word(hints.len() as u64);
                            hints.for_each(|addr| say.word(addr.get()));
                        }
                        Err(why) => refused(say, why),
                    }
                }
            }
            Read::Lower { key, txid, cmd } => {
                match page.lower_bound_counted(a.lend(key, *at_start), Ver::new(*txid, *cmd)) {
                    Ok((bound, reads)) => {
                        say.word(bound.at_key.into());
                        say.word(bound.position as u64);
                        say.word(reads.into());
                    }
                    Err(why) => refused(say, why),
                }
            }
            Read::Floor { key } => match page.floor_counted(a.lend(key, *at_start)) {
                Ok((floor, reads)) => {
                    match floor {
                        Some(floor) => {
                            say.word(floor.slot as u64);
                            say.word(number(floor.page));
                        }
                        None => say.name("none"),
                    }
                    say.word(reads.into());
                }
                Err(why) => refused(say, why),
            },
            Read::Search { key } => match page.search_counted(a.lend(key, *at_start)) {
                Ok((found, reads)) => {
                    match found {
                        Some(found) => {
                            if *fault == Fault::Outside && found.slot >= 2 {
                                // SAFETY: none: a byte that was not lent, on purpose.
                                unsafe { view.bytes().as_ptr_range().end.read_volatile() };
                            }
                            let wrong = *fault == Fault::Slot && found.slot >= 3;
                            say.word(found.slot as u64 + u64::from(wrong));
                            say.word(found.ver.txid);
                            say.word(found.ver.cmd.into());
                            say.part(found.value);
                            let history = found
                                .history
                                .map(|h| (h.page.get(), h.slot.into(), h.count.into()));
                            let (page, slot, count): (u64, u64, u64) = history.unwrap_or_default();
                            say.word(page);
                            say.word(slot);
                            say.word(count);
                        }
                        None => say.name("none"),
                    }
                    let wrong =
                        *fault == Fault::Reads && page.info().is_ok_and(|info| info.len >= 8);
                    say.word(u64::from(reads) - u64::from(wrong));
                }
                Err(why) => refused(say, why),
            },
            Read::AsOf { key, txid, cmd } => {
                let (key, ver) = (a.lend(key, *at_start), Ver::new(*txid, *cmd));
                match as_of(page, key, ver, *fault) {
                    Ok((row, reads)) => {
                        match row {
                            Some(row) => {
                                say.word(row.slot as u64);
                                say.word(row.ver.txid);
                                say.word(row.ver.cmd.into());
                                say.part(row.value);
                            }
                            None => say.name("none"),
                        }
                        say.word(reads.into());
                    }
                    Err(why) => refused(say, why),
                }
            }
            Read::Walk { begin, end } => {
                // through the crate's range of positions, as a user writes it
                listed(page.walk(*begin as usize..*end as usize), *fault, say);
            }
            Read::Back { start, end } => listed(page.walk_back(*start, *end), *fault, say),
            Read::Range { from, to } => {
                let from = from.as_deref().map(|key| a.lend(key, *at_start));
                let to = to.as_deref().map(|key| b.lend(key, *at_start));
                listed(page.range(from, to), *fault, say);
            }
            Read::Delta => {
                let delta = view.delta(Addr::new(addr));
                match delta.key() {
                    Ok((key, ver)) => {
                        say.part(key);
                        say.word(ver.txid);
                        say.word(ver.cmd.into());
                    }
                    Err(why) => refused(say, why),
                }
                match delta.value() {
                    Ok(value) => say.part(value),
                    Err(why) => refused(say, why),
                }
                match delta.index_key() {
                    Ok(key) => say.part(key),
                    Err(why) => refused(say, why),
                }
                match delta.child() {
                    Ok(page) => say.word(number(page)),
                    Err(why) => refused(say, why),
                }
            }
            Read::Overlay { delta, key } => {
                let delta = View::new(buffer.bytes()).delta(Addr::new(names.at(*delta)));
                match page.overlay(delta, a.lend(key, *at_start)) {
                    Ok(Some(Laid::Delta(value))) => {
                        say.name("delta");
                        say.part(value);
                    }
                    Ok(Some(Laid::Page(value))) => {
                        say.name("page");
                        say.part(value);
                    }
                    Ok(None) => say.name("none"),
                    Err(why) => refused(say, why),
                }
            }
        }
    }
}

/// A leaf, or the wrong answer that a fault makes of it.
fn new_leaf(
    arena: &mut Arena<'_>,
    list: &[u8],
    bounds: Bounds<'_>,
    build: Build,
    fault: Fault,
) -> Result<Addr, Refusal> {
    let hi = bounds.hi.unwrap_or_default();
    let entries = list::entries(list).unwrap_or_default();
    // just above a boundary: what is below this is the boundary or below it
    let above = |edge: &[u8]| [edge, &[0]].concat();
    match fault {
        Fault::HiInside if entries.last().is_some_and(|e| e.key == hi) => {
            return arena.new_leaf(list, Bounds { hi: Some(&above(hi)), ..bounds }, build);
        }
        Fault::LoOutside if entries.first().is_some_and(|e| e.key == bounds.lo) => {
            return arena.new_leaf(list, Bounds { lo: &above(bounds.lo), ..bounds }, build);
        }
        _ => {}
    }
    match arena.new_leaf(list, bounds, build) {
        Err(Refusal::OutOfOrder) if fault == Fault::Number && !hi.is_empty() => {
            Err(Refusal::WrongPrefix)
        }
        // without boundaries nothing is outside, and what is behind 10 is judged
        Err(Refusal::Outside) if fault == Fault::Last => {
            let behind = arena.new_leaf(list, Bounds::default(), build).err();
            Err(behind.unwrap_or(Refusal::Outside))
        }
        answer => answer,
    }
}

/// A merge, or the wrong answer that a fault makes of it.
fn merge(
    arena: &mut Arena<'_>,
    left: Addr,
    right: Addr,
    build: Build,
    fault: Fault,
) -> Result<Addr, Refusal> {
    let answer = arena.merge(left, right, build);
    let first = |page: Addr| {
        let record = arena.page(page).walk(..1).ok()?.next()?.ok()?;
        Some([record.key().prefix, record.key().rest].concat())
    };
    match (fault, answer, first(left), first(right)) {
        (Fault::FirstKeys, Err(Refusal::Outside), Some(a), Some(b)) if a < b => Ok(arena.next()),
        _ => answer,
    }
}

/// Whether a page is sound with a lo and a hi of the same lengths that hold nearly every key: all of it but its boundaries.
fn sound_elsewhere(view: View<'_>, page: Page<'_>) -> bool {
    let Ok(info) = page.info() else { return false };
    let mut bytes = view.bytes().to_vec();
    for (edge, byte) in [(info.lo, 0), (info.hi.unwrap_or_default(), 0xff)] {
        let at = edge.as_ptr() as usize - view.bytes().as_ptr() as usize;
        bytes[at..at + edge.len()].fill(byte);
    }
    View::new(&bytes).page(page.addr()).check().is_ok()
}

/// The row as of a version, or the wrong one that a fault makes of it.
fn as_of<'a>(
    page: Page<'a>,
    key: &[u8],
    ver: Ver,
    fault: Fault,
) -> Result<(Option<AsOf<'a>>, u32), Refusal> {
    let answer = page.as_of_counted(key, ver)?;
    let older = |than: Ver| match (than.txid, than.cmd) {
        (0, 0) => Ok((None, answer.1)),
        (txid, 0) => page.as_of_counted(key, Ver::of_txid(txid - 1)),
        (txid, cmd) => page.as_of_counted(key, Ver::new(txid, cmd - 1)),
    };
    let (Some(row), Some(head)) = (answer.0, page.search(key).ok().flatten()) else {
        return Ok(answer);
    };
    match fault {
        Fault::Older => older(ver),
        Fault::Headless if row.ver == head.ver && head.history.is_some() => older(row.ver),
        Fault::Short if row.ver != head.ver && older(row.ver)?.0.is_none() => Ok((None, answer.1)),
        _ => Ok(answer),
    }
}

/// Every record of a walk, a line each; then the end, or the number in place of the step that is refused.
fn listed(walk: Result<Walk<'_>, Refusal>, fault: Fault, say: &mut Said) {
    let walk = match walk {
        Ok(walk) => walk,
        Err(why) => return refused(say, why),
    };
    let mut entered_one = false;
    for record in walk {
        match record {
            Ok(Record::Row(row)) => {
                if fault == Fault::Lost
                    && row.entered.is_some()
                    && std::mem::replace(&mut entered_one, true)
                {
                    continue;
                }
                say.part(row.key.rest);
                say.word(row.ver.txid);
                say.word(row.ver.cmd.into());
                say.part(row.value);
                say.word(row.remote.map_or(0, Addr::get));
                say.word(row.entered.map_or(0, Addr::get));
            }
            Ok(Record::Child(child)) => {
                say.part(child.key.rest);
                say.word(number(child.page));
            }
            Err(why) => return refused(say, why),
        }
        say.line();
    }
    say.name("end");
}

/// Stores bytes; outside nothing happens.
pub fn put(place: &mut [u8], at: usize, bytes: &[u8]) {
    if let Some(place) = at.checked_add(bytes.len()).and_then(|end| place.get_mut(at..end)) {
        place.copy_from_slice(bytes);
    }
}

pub fn front(bytes: &[u8], len: usize) -> &[u8] {
    &bytes[..len.min(bytes.len())]
}

/// Old bytes, just enough for the delta of this row at 8.
pub fn room_to_lay(limit: u64, row: &Row) -> Vec<u8> {
    let limit = limit.clamp(1, 65_536) as usize;
    vec![0xa5; 8 + image::leaf_delta_frames(limit, &entry(row))]
}

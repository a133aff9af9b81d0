//! The oracle's answers: the model of document 01, and mace's Rust beside it wherever it may be asked (`oracle::both`).

use oracle::answer::{Bounds, Built, Step, What};
use oracle::arena::Arena;
use oracle::both::Both;
use oracle::judge::Number;
use oracle::list::{self, Child, Entry};
use oracle::model::{self, Kind, Laid};
use oracle::sample::{self, Row};

use crate::case::{Names, Op, Place, Read, damage};
use crate::lists::Lists;
use crate::ours::{front, put, room_to_lay};
use crate::said::Said;

pub struct Theirs {
    both: Both,
    buffer: Both,
    lists: Lists,
    /// How often a row as of a version or a range was also picked from the list that its page was made from.
    pub picked: u64,
}

pub fn bounds(place: &Place) -> Bounds<'_> {
    Bounds { sibling: place.sibling, lo: &place.lo, hi: &place.hi }
}

pub fn entry(row: &Row) -> Entry<'_> {
    Entry { key: &row.key, txid: row.txid, cmd: row.cmd, value: &row.value }
}

/// The answer shown, or the number.
fn said<T>(say: &mut Said, answer: Result<T, Number>, show: impl FnOnce(&mut Said, T)) {
    match answer {
        Ok(answer) => show(say, answer),
        Err(number) => say.refused(number),
    }
}

impl Theirs {
    pub fn new(len: usize, fill: u8) -> Self {
        Theirs {
            both: Both::new(Arena::new(len, fill)),
            buffer: Both::new(Arena::new(0, 0)),
            lists: Lists::default(),
            picked: 0,
        }
    }

    pub fn bytes(&self) -> &[u8] {
        self.both.arena.bytes()
    }

    pub fn buffer(&self) -> &[u8] {
        self.buffer.arena.bytes()
    }

    /// How often mace's Rust was asked beside the model.
    pub fn rust_asked(&self) -> u64 {
        self.both.asked.both + self.buffer.asked.both
    }

    /// One operation, and what it answers; a build's frame gets its name.
    pub fn apply(&mut self, op: &Op, names: &mut Names, say: &mut Said) {
        match op {
            Op::Put { .. } | Op::Add { .. } | Op::Copy { .. } | Op::Strike { .. } => {
                if let Some((at, bytes)) = damage(op, self.bytes(), names) {
                    put(self.both.arena.bytes_mut(), at, &bytes);
                    self.lists.forget();
                }
            }
            Op::Cut { len } => {
                self.both.arena = Arena::from_bytes(front(self.bytes(), *len));
                self.lists.forget();
            }
            Op::Buffer { bytes } => self.buffer.arena = Arena::from_bytes(bytes),
            Op::BufferPut { at, bytes } => put(self.buffer.arena.bytes_mut(), *at, bytes),
            Op::BufferCut { len } => {
                self.buffer.arena = Arena::from_bytes(front(self.buffer(), *len))
            }
            Op::Ask { at, read } => self.ask(names.at(*at), read, names, say),
            Op::Common { lo, hi } => say.word(self.both.common(lo, hi) as u64),
            Op::Lay { limit, row, .. } => {
                self.buffer.arena = Arena::from_bytes(&room_to_lay(*limit, row));
                names.laid = self.build(op, names, say).map_or(0, |built| built.addr);
            }
            Op::Leaf { name, next, .. }
            | Op::Index { name, next, .. }
            | Op::Merge { name, next, .. }
            | Op::LeafDelta { name, next, .. }
            | Op::IndexDelta { name, next, .. } => {
                if let Some(built) = self.build(op, names, say) {
                    self.lists.wrote(names.next(*next), built.next);
                    if let Some(rows) = self.rows(op, names) {
                        self.lists.leaf(built.addr, rows);
                    }
                    names.built.push((*name, built.addr));
                    names.free = built.next;
                }
            }
        }
    }

    fn build(&mut self, op: &Op, names: &Names, say: &mut Said) -> Option<Built> {
        let both = &mut self.both;
        let built = match op {
            Op::Leaf { next, sizes, stamp, place, list, .. } => both.leaf(
                names.next(*next),
                sizes.limit,
                sizes.budget,
                stamp,
                &bounds(place),
                &list.bytes(),
            ),
            Op::Index { next, stamp, place, list, .. } => {
                both.index(names.next(*next), stamp, &bounds(place), &list.bytes())
            }
            Op::Merge { next, sizes, stamp, left, right, .. } => {
                let (left, right) = (names.at(*left), names.at(*right));
                both.merge(names.next(*next), sizes.limit, sizes.budget, stamp, left, right)
            }
            Op::LeafDelta { next, limit, stamp, row, .. } => {
                both.leaf_delta(names.next(*next), *limit, stamp, &entry(row))
            }
            Op::Lay { limit, stamp, row } => self.buffer.leaf_delta(8, *limit, stamp, &entry(row)),
            Op::IndexDelta { next, stamp, key, pid, .. } => {
                both.index_delta(names.next(*next), stamp, &Child { key, pid: *pid })
            }
            _ => unreachable!("no build"),
        };
        said(say, built, |say, built| {
            say.word(built.addr);
            say.word(built.next);
        });
        built.ok()
    }

    /// The rows that a leaf just made stands for, from the lists alone.
    fn rows(&self, op: &Op, names: &Names) -> Option<Vec<Row>> {
        match op {
            Op::Leaf { list, .. } => {
                let list = list.bytes();
                let entries = list::entries(&list).ok()?;
                Some(entries.iter().map(|e| sample::row(e.key, e.txid, e.cmd, e.value)).collect())
            }
            Op::Merge { left, right, .. } => self.lists.both(names.at(*left), names.at(*right)),
            _ => None,
        }
    }

    fn ask(&mut self, addr: u64, read: &Read, names: &Names, say: &mut Said) {
        let both = &mut self.both;
        match read {
            Read::Check => said(say, both.check(addr), |say, ()| say.name("sound")),
            Read::Info => {
                // the calls of `both` ask the Rust for the boundaries; kind, count and sibling are the model's
                let page = model::page(both.arena.bytes(), addr);
                said(say, page, |say, page| {
                    say.name(if page.kind == Kind::Leaf { "leaf" } else { "index" });
                    say.word(page.elems as u64);
                    said(say, both.lo(addr), |say, lo| say.part(lo));
                    said(say, both.hi(addr), |say, hi| match hi {
                        Some(hi) => say.part(hi),
                        None => say.name("none"),
                    });
                    said(say, both.prefix(addr), |say, prefix| say.part(prefix));
                    say.word(page.sibling);
                });
            }
            Read::Hints => {
                for hints in [both.history_hints(addr), both.remote_hints(addr)] {
                    said(say, hints, |say, hints| {
                        let hints = hints.unwrap_or_default();
                        say.word(hints.len() as u64);
                        hints.iter().for_each(|&addr| say.word(addr));
                    });
                }
            }
            Read::Lower { key, txid, cmd } => {
                let answer = both.lower_bound(addr, key, *txid, *cmd);
                let elems = model::page(both.arena.bytes(), addr).map_or(0, |page| page.elems);
                said(say, answer, |say, (pos, reads)| {
                    say.word((pos < elems).into());
                    say.word(pos as u64);
                    say.word(reads.into());
                });
            }
            Read::Floor { key } => said(say, both.floor(addr, key), |say, (floor, reads)| {
                match floor {
                    Some((pos, pid)) => {
                        say.word(pos as u64);
                        say.word(pid);
                    }
                    None => say.name("none"),
                }
                say.word(reads.into());
            }),
            Read::Search { key } => {
                // the history reference is the model's: the Rust keeps it to itself
                let found = model::search(both.arena.bytes(), addr, key);
                let history = match found {
                    Ok((Some(found), _)) => history(both.arena.bytes(), addr, found.pos),
                    _ => (0, 0, 0),
                };
                said(say, both.search(addr, key), |say, (found, reads)| {
                    match found {
                        Some(found) => {
                            say.word(found.pos as u64);
                            say.word(found.txid);
                            say.word(found.cmd.into());
                            say.part(found.value);
                            say.word(history.0);
                            say.word(history.1);
                            say.word(history.2);
                        }
                        None => say.name("none"),
                    }
                    say.word(reads.into());
                });
            }
            Read::AsOf { key, txid, cmd } => {
                let answer = both.as_of(addr, key, *txid, *cmd);
                if let Some(row) = self.lists.pick(addr, key, *txid, *cmd) {
                    let of_model = answer.map(|a| a.0);
                    assert_eq!(of_model, Ok(row), "model (left) and the list (right) differ");
                    self.picked += 1;
                }
                said(say, answer, |say, (row, reads)| {
                    match row {
                        Some(row) => {
                            say.word(row.pos as u64);
                            say.word(row.txid);
                            say.word(row.cmd.into());
                            say.part(row.value);
                        }
                        None => say.name("none"),
                    }
                    say.word(reads.into());
                });
            }
            Read::Walk { begin, end } => {
                let remotes = remotes(model::Walk::forward(both.arena.bytes(), addr, *begin, *end));
                listed(both.walk(addr, *begin, *end), &remotes, say);
            }
            Read::Back { start, end } => {
                let remotes =
                    remotes(model::Walk::backward(both.arena.bytes(), addr, *start, *end));
                listed(both.walk_back(addr, *start, *end), &remotes, say);
            }
            Read::Range { from, to } => match positions(both, addr, from.as_deref(), to.as_deref())
            {
                Ok((begin, end)) => {
                    let remotes =
                        remotes(model::Walk::forward(both.arena.bytes(), addr, begin, end));
                    let prefix = both.prefix(addr).map_or(Vec::new(), <[u8]>::to_vec);
                    let walked = both.walk(addr, begin, end);
                    if let Some(rows) = self.lists.between(addr, from.as_deref(), to.as_deref()) {
                        let rows: Vec<Row> = rows.into_iter().cloned().collect();
                        assert_eq!(whole_rows(&prefix, &walked.0), rows, "walk and list differ");
                        self.picked += 1;
                    }
                    listed(walked, &remotes, say);
                }
                Err(number) => say.refused(number),
            },
            Read::Delta => {
                said(say, both.leaf_delta_key(addr), |say, (key, txid, cmd)| {
                    say.part(key);
                    say.word(txid);
                    say.word(cmd.into());
                });
                said(say, both.leaf_delta_value(addr), |say, value| say.part(value));
                said(say, both.index_delta_key(addr), |say, key| say.part(key));
                said(say, both.index_delta_pid(addr), |say, pid| say.word(pid));
            }
            Read::Overlay { delta, key } => {
                let laid = both.overlay(addr, &self.buffer.arena, names.at(*delta), key);
                said(say, laid, |say, laid| match laid {
                    Laid::Delta(value) => {
                        say.name("delta");
                        say.part(value);
                    }
                    Laid::Page(value) => {
                        say.name("page");
                        say.part(value);
                    }
                    Laid::None => say.name("none"),
                });
            }
        }
    }
}

/// "demand 3 uses the largest version in its probes": the positions between two keys.
fn positions(
    both: &mut Both,
    addr: u64,
    from: Option<&[u8]>,
    to: Option<&[u8]>,
) -> Result<(u64, u64), Number> {
    let mut bound =
        |key| both.lower_bound(addr, key, u64::MAX, u32::MAX).map(|(pos, _)| pos as u64);
    let begin = from.map_or(Ok(0), &mut bound)?;
    let end = match to {
        Some(to) => bound(to)?,
        None => model::page(both.arena.bytes(), addr)?.elems as u64,
    };
    Ok((begin, end))
}

fn history(arena: &[u8], addr: u64, pos: usize) -> (u64, u64, u64) {
    let record = model::page(arena, addr).and_then(|page| model::leaf_record(arena, &page, pos));
    let history = record.ok().and_then(|record| record.value.history);
    history.map_or((0, 0, 0), |h| (h.addr, h.slot as u64, h.count.into()))
}

/// The remote address of each record of a walk on a leaf, 0 where the value is inline.
fn remotes(walk: Result<model::Walk<'_>, Number>) -> Vec<u64> {
    let mut out = Vec::new();
    let Ok(mut walk) = walk else { return out };
    while let Ok(Some((step, on))) = walk.step() {
        let leaf = matches!(step.what, What::Leaf { .. });
        out.push(if leaf { walk.remote_of_next().unwrap_or(0) } else { 0 });
        walk = on;
    }
    out
}

/// A leaf's steps with whole keys.
fn whole_rows(prefix: &[u8], steps: &[Step<'_>]) -> Vec<Row> {
    let row = |step: &Step<'_>| match step.what {
        What::Leaf { txid, cmd, value } => {
            Some(Row { key: [prefix, step.rest].concat(), txid, cmd, value: value.to_vec() })
        }
        What::Index { .. } => None,
    };
    steps.iter().filter_map(row).collect()
}

fn listed((steps, number): (Vec<Step<'_>>, Option<Number>), remotes: &[u64], say: &mut Said) {
    for (step, &remote) in steps.iter().zip(remotes) {
        say.part(step.rest);
        match step.what {
            What::Leaf { txid, cmd, value } => {
                say.word(txid);
                say.word(cmd.into());
                say.part(value);
                say.word(remote);
                say.word(step.entered);
            }
            What::Index { pid } => say.word(pid),
        }
        say.line();
    }
    match number {
        Some(number) => say.refused(number),
        None => say.name("end"),
    }
}

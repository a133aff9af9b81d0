//! Cases as text, in the language of tests/vectors (rust/oracle/README.md): written so that a difference can be replayed by any
//! program that knows the language, and read back.

use std::fmt::Write;
use std::str::{FromStr, SplitWhitespace};

use oracle::answer::Stamp;
use oracle::judge::Number;
use oracle::model;
use oracle::sample::Row;
use oracle::text;

use crate::case::{At, Case, List, Names, Next, Op, Place, Read, Sizes, damage};

pub fn begin(len: usize, fill: u8) -> String {
    format!("arena {len} {fill}\n")
}

fn stamp(s: &Stamp) -> String {
    format!("{} {} {} {}", s.txid, s.group, s.lsn, s.checkpoint)
}

fn place(p: &Place) -> String {
    format!("{} {} {}", p.sibling, text::write(&p.lo), text::write(&p.hi))
}

/// The positions of a range, as the model has them: the language has no ranges.
fn range(
    arena: &[u8],
    addr: u64,
    from: Option<&[u8]>,
    to: Option<&[u8]>,
) -> Result<(usize, usize), Number> {
    let bound = |key| model::lower_bound(arena, addr, key, u64::MAX, u32::MAX).map(|(pos, _)| pos);
    let end = || model::page(arena, addr).map(|page| page.elems);
    Ok((from.map_or(Ok(0), bound)?, to.map_or_else(end, bound)?))
}

/// The lines of one operation, with the names as they stand before it. The language has no word for a shorter arena or for a
/// change of the buffer, so these are written as new ones.
pub fn lines(op: &Op, names: &Names, arena: &[u8], buffer: &[u8]) -> String {
    let mut out = String::new();
    let t = text::write;
    let w = &mut out;
    match op {
        Op::Put { .. } | Op::Add { .. } | Op::Copy { .. } | Op::Strike { .. } => {
            match damage(op, arena, names) {
                Some((at, bytes)) => writeln!(w, "put {at} {}", t(&bytes)),
                None => Ok(()),
            }
        }
        Op::Cut { len } => {
            let len = (*len).min(arena.len());
            writeln!(w, "arena {len} 0\nput 0 {}", t(&arena[..len]))
        }
        Op::Buffer { bytes } => writeln!(w, "buffer {}", t(bytes)),
        Op::BufferPut { at, bytes } => {
            let mut changed = buffer.to_vec();
            crate::ours::put(&mut changed, *at, bytes);
            writeln!(w, "buffer {}", t(&changed))
        }
        Op::BufferCut { len } => writeln!(w, "buffer {}", t(&buffer[..(*len).min(buffer.len())])),
        Op::Lay { limit, stamp, row } => {
            // built here by the oracle, so that the script has the bytes
            let limit = *limit as usize;
            let ok =
                (1..=65_536).contains(&limit) && row.key.len() <= 4096 && row.value.len() <= 65_536;
            let e = crate::theirs::entry(row);
            if ok {
                let (_, bytes) = oracle::image::leaf_delta(8, limit, stamp, &e);
                writeln!(w, "buffer a5*8.{}", t(&bytes))
            } else {
                Ok(())
            }
        }
        Op::Leaf { next, sizes, stamp: s, place: p, list, .. } => writeln!(
            w,
            "leaf {} {} {} {} {} {}",
            names.next(*next),
            sizes.limit,
            sizes.budget,
            stamp(s),
            place(p),
            t(&list.bytes())
        ),
        Op::Index { next, stamp: s, place: p, list, .. } => {
            writeln!(
                w,
                "index {} {} {} {}",
                names.next(*next),
                stamp(s),
                place(p),
                t(&list.bytes())
            )
        }
        Op::Merge { next, sizes, stamp: s, left, right, .. } => writeln!(
            w,
            "merge {} {} {} {} {} {}",
            names.next(*next),
            sizes.limit,
            sizes.budget,
            stamp(s),
            names.at(*left),
            names.at(*right)
        ),
        Op::LeafDelta { next, limit, stamp: s, row, .. } => writeln!(
            w,
            "dleaf {} {limit} {} {} {} {} {} {} {}",
            names.next(*next),
            s.group,
            s.lsn,
            s.checkpoint,
            row.txid,
            row.cmd,
            t(&row.key),
            t(&row.value)
        ),
        Op::IndexDelta { next, stamp: s, key, pid, .. } => {
            writeln!(w, "dindex {} {} {} {pid}", names.next(*next), stamp(s), t(key))
        }
        Op::Common { lo, hi } => writeln!(w, "common {} {}", t(lo), t(hi)),
        Op::Ask { at, read } => {
            let a = names.at(*at);
            match read {
                Read::Check => writeln!(w, "check {a}"),
                Read::Info => writeln!(w, "lo {a}\nhi {a}\nprefix {a}"),
                Read::Hints => writeln!(w, "hists {a}\nremotes {a}"),
                Read::Lower { key, txid, cmd } => writeln!(w, "lower {a} {} {txid} {cmd}", t(key)),
                Read::Floor { key } => writeln!(w, "floor {a} {}", t(key)),
                Read::Search { key } => writeln!(w, "search {a} {}", t(key)),
                Read::AsOf { key, txid, cmd } => writeln!(w, "asof {a} {} {txid} {cmd}", t(key)),
                Read::Walk { begin, end } => writeln!(w, "walk {a} {begin} {end}"),
                Read::Back { start, end } => writeln!(w, "back {a} {start} {end}"),
                Read::Range { from, to } => {
                    let positions = range(arena, a, from.as_deref(), to.as_deref());
                    let keys = [from, to].into_iter().flatten();
                    keys.for_each(|key| {
                        w.push_str(&format!("lower {a} {} {} {}\n", t(key), u64::MAX, u32::MAX))
                    });
                    match positions {
                        Ok((begin, end)) => writeln!(w, "walk {a} {begin} {end}"),
                        Err(_) => Ok(()),
                    }
                }
                Read::Delta => writeln!(w, "dkey {a}\ndval {a}\nikey {a}\nipid {a}"),
                Read::Overlay { delta, key } => {
                    writeln!(w, "overlay {a} {} {}", names.at(*delta), t(key))
                }
            }
        }
    }
    .expect("a string takes all");
    out
}

struct Words<'a>(SplitWhitespace<'a>);

impl<'a> Words<'a> {
    fn word(&mut self) -> Result<&'a str, String> {
        self.0.next().ok_or_else(|| "a word is missing".into())
    }

    fn number<T: FromStr>(&mut self) -> Result<T, String> {
        let word = self.word()?;
        word.parse().map_err(|_| format!("no such number: {word}"))
    }

    fn bytes(&mut self) -> Result<Vec<u8>, String> {
        text::read(self.word()?)
    }

    fn at(&mut self) -> Result<At, String> {
        self.number().map(At::Raw)
    }

    fn next(&mut self) -> Result<Next, String> {
        self.number().map(Next::Raw)
    }

    fn sizes(&mut self) -> Result<Sizes, String> {
        Ok(Sizes { limit: self.number()?, budget: self.number()? })
    }

    fn stamp(&mut self) -> Result<Stamp, String> {
        let (txid, group) = (self.number()?, self.number()?);
        Ok(Stamp { txid, group, lsn: self.number()?, checkpoint: self.number()? })
    }

    fn place(&mut self) -> Result<Place, String> {
        Ok(Place { sibling: self.number()?, lo: self.bytes()?, hi: self.bytes()? })
    }

    fn list(&mut self) -> Result<List, String> {
        self.bytes().map(List::Bytes)
    }
}

/// The cases of a script. Its answer lines are left out, and so are the commands on lengths, which the crate does not have.
pub fn read(script: &str) -> Result<Vec<Case>, String> {
    let mut cases: Vec<Case> = Vec::new();
    for (n, line) in script.lines().enumerate() {
        let mut w = Words(line.split_whitespace());
        let Some(command) = w.0.next() else { continue };
        let ops =
            command_ops(command, &mut w).map_err(|wrong| format!("line {}: {wrong}", n + 1))?;
        match ops {
            Some(ops) => match cases.last_mut() {
                Some(case) => case.ops.extend(ops),
                None => return Err(format!("line {}: no arena yet", n + 1)),
            },
            None if command == "arena" => {
                let (len, fill) = (w.number()?, w.number()?);
                cases.push(Case { kind: "script", len, fill, at_start: false, ops: Vec::new() });
            }
            None => {}
        }
    }
    Ok(cases)
}

/// The operations of a command; none for a line that is no question.
fn command_ops(command: &str, w: &mut Words<'_>) -> Result<Option<Vec<Op>>, String> {
    let name = 0;
    let op = match command {
        "put" => Op::Put { at: w.number()?, bytes: w.bytes()? },
        "buffer" => Op::Buffer { bytes: w.bytes()? },
        "leaf" => {
            let (next, sizes) = (w.next()?, w.sizes()?);
            let (stamp, place) = (w.stamp()?, w.place()?);
            Op::Leaf { name, next, sizes, stamp, place, list: w.list()? }
        }
        "index" => {
            let (next, stamp) = (w.next()?, w.stamp()?);
            Op::Index { name, next, stamp, place: w.place()?, list: w.list()? }
        }
        "merge" => {
            let (next, sizes) = (w.next()?, w.sizes()?);
            Op::Merge { name, next, sizes, stamp: w.stamp()?, left: w.at()?, right: w.at()? }
        }
        "dleaf" => {
            let (next, limit) = (w.next()?, w.number()?);
            let (group, lsn, checkpoint) = (w.number()?, w.number()?, w.number()?);
            let (txid, cmd) = (w.number()?, w.number()?);
            let row = Row { key: w.bytes()?, txid, cmd, value: w.bytes()? };
            Op::LeafDelta {
                name,
                next,
                limit,
                stamp: Stamp { txid: 0, group, lsn, checkpoint },
                row,
            }
        }
        "dindex" => {
            let (next, stamp) = (w.next()?, w.stamp()?);
            Op::IndexDelta { name, next, stamp, key: w.bytes()?, pid: w.number()? }
        }
        "common" => Op::Common { lo: w.bytes()?, hi: w.bytes()? },
        _ => {
            let Some(read) = question(command) else { return Ok(None) };
            let at = w.at()?;
            return Ok(Some(vec![Op::Ask { at, read: read(w)? }]));
        }
    };
    Ok(Some(vec![op]))
}

type Reader = fn(&mut Words<'_>) -> Result<Read, String>;

fn question(command: &str) -> Option<Reader> {
    Some(match command {
        "check" => |_| Ok(Read::Check),
        "lo" | "hi" | "prefix" => |_| Ok(Read::Info),
        "hists" | "remotes" => |_| Ok(Read::Hints),
        "lower" => |w| Ok(Read::Lower { key: w.bytes()?, txid: w.number()?, cmd: w.number()? }),
        "floor" => |w| Ok(Read::Floor { key: w.bytes()? }),
        "search" => |w| Ok(Read::Search { key: w.bytes()? }),
        "asof" => |w| Ok(Read::AsOf { key: w.bytes()?, txid: w.number()?, cmd: w.number()? }),
        "walk" => |w| Ok(Read::Walk { begin: w.number()?, end: w.number()? }),
        "back" => |w| Ok(Read::Back { start: w.number()?, end: w.number()? }),
        "dkey" | "dval" | "ikey" | "ipid" => |_| Ok(Read::Delta),
        "overlay" => |w| Ok(Read::Overlay { delta: w.at()?, key: w.bytes()? }),
        _ => return None,
    })
}

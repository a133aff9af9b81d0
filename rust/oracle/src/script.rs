//! The command language: one command a line in, the command and its answer lines out.
//! README.md describes it; tests/vectors holds files of it with their answers.

use std::fmt::Write;

use crate::answer::{Bounds, Built, Found, Stamp, Step, What};
use crate::arena::Arena;
use crate::both::{Asked, Both};
use crate::judge::Number;
use crate::list::{Child, Entry};
use crate::model::{self, Laid};
use crate::{image, text};

/// The most bytes that one `bytes` line shows; a longer stretch continues on the next.
const BYTES_A_LINE: usize = 32_768;

/// A running script: one arena, one buffer for a delta.
pub struct Script {
    both: Both,
    buffer: Arena,
    asked_before: Asked,
}

/// The words of one line, taken in order.
struct Words<'a>(std::str::SplitWhitespace<'a>);

impl<'a> Words<'a> {
    fn word(&mut self) -> Result<&'a str, String> {
        self.0.next().ok_or_else(|| "a word is missing".into())
    }

    fn number<T: std::str::FromStr>(&mut self) -> Result<T, String> {
        let word = self.word()?;
        word.parse().map_err(|_| format!("no such number: {word}"))
    }

    fn bytes(&mut self) -> Result<Vec<u8>, String> {
        text::read(self.word()?)
    }

    fn end(&mut self) -> Result<(), String> {
        match self.0.next() {
            Some(word) => Err(format!("one word too many: {word}")),
            None => Ok(()),
        }
    }
}

/// Lines that are answers, which a replay leaves out and makes again.
fn is_answer(line: &str) -> bool {
    let first = line.split(' ').next();
    matches!(first, Some("=" | "!" | "none" | "bytes" | "r" | "i" | "end"))
}

/// Runs a whole file and gives back its commands and comments with their answers.
pub fn run(input: &str) -> Result<(String, Asked), String> {
    let mut script = Script::new();
    let mut out = String::new();
    for (n, line) in input.lines().enumerate() {
        if is_answer(line) {
            continue;
        }
        let answers = script.line(line).map_err(|e| format!("line {}: {e}", n + 1))?;
        out += line;
        out.push('\n');
        out += &answers;
    }
    Ok((out, script.asked()))
}

impl Default for Script {
    fn default() -> Self {
        Self::new()
    }
}

impl Script {
    pub fn new() -> Self {
        Self {
            both: Both::new(Arena::new(0, 0)),
            buffer: Arena::new(0, 0),
            asked_before: Asked::default(),
        }
    }

    pub fn arena(&self) -> &[u8] {
        self.both.arena.bytes()
    }

    pub fn asked(&self) -> Asked {
        Asked {
            both: self.asked_before.both + self.both.asked.both,
            model_alone: self.asked_before.model_alone + self.both.asked.model_alone,
        }
    }

    /// Executes one line; the answer lines, each ended, or what is wrong with the line.
    pub fn line(&mut self, line: &str) -> Result<String, String> {
        if line.is_empty() || line.starts_with('#') {
            return Ok(String::new());
        }
        let mut w = Words(line.split_whitespace());
        let command = w.word()?;
        let answer = self.command(command, &mut w)?;
        w.end()?;
        Ok(answer)
    }

    fn command(&mut self, command: &str, w: &mut Words) -> Result<String, String> {
        let both = &mut self.both;
        Ok(match command {
            "arena" => {
                let arena = Arena::new(w.number()?, w.number()?);
                self.asked_before = self.asked();
                self.both = Both::new(arena);
                String::new()
            }
            "put" => {
                let (at, bytes) = (w.number::<usize>()?, w.bytes()?);
                let end = at.saturating_add(bytes.len());
                let place = both.arena.bytes_mut().get_mut(at..end).ok_or("outside the arena")?;
                place.copy_from_slice(&bytes);
                String::new()
            }
            "buffer" => {
                self.buffer = Arena::from_bytes(&w.bytes()?);
                String::new()
            }
            "leaf" => {
                let (next, limit, budget) = (w.number()?, w.number()?, w.number()?);
                let stamp = stamp(w)?;
                let (sibling, lo, hi) = (w.number()?, w.bytes()?, w.bytes()?);
                let bounds = Bounds { sibling, lo: &lo, hi: &hi };
                let list = w.bytes()?;
                let built = both.leaf(next, limit, budget, &stamp, &bounds, &list);
                self.built(next, built)
            }
            "index" => {
                let next = w.number()?;
                let stamp = stamp(w)?;
                let (sibling, lo, hi) = (w.number()?, w.bytes()?, w.bytes()?);
                let bounds = Bounds { sibling, lo: &lo, hi: &hi };
                let list = w.bytes()?;
                let built = both.index(next, &stamp, &bounds, &list);
                self.built(next, built)
            }
            "merge" => {
                let (next, limit, budget) = (w.number()?, w.number()?, w.number()?);
                let stamp = stamp(w)?;
                let (left, right) = (w.number()?, w.number()?);
                let built = both.merge(next, limit, budget, &stamp, left, right);
                self.built(next, built)
            }
            "dleaf" => {
                let (next, limit) = (w.number()?, w.number()?);
                let (group, lsn, checkpoint) = (w.number()?, w.number()?, w.number()?);
                let (txid, cmd) = (w.number()?, w.number()?);
                let (key, value) = (w.bytes()?, w.bytes()?);
                let stamp = Stamp { txid: 0, group, lsn, checkpoint };
                let e = Entry { key: &key, txid, cmd, value: &value };
                let built = both.leaf_delta(next, limit, &stamp, &e);
                self.built(next, built)
            }
            "dindex" => {
                let next = w.number()?;
                let stamp = stamp(w)?;
                let (key, pid) = (w.bytes()?, w.number()?);
                let built = both.index_delta(next, &stamp, &Child { key: &key, pid });
                self.built(next, built)
            }
            "check" => said(both.check(w.number()?), |()| "= 1".into()),
            "lower" => {
                let (addr, key) = (w.number()?, w.bytes()?);
                let (txid, cmd) = (w.number()?, w.number()?);
                said(both.lower_bound(addr, &key, txid, cmd), |(pos, reads)| {
                    format!("= {pos} {reads}")
                })
            }
            "floor" => {
                let (addr, key) = (w.number()?, w.bytes()?);
                said(both.floor(addr, &key), |answer| match answer {
                    (Some((pos, pid)), reads) => format!("= {pos} {pid} {reads}"),
                    (None, reads) => format!("none {reads}"),
                })
            }
            "search" => {
                let (addr, key) = (w.number()?, w.bytes()?);
                said(both.search(addr, &key), found)
            }
            "asof" => {
                let (addr, key) = (w.number()?, w.bytes()?);
                let (txid, cmd) = (w.number()?, w.number()?);
                said(both.as_of(addr, &key, txid, cmd), found)
            }
            "walk" => walked(both.walk(w.number()?, w.number()?, w.number()?)),
            "back" => walked(both.walk_back(w.number()?, w.number()?, w.number()?)),
            "lo" => said(both.lo(w.number()?), |b| format!("= {}", text::write(b))),
            "hi" => said(both.hi(w.number()?), |b| match b {
                Some(b) => format!("= {}", text::write(b)),
                None => "none".into(),
            }),
            "prefix" => said(both.prefix(w.number()?), |b| format!("= {}", text::write(b))),
            "hists" => said(both.history_hints(w.number()?), addresses),
            "remotes" => said(both.remote_hints(w.number()?), addresses),
            "dkey" => said(both.leaf_delta_key(w.number()?), |(key, txid, cmd)| {
                format!("= {} {txid} {cmd}", text::write(key))
            }),
            "dval" => said(both.leaf_delta_value(w.number()?), |b| format!("= {}", text::write(b))),
            "ikey" => said(both.index_delta_key(w.number()?), |b| format!("= {}", text::write(b))),
            "ipid" => said(both.index_delta_pid(w.number()?), |pid| format!("= {pid}")),
            "overlay" => {
                let (addr, delta, key) = (w.number()?, w.number()?, w.bytes()?);
                said(both.overlay(addr, &self.buffer, delta, &key), |laid| match laid {
                    Laid::Delta(b) => format!("= d {}", text::write(b)),
                    Laid::Page(b) => format!("= p {}", text::write(b)),
                    Laid::None => "none".into(),
                })
            }
            "length" => format!("= {}\n", text::write(&image::length(w.number::<u32>()? as usize))),
            "unlength" => {
                said(model::length(&w.bytes()?, 0), |(n, taken)| format!("= {n} {taken}"))
            }
            "common" => format!("= {}\n", both.common(&w.bytes()?, &w.bytes()?)),
            other => return Err(format!("no such command: {other}")),
        })
    }

    /// A build's answer: address and next, and the bytes from the old next to the new.
    fn built(&self, from: u64, built: Result<Built, Number>) -> String {
        let mut out = said(built, |b| format!("= {} {}", b.addr, b.next));
        if let Ok(b) = built {
            let (from, to) = (from as usize, b.next as usize);
            for at in (from..to).step_by(BYTES_A_LINE) {
                let part = &self.arena()[at..to.min(at + BYTES_A_LINE)];
                writeln!(out, "bytes {at} {}", text::write(part)).unwrap();
            }
        }
        out
    }
}

/// TXID GROUP LSN CKPT
fn stamp(w: &mut Words) -> Result<Stamp, String> {
    Ok(Stamp { txid: w.number()?, group: w.number()?, lsn: w.number()?, checkpoint: w.number()? })
}

fn said<T>(answer: Result<T, Number>, show: impl FnOnce(T) -> String) -> String {
    match answer {
        Ok(answer) => show(answer) + "\n",
        Err(number) => format!("! {number}\n"),
    }
}

/// A row that a lookup handed back, or none; and the keys read.
fn found((row, reads): (Option<Found>, u32)) -> String {
    match row {
        Some(f) => {
            format!("= {} {} {} {} {reads}", f.pos, f.txid, f.cmd, text::write(f.value))
        }
        None => format!("none {reads}"),
    }
}

fn addresses(list: Option<Vec<u64>>) -> String {
    match list {
        Some(list) => list.iter().fold("=".into(), |out, addr| format!("{out} {addr}")),
        None => "none".into(),
    }
}

fn walked((steps, number): (Vec<Step>, Option<Number>)) -> String {
    let mut out = String::new();
    for step in steps {
        let rest = text::write(step.rest);
        match step.what {
            What::Leaf { txid, cmd, value } => {
                let value = text::write(value);
                writeln!(out, "r {rest} {txid} {cmd} {value} {}", step.entered).unwrap();
            }
            What::Index { pid } => writeln!(out, "i {rest} {pid}").unwrap(),
        }
    }
    match number {
        Some(number) => out + &format!("! {number}\n"),
        None => out + "end\n",
    }
}

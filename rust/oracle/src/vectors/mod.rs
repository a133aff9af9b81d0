//! The golden vectors: files of commands with their answers, made from a fixed seed.
//! Every answer is the Rust's and the model's where the Rust may be asked, else the model's.

mod built;
mod cases;
mod crafted;
mod damaged;
mod deltas;
mod lengths;
mod merges;
mod refused;
mod searches;
mod walks;

use crate::prng::Prng;
use crate::script::Script;
use crate::text;

/// One file of vectors.
pub struct Vectors {
    pub name: &'static str,
    pub text: String,
    pub cases: usize,
    pub commands: usize,
    pub by_both: u64,
    pub by_model_alone: u64,
}

impl Vectors {
    pub fn summary(&self) -> String {
        format!(
            "{}: {} cases, {} commands, {} bytes; {} answers by the Rust and the model, {} by the model alone",
            self.name,
            self.cases,
            self.commands,
            self.text.len(),
            self.by_both,
            self.by_model_alone
        )
    }
}

type Theme = (&'static str, &'static str, fn(&mut Out, &mut Prng));

/// File, what it is about, and who writes it.
const THEMES: &[Theme] = &[
    ("cases.txt", "Document 01's cases by number and its runs.", cases::write),
    (
        "lengths.txt",
        "LEB128 lengths both ways, and the common bytes of boundaries.",
        lengths::write,
    ),
    ("built.txt", "Leaf and index builds, byte for byte.", built::write),
    ("searches.txt", "Lower bound, floor and search, with the keys read.", searches::write),
    ("walks.txt", "Forward and backward walks, with the history pages named.", walks::write),
    ("merges.txt", "Merges at the same and at other limits and budgets.", merges::write),
    ("deltas.txt", "Deltas, their readers, and the overlay lookup.", deltas::write),
    (
        "refused.txt",
        "Each number of refusal, and the first of the table where two apply.",
        refused::write,
    ),
    (
        "crafted.txt",
        "Sound pages that no build writes, put together by hand; the Rust answers too.",
        crafted::write,
    ),
    (
        "damaged.txt",
        "Damaged pages: on these the Rust cannot be asked, the answers are the model's alone.",
        damaged::write,
    ),
];

pub const NAMES: [&str; THEMES.len()] = {
    let mut names = [""; THEMES.len()];
    let mut i = 0;
    while i < names.len() {
        names[i] = THEMES[i].0;
        i += 1;
    }
    names
};

/// Every file, made anew.
pub fn all() -> Vec<Vectors> {
    let make = |(n, (name, about, write)): (usize, &Theme)| {
        let mut out = Out::new();
        out.note(about);
        out.note("Made by `oracle vectors`; see README.md. Not edited by hand.");
        write(&mut out, &mut Prng::new(0x0123_4567_89ab_cdef + n as u64));
        let asked = out.script.asked();
        Vectors {
            name,
            text: out.text,
            cases: out.cases,
            commands: out.commands,
            by_both: asked.both,
            by_model_alone: asked.model_alone,
        }
    };
    THEMES.iter().enumerate().map(make).collect()
}

/// The largest arena: a program can hold one in a local array.
pub const MAX_ARENA: usize = 262_144;

/// The longest line that a program must take.
pub const MAX_LINE: usize = 200_000;

/// A file being written: each command is run at once and noted with its answer.
pub struct Out {
    text: String,
    script: Script,
    cases: usize,
    commands: usize,
    /// The arena that a case asks for, in a trial run: how large it must at least be.
    needed: usize,
    /// In place of the size that a case asks for, once the trial has found the size.
    size: Option<usize>,
}

impl Out {
    fn new() -> Self {
        Self {
            text: String::new(),
            script: Script::new(),
            cases: 0,
            commands: 0,
            needed: 0,
            size: None,
        }
    }

    fn note(&mut self, comment: &str) {
        self.text += &format!("# {comment}\n");
    }

    /// Runs a command, notes it with its answer, and gives the answer back.
    fn say(&mut self, command: impl AsRef<str>) -> String {
        let command = command.as_ref();
        let answer = self.script.line(command).unwrap_or_else(|e| panic!("{e}: {command}"));
        for line in std::iter::once(command).chain(answer.lines()) {
            assert!(line.len() <= MAX_LINE, "a line of {} characters", line.len());
        }
        self.commands += 1;
        self.text += command;
        self.text.push('\n');
        self.text += &answer;
        answer
    }

    /// A new arena, which starts a case.
    fn arena(&mut self, size: usize, fill: u8) {
        assert!(size <= MAX_ARENA);
        self.cases += 1;
        self.say(format!("arena {} {fill}", self.size.unwrap_or(size)));
    }

    /// A build: the frame's address and the new next free address.
    fn built(&mut self, command: impl AsRef<str>) -> (u64, u64) {
        let answer = self.say(command);
        let first = answer.lines().next().unwrap();
        let numbers: Vec<u64> = first.split(' ').skip(1).map(|w| w.parse().unwrap()).collect();
        assert!(first.starts_with('=') && numbers.len() == 2, "not built: {first}");
        self.needed = self.needed.max(numbers[1] as usize);
        (numbers[0], numbers[1])
    }

    /// A case in an arena that is just large enough, or a little larger; the old bytes vary.
    fn case(&mut self, rng: &mut Prng, body: impl Fn(&mut Out, &mut Prng)) {
        let mut trial = Out::new();
        trial.arena(MAX_ARENA, 0);
        body(&mut trial, &mut rng.clone());
        self.size = Some(trial.needed.max(40) + rng.clone().pick(&[0, 0, 0, 1, 7, 8, 64]));
        self.arena(0, rng.clone().number() as u8);
        self.size = None;
        body(self, rng);
    }

    /// What every reader of a page says about it as a whole.
    fn page(&mut self, addr: u64, elems: usize) {
        for reader in ["check", "lo", "hi", "prefix", "hists", "remotes"] {
            self.say(format!("{reader} {addr}"));
        }
        self.say(format!("walk {addr} 0 {elems}"));
    }

    /// Stores a byte or more into the arena.
    fn put(&mut self, at: usize, bytes: &[u8]) {
        self.say(format!("put {at} {}", text::write(bytes)));
    }

    fn bytes(&self) -> &[u8] {
        self.script.arena()
    }

    /// The elems of the page at an address, read from its header.
    fn elems(&self, addr: u64) -> usize {
        let at = addr as usize + 32 + 4;
        u16::from_le_bytes(self.bytes()[at..at + 2].try_into().unwrap()) as usize
    }
}

/// `leaf ...` with everything given.
fn leaf(next: u64, limit: usize, budget: usize, stamp: &str, bounds: Place, list: &[u8]) -> String {
    format!(
        "leaf {next} {limit} {budget} {stamp} {} {} {} {}",
        bounds.0,
        text::write(bounds.1),
        text::write(bounds.2),
        text::write(list)
    )
}

/// `index ...` with everything given.
fn index(next: u64, stamp: &str, bounds: Place, list: &[u8]) -> String {
    format!(
        "index {next} {stamp} {} {} {} {}",
        bounds.0,
        text::write(bounds.1),
        text::write(bounds.2),
        text::write(list)
    )
}

/// `dleaf ...` with everything given; the stamp is GROUP LSN CKPT.
fn dleaf(
    next: u64,
    limit: usize,
    stamp: &str,
    version: (u64, u32),
    key: &[u8],
    value: &[u8],
) -> String {
    format!(
        "dleaf {next} {limit} {stamp} {} {} {} {}",
        version.0,
        version.1,
        text::write(key),
        text::write(value)
    )
}

/// A page's sibling, lo and hi.
type Place<'a> = (u64, &'a [u8], &'a [u8]);

/// No boundaries and no sibling.
const NONE: Place = (0, &[], &[]);

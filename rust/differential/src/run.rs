//! A case put to both sides, question by question, until the first difference.

use std::collections::BTreeMap;
use std::panic::{AssertUnwindSafe, catch_unwind};

use crate::case::{Case, Names, Op};
use crate::ours::{Fault, Ours};
use crate::said::Said;
use crate::script;
use crate::theirs::Theirs;

/// Where the two first differ.
#[derive(Clone, Debug, Default, PartialEq, Eq)]
pub struct Difference {
    /// The operation, counted from 0.
    pub at: usize,
    pub call: &'static str,
    /// What differs, in words.
    pub what: String,
    pub ours: String,
    pub judge: String,
}

/// What was compared.
#[derive(Clone, Debug, Default)]
pub struct Count {
    pub cases: u64,
    pub questions: u64,
    /// How often mace's Rust answered beside the model.
    pub rust: u64,
    /// How often a row as of a version or a range was also picked from the list that its page was made from.
    pub picked: u64,
    pub kinds: BTreeMap<&'static str, u64>,
    /// By call and number; number 0 counts the answers.
    pub answers: BTreeMap<(&'static str, u8), u64>,
}

impl Count {
    /// How often each call was asked.
    pub fn calls(&self) -> BTreeMap<&'static str, u64> {
        self.answers.iter().fold(BTreeMap::new(), |mut calls, ((call, _), times)| {
            *calls.entry(*call).or_default() += times;
            calls
        })
    }

    /// How often any call was refused with a number, or answered (0).
    pub fn with(&self, number: u8) -> u64 {
        self.answers.iter().filter(|((_, n), _)| *n == number).map(|(_, times)| times).sum()
    }
}

/// Runs cases; keeps its memory from one to the next.
pub struct Runner {
    ours: Ours,
    ours_said: Said,
    theirs_said: Said,
    pub count: Count,
}

impl Runner {
    pub fn new(fault: Fault) -> Self {
        let mut ours = Ours::default();
        ours.fault = fault;
        Runner {
            ours,
            ours_said: Said::new(false),
            theirs_said: Said::new(false),
            count: Count::default(),
        }
    }

    /// The first difference, none where both agree everywhere.
    pub fn run(&mut self, case: &Case) -> Option<Difference> {
        self.go(case, None)
    }

    /// The same with the answers of both as text, and the case up to there as a script.
    pub fn tell(&mut self, case: &Case) -> (Option<Difference>, String) {
        let mut script = String::new();
        self.ours_said = Said::new(true);
        self.theirs_said = Said::new(true);
        let difference = self.go(case, Some(&mut script));
        self.ours_said = Said::new(false);
        self.theirs_said = Said::new(false);
        (difference, script)
    }

    fn go(&mut self, case: &Case, mut script: Option<&mut String>) -> Option<Difference> {
        let mut theirs = Theirs::new(case.len, case.fill);
        self.ours.begin(case.len, case.fill, case.at_start);
        let mut names = Names { free: 8, ..Names::default() };
        if let Some(script) = &mut script {
            script.push_str(&script::begin(case.len, case.fill));
        }
        self.count.cases += 1;
        *self.count.kinds.entry(case.kind).or_default() += 1;
        let mut difference = None;
        for (at, op) in case.ops.iter().enumerate() {
            if let Some(script) = &mut script {
                script.push_str(&script::lines(op, &names, theirs.bytes(), theirs.buffer()));
            }
            // the oracle panics where its own two halves differ; that is a finding too
            let asked = catch_unwind(AssertUnwindSafe(|| self.one(op, &mut theirs, &mut names)));
            let found = asked.unwrap_or_else(|panic| {
                let text =
                    panic.downcast::<String>().map_or_else(|_| "a panic".into(), |text| *text);
                Some(Difference {
                    what: format!("the oracle stopped: {text}"),
                    ..Difference::default()
                })
            });
            if let Some(found) = found {
                difference = Some(Difference { at, call: op.call(), ..found });
                break;
            }
        }
        self.count.rust += theirs.rust_asked();
        self.count.picked += theirs.picked;
        let readers_wrote = || Difference {
            at: case.ops.len(),
            what: "bytes changed by a reader".into(),
            ..Difference::default()
        };
        difference.or_else(|| {
            let same = self.ours.bytes() == theirs.bytes() && self.ours.buffer() == theirs.buffer();
            (!same).then(readers_wrote)
        })
    }

    fn one(&mut self, op: &Op, theirs: &mut Theirs, names: &mut Names) -> Option<Difference> {
        let (mine, judge) = (&mut self.ours_said, &mut self.theirs_said);
        mine.begin();
        judge.begin();
        self.ours.apply(op, names, mine);
        theirs.apply(op, names, judge);
        if !op.call().is_empty() {
            self.count.questions += 1;
            *self.count.answers.entry((op.call(), judge.number())).or_default() += 1;
        }
        let texts = |what: String| Difference {
            what,
            ours: mine.text().into(),
            judge: judge.text().into(),
            ..Difference::default()
        };
        if mine != judge {
            return Some(texts("the answers differ".into()));
        }
        if op.writes() {
            let ours = &self.ours;
            for (name, a, b) in [
                ("arena", ours.bytes(), theirs.bytes()),
                ("buffer", ours.buffer(), theirs.buffer()),
            ] {
                if a != b {
                    let at = (0..a.len()).find(|&i| a[i] != b[i]).unwrap_or(0);
                    return Some(texts(format!(
                        "byte {at} of the {name} is {:#04x}, the judge's {:#04x}",
                        a[at], b[at]
                    )));
                }
            }
        }
        None
    }
}

/// A case as a script. The oracle alone names the addresses: what made the library stop can be shown without running it.
pub fn script_of(case: &Case) -> String {
    let mut theirs = Theirs::new(case.len, case.fill);
    let mut names = Names { free: 8, ..Names::default() };
    let mut script = script::begin(case.len, case.fill);
    for op in &case.ops {
        script.push_str(&script::lines(op, &names, theirs.bytes(), theirs.buffer()));
        theirs.apply(op, &mut names, &mut Said::new(false));
    }
    script
}

//! The rows of a run, as they are timed: those that are wanted, by the name of their call.

use bench::cases::Case;
use bench::timing::{Contestant, EACH, Time, race};

pub struct Row {
    pub call: &'static str,
    pub keys: usize,
    pub key_len: usize,
    pub ours: Time,
    pub rust: Time,
    pub others: Vec<(String, Time)>,
}

impl Row {
    pub fn ratio(&self) -> f64 {
        self.ours.median / self.rust.median
    }

    /// The same of the fast rounds.
    pub fn fast_ratio(&self) -> f64 {
        self.ours.fast / self.rust.fast
    }
}

pub struct Sheet<'a> {
    wanted: &'a dyn Fn(&str) -> bool,
    pub rows: Vec<Row>,
}

impl<'a> Sheet<'a> {
    pub fn new(wanted: &'a dyn Fn(&str) -> bool) -> Self {
        Sheet { wanted, rows: Vec::new() }
    }

    /// A row of ours and the Rust's, each doing `calls` calls or records a round.
    pub fn race(
        &mut self,
        case: &Case,
        call: &'static str,
        calls: usize,
        ours: Contestant,
        rust: Contestant,
    ) {
        self.row(case, call, || (race(calls, EACH, &mut [ours, rust]), Vec::new()));
    }

    /// A row whose times are told: ours, the Rust's, then those of the others that are named. Nothing is asked for a row that is not wanted.
    pub fn row(
        &mut self,
        case: &Case,
        call: &'static str,
        times: impl FnOnce() -> (Vec<Time>, Vec<String>),
    ) {
        if (self.wanted)(call) {
            let (keys, key_len) = (case.keys.len(), case.key_len());
            eprintln!("{call}, {keys} keys of {key_len} bytes");
            let (times, names) = times();
            let others = names.into_iter().zip(times[2..].iter().copied()).collect();
            self.rows.push(Row { call, keys, key_len, ours: times[0], rust: times[1], others });
        }
    }

    /// The calls in the order of their first rows, each with its rows.
    pub fn by_call(&self) -> Vec<(&'static str, Vec<&Row>)> {
        let mut out: Vec<(&str, Vec<&Row>)> = Vec::new();
        for row in &self.rows {
            match out.iter_mut().find(|(call, _)| *call == row.call) {
                Some((_, rows)) => rows.push(row),
                None => out.push((row.call, vec![row])),
            }
        }
        out
    }
}

//! Nanoseconds a record on pages of 1,000 to 60,000 records: time that grows as the page does stays the same along a line. Long rounds meet other
//! programs, so these are the fast rounds.

use crate::report::ns;
use crate::sheet::{Row, Sheet};
use crate::{builds, walks};
use bench::cases::{Case, SHORT};
use bench::timing::Time;
use std::fmt::Write;

/// Three keys have five records.
const RECORDS: [usize; 4] = [1_000, 4_000, 16_000, 60_000];
const CALLS: [&str; 4] = ["build", "merge", "check", "walk"];

pub fn table() -> String {
    let wanted = |call: &str| CALLS.contains(&call);
    let mut sheet = Sheet::new(&wanted);
    for records in RECORDS {
        let case = Case::new(records / 5 * 3, SHORT);
        assert_eq!(case.all().len(), records, "three keys have five records");
        builds::rows(&case, &mut sheet);
        walks::rows(&case, &mut sheet);
    }
    let mut out = String::from(
        "\nGrowth: nanoseconds a record (5%) by the records of a page, keys of six bytes:\n\n| call | | 1,000 | 4,000 | 16,000 | 60,000 |\n|---|---|--:|--:|--:|--:|\n",
    );
    for (call, rows) in sheet.by_call() {
        let mut line = |whose: &str, time: fn(&Row) -> Time| {
            let times: Vec<String> = rows.iter().map(|row| ns(time(row).fast)).collect();
            writeln!(out, "| {call} | {whose} | {} |", times.join(" | ")).unwrap();
        };
        line("ours", |row| row.ours);
        line("Rust", |row| row.rust);
    }
    out
}

//! The table of rows, and the part of docs/BENCH.md that holds all tables: everything between the two marks is made anew, the rest stays.

use crate::sheet::{Row, Sheet};
use std::fmt::Write;
use std::fs;
use std::path::Path;

const BEGIN: &str = "<!-- from here to the end mark: made by tools/bench -->";
const END: &str = "<!-- end of what tools/bench makes -->";

/// Nanoseconds with three digits that say something.
pub fn ns(t: f64) -> String {
    if t < 100.0 { format!("{t:.1}") } else { format!("{t:.0}") }
}

pub fn table(sheet: &Sheet) -> String {
    if sheet.rows.is_empty() {
        return String::new();
    }
    let mut out = String::from(
        "| call | keys | key bytes | ours ns | Rust ns | ratio | ours 5% | Rust 5% | ratio 5% |\n|---|--:|--:|--:|--:|--:|--:|--:|--:|\n",
    );
    for (call, rows) in sheet.by_call() {
        for r in rows {
            let (a, b) = (ns(r.ours.fast), ns(r.rust.fast));
            let (keys, len, fast) = (r.keys, r.key_len, r.fast_ratio());
            writeln!(
                out,
                "| {call} | {keys} | {len} | {} | {} | **{:.2}** | {a} | {b} | {fast:.2} |",
                ns(r.ours.median),
                ns(r.rust.median),
                r.ratio()
            )
            .unwrap();
        }
    }
    let lookups: Vec<&Row> = sheet.rows.iter().filter(|r| !r.others.is_empty()).collect();
    if let Some(first) = lookups.first() {
        let names: Vec<&str> = first.others.iter().map(|(name, _)| name.as_str()).collect();
        writeln!(out, "\nThe same lookups in what one might pick instead, median nanoseconds:\n")
            .unwrap();
        writeln!(
            out,
            "| keys | key bytes | ours | Rust | {} |\n|--:|--:|--:|--:|{}",
            names.join(" | "),
            "--:|".repeat(names.len())
        )
        .unwrap();
        for r in lookups {
            let others: Vec<String> = r.others.iter().map(|(_, t)| ns(t.median)).collect();
            writeln!(
                out,
                "| {} | {} | {} | {} | {} |",
                r.keys,
                r.key_len,
                ns(r.ours.median),
                ns(r.rust.median),
                others.join(" | ")
            )
            .unwrap();
        }
    }
    out
}

/// The machine, as far as /proc tells.
fn machine() -> String {
    let info = fs::read_to_string("/proc/cpuinfo").unwrap_or_default();
    let field = |name: &str| {
        info.lines()
            .find(|l| l.starts_with(name))
            .and_then(|l| l.split(": ").nth(1))
            .unwrap_or("unknown")
            .to_string()
    };
    let cores = info.lines().filter(|l| l.starts_with("processor")).count();
    let load = fs::read_to_string("/proc/loadavg").unwrap_or_default();
    format!(
        "{} ({cores} cores), load at the end {}",
        field("model name"),
        load.split(' ').next().unwrap_or("unknown")
    )
}

/// Which library was timed. Only tools/bench knows that it has just been proved, and says so; any other is one that was found.
fn library() -> &'static str {
    match std::env::var_os("BENCH_PROVED") {
        Some(_) => "proved and built by this command (`tools/archive`)",
        None => "one that was found, NOT proved by this command",
    }
}

pub fn write(tables: &str, svg: &str) {
    let docs = Path::new(env!("CARGO_MANIFEST_DIR")).join("../../docs");
    let file = docs.join("BENCH.md");
    let old = fs::read_to_string(&file)
        .unwrap_or_else(|_| format!("# Times beside the Rust\n\n{BEGIN}\n{END}\n"));
    let (Some((before, rest)), Some((_, after))) = (old.split_once(BEGIN), old.split_once(END))
    else {
        panic!("{} has lost its marks", file.display());
    };
    assert!(rest.contains(END), "{}: the marks stand the wrong way round", file.display());
    let picture =
        "![Ratios to the Rust for every call, and lookups beside LMDB and SQLite](bench.svg)";
    fs::write(
        &file,
        format!(
            "{before}{BEGIN}\n\nMachine: {}. Library: {}.\n\n{picture}\n\n{tables}\n{END}{after}",
            machine(),
            library()
        ),
    )
    .expect("docs/BENCH.md");
    fs::write(docs.join("bench.svg"), svg).expect("docs/bench.svg");
    eprintln!("docs/BENCH.md and docs/bench.svg are written");
}

//! `compare`: the library beside the oracle on many cases. tools/compare builds and runs it.

use std::io::{IsTerminal, Write};
use std::process::ExitCode;
use std::time::{Duration, Instant};

use differential::case::Case;
use differential::run::{Count, Runner, script_of};
use differential::shrink::shrink;
use differential::{Fault, edges, make, script, stops};

const HELP: &str = "\
Compares the proved library with the oracle: every answer and every byte must be equal.

    tools/compare [--cases N] [--minutes M] [--seed S] [--first K]
    tools/compare --script FILE      the cases of a script (tests/vectors/*.txt, or a reproducer)
    tools/compare --print --seed S --first K     one case as a script, not run
    tools/compare --forked --seed S --first K    one case made small in children, for a library that stops

    --cases N     how many random cases (default 12000), before the edge cases
    --minutes M   as many as fit the time, instead of --cases
    --seed S      another seed gives other cases (default 1)
    --first K     begin with case K, without the edge cases
Ends with 0 where all is equal, 1 at the first difference, 2 where the arguments are wrong.";

struct Args {
    cases: u64,
    minutes: Option<f64>,
    seed: u64,
    first: Option<u64>,
    script: Option<String>,
    print: bool,
    forked: bool,
}

fn args() -> Result<Args, String> {
    let mut args = Args {
        cases: 12000,
        minutes: None,
        seed: 1,
        first: None,
        script: None,
        print: false,
        forked: false,
    };
    let mut words = std::env::args().skip(1);
    while let Some(word) = words.next() {
        if word == "--help" || word == "-h" {
            println!("{HELP}");
            std::process::exit(0);
        }
        if word == "--print" || word == "--forked" {
            args.print |= word == "--print";
            args.forked |= word == "--forked";
            continue;
        }
        let value = words.next().ok_or(format!("{word} wants a value, or is unknown"))?;
        let number = || value.parse::<u64>().map_err(|_| format!("{word}: no number: {value}"));
        match word.as_str() {
            "--cases" => args.cases = number()?,
            "--seed" => args.seed = number()?,
            "--first" => args.first = Some(number()?),
            "--minutes" => {
                args.minutes =
                    Some(value.parse().map_err(|_| format!("--minutes: no number: {value}"))?);
            }
            "--script" => args.script = Some(value),
            _ => return Err(format!("unknown: {word}")),
        }
    }
    Ok(args)
}

fn main() -> ExitCode {
    let args = match args() {
        Ok(args) => args,
        Err(wrong) => {
            eprintln!("{wrong}\n\n{HELP}");
            return ExitCode::from(2);
        }
    };
    match if args.forked { forked(&args) } else { compare(&args) } {
        Ok(true) => ExitCode::SUCCESS,
        Ok(false) => ExitCode::from(1),
        Err(wrong) => {
            eprintln!("{wrong}");
            ExitCode::from(2)
        }
    }
}

/// Whether all was equal.
fn compare(args: &Args) -> Result<bool, String> {
    let first = args.first.unwrap_or(0);
    let mut runner = Runner::new(Fault::None);
    if args.print {
        print!("{}", script_of(&make::case(args.seed, first)));
        return Ok(true);
    }
    let mut progress = Progress::new();
    if let Some(file) = &args.script {
        let text = std::fs::read_to_string(file).map_err(|wrong| format!("{file}: {wrong}"))?;
        for case in script::read(&text).map_err(|wrong| format!("{file}: {wrong}"))? {
            if !equal(&mut runner, case, &format!("of {file}")) {
                return Ok(false);
            }
            progress.line(&runner.count, false);
        }
    } else {
        stops::watch();
        let end =
            args.minutes.map(|minutes| Instant::now() + Duration::from_secs_f64(60.0 * minutes));
        let more = |n: u64| end.map_or(n - first < args.cases, |end| Instant::now() < end);
        let mut n = first;
        while more(n) {
            stops::name_case(args.seed, n);
            let name = format!("tools/compare --seed {} --first {n} --cases 1", args.seed);
            if !equal(&mut runner, make::case(args.seed, n), &name) {
                return Ok(false);
            }
            progress.line(&runner.count, false);
            n += 1;
        }
        // these last: a difference in a random case is sooner small
        if args.first.is_none() {
            for (k, case) in edges::cases().into_iter().enumerate() {
                stops::name_case(args.seed, EDGES);
                if !equal(&mut runner, case, &format!("edge case {k}")) {
                    return Ok(false);
                }
                progress.line(&runner.count, false);
            }
        }
    }
    progress.line(&runner.count, true);
    summary(&runner.count, progress.began.elapsed());
    Ok(true)
}

/// Runs a case; a difference is made small and shown.
fn equal(runner: &mut Runner, case: Case, name: &str) -> bool {
    let first = runner.run(&case);
    stops::rest();
    let Some(first) = first else { return true };
    println!("\nDIFFERENCE in {} ({name}): {}, {}", first.call, case.kind, first.what);
    println!("making it smaller ..");
    let mut quiet = Runner::new(Fault::None);
    let hook = std::panic::take_hook();
    std::panic::set_hook(Box::new(|_| {}));
    let small = shrink(case, Duration::from_secs(60), |case| quiet.run(case).is_some());
    std::panic::set_hook(hook);
    let (difference, script) = quiet.tell(&small);
    let difference = difference.expect("the smaller case still differs");
    println!(
        "\n# replay: save these lines and run tools/compare --script FILE, or rust/target/release/oracle run FILE"
    );
    print!("{script}");
    println!("# {}: {}", difference.call, difference.what);
    println!("# ours:   {}", difference.ours.trim_end().replace('\n', "\n#         "));
    println!("# judge:  {}", difference.judge.trim_end().replace('\n', "\n#         "));
    false
}

/// One case that made the library stop, made small with every attempt in a child of its own.
fn forked(args: &Args) -> Result<bool, String> {
    let first = args.first.unwrap_or(0);
    let case = if first == EDGES { edges::cases() } else { vec![make::case(args.seed, first)] };
    let differs = |case: &Case| stops::forked(|| Runner::new(Fault::None).run(case).is_some());
    let Some(case) = case.into_iter().find(&differs) else { return Ok(true) };
    println!("making it smaller ..");
    let small = shrink(case, Duration::from_secs(60), differs);
    println!(
        "\n# the library stops at the last line, or answers wrongly; to see it: tools/compare --script FILE"
    );
    print!("{}", script_of(&small));
    Ok(false)
}

/// The number that stands for the edge cases where a case is named.
const EDGES: u64 = u64::MAX;

struct Progress {
    began: Instant,
    last: Instant,
    terminal: bool,
}

impl Progress {
    fn new() -> Self {
        let now = Instant::now();
        Progress { began: now, last: now, terminal: std::io::stderr().is_terminal() }
    }

    /// A line over itself on a terminal, else one every ten seconds.
    fn line(&mut self, count: &Count, last: bool) {
        if last && !self.terminal {
            return;
        }
        let every =
            if self.terminal { Duration::from_millis(500) } else { Duration::from_secs(10) };
        if !last && self.last.elapsed() < every {
            return;
        }
        self.last = Instant::now();
        let seconds = self.began.elapsed().as_secs_f64();
        let rate = count.cases as f64 / seconds;
        let (start, end) =
            if self.terminal { ("\r", if last { "\n" } else { "" }) } else { ("", "\n") };
        eprint!(
            "{start}compare: {} cases, {} questions, {seconds:.0} s, {rate:.0} cases/s, all equal{end}",
            count.cases, count.questions
        );
        let _ = std::io::stderr().flush();
    }
}

fn summary(count: &Count, took: Duration) {
    let list = |counts: &std::collections::BTreeMap<&'static str, u64>| {
        counts.iter().map(|(name, n)| format!("{name} {n}")).collect::<Vec<_>>().join(", ")
    };
    println!("cases: {}", list(&count.kinds));
    println!("calls: {}", list(&count.calls()));
    let numbers: Vec<String> = (1..=10).map(|n| format!("{n}: {}", count.with(n))).collect();
    println!("answered {}, refused by number {}", count.with(0), numbers.join(", "));
    println!(
        "compare: {} cases, {} questions (mace's Rust asked {} times beside the model, {} rows as of a version and ranges picked from the list), {:.1} s, {:.0} cases/s: all answers and all bytes equal",
        count.cases,
        count.questions,
        count.rust,
        count.picked,
        took.as_secs_f64(),
        count.cases as f64 / took.as_secs_f64()
    );
}

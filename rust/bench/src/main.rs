//! This library, called through its C interface, beside the Rust (sst.rs, BaseIter, BaseRevIter, base.rs) and two databases in one run:
//! the same pages, the same probes in the same order, warmed alike, rounds in turn. `tools/bench` builds and runs it and writes
//! docs/BENCH.md and docs/bench.svg; `--print` only prints, `--only WORD` times the calls whose name has the word (`growth`
//! and `hostile` are tables of their own). `--season` prints what the two named budgets of a history page cost instead.

mod builds;
mod growth;
mod hostile;
mod lookups;
mod others;
mod plot;
mod report;
mod season;
mod sheet;
mod walks;

use bench::cases::{Case, LONG, SHORT};
use sheet::Sheet;

fn main() {
    let args: Vec<String> = std::env::args().skip(1).collect();
    if args.iter().any(|a| a == "--season") {
        return season::print();
    }
    let only = args
        .iter()
        .position(|a| a == "--only")
        .and_then(|i| args.get(i + 1))
        .cloned()
        .unwrap_or_default();
    let wanted = |name: &str| name.contains(&only);
    let mut sheet = Sheet::new(&wanted);
    for key_len in [SHORT, LONG] {
        for n in [100, 1_000, 10_000] {
            let case = Case::new(n, key_len);
            lookups::rows(&case, &mut sheet);
            walks::rows(&case, &mut sheet);
            builds::rows(&case, &mut sheet);
        }
    }
    let mut tables = report::table(&sheet);
    if wanted("growth") {
        tables += &growth::table();
    }
    if wanted("hostile") {
        tables += &hostile::table();
    }
    print!("{tables}");
    if !args.iter().any(|a| a == "--print") {
        report::write(&tables, &plot::svg(&sheet));
    }
}

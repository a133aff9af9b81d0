//! What a budget costs: one key with 1,200 old rows of 100 bytes, its history pages at the default budget and at the Rust's, side by side.
//! `tools/bench --season` prints the table of docs/notes/order-2.md.

use bench::timing::{Contestant, Time, race};
use cresttrestle::{Addr, Arena, Bounds, Build, Ver, View};
use oracle::list::{self, Entry};
use std::time::Duration;

const OLD: u64 = 1_200;
const KEY: &[u8] = b"k";
const EACH: Duration = Duration::from_millis(800);

struct Page {
    build: Build,
    bytes: Vec<u8>,
    leaf: Addr,
}

impl Page {
    fn new(list: &[u8], budget: u64) -> Self {
        let build = Build { limit: 512, budget, ..Build::default() };
        let mut bytes = vec![0; 200_000];
        let leaf = Arena::new(&mut bytes).new_leaf(list, Bounds::default(), build);
        let leaf = leaf.expect("the list is good and the arena large");
        Page { build, bytes, leaf }
    }

    /// Records and size of each history page, from its header.
    fn history(&self) -> Vec<(u64, u64)> {
        let number = |at: usize, n: usize| {
            self.bytes[at..at + n].iter().rev().fold(0, |sum, &b| sum << 8 | u64::from(b))
        };
        let pages = self.page().history_hints().expect("a sound page");
        let heads = pages.map(|page| page.get() as usize + 32);
        heads.map(|at| (number(at + 4, 2), number(at, 4))).collect()
    }

    fn page(&self) -> cresttrestle::Page<'_> {
        View::new(&self.bytes).page(self.leaf)
    }

    fn as_of(&self) -> u64 {
        let row = |txid| self.page().as_of(KEY, Ver::of_txid(txid)).expect("a sound page");
        (1..=OLD).map(|txid| row(txid).expect("it is there").ver.txid).sum()
    }

    fn walk(&self) -> u64 {
        let rows = self.page().walk(..).expect("a sound page").rows();
        rows.map(|row| row.expect("a sound page").value.len() as u64).sum()
    }

    fn build(&mut self, list: &[u8]) -> u64 {
        let built = Arena::new(&mut self.bytes).new_leaf(list, Bounds::default(), self.build);
        u64::from(built == Ok(self.leaf))
    }
}

/// Prints a line for each budget.
pub fn print() {
    let value = [7; 100];
    let row = |txid, value| Entry { key: KEY, txid, cmd: 0, value };
    let mut entries = vec![row(OLD + 1, &[][..])];
    entries.extend((1..=OLD).rev().map(|txid| row(txid, &value[..])));
    let list = list::write_entries(&entries);
    let [mut small, mut large] =
        [Build::HIST_PAGE_BUDGET, Build::RUST_HIST_PAGE_BUDGET].map(|b| Page::new(&list, b));
    let time = |calls, a: Contestant, b: Contestant| race(calls, EACH, &mut [a, b]);
    let as_of = time(OLD as usize, &mut |_| small.as_of(), &mut |_| large.as_of());
    let walk = time(1, &mut |_| small.walk(), &mut |_| large.walk());
    let build = time(1, &mut |_| small.build(&list), &mut |_| large.build(&list));
    println!(
        "| budget | history pages: records, size | bytes of the page of an old row: mean, most | build µs | as of ns | walk µs |\n|--:|---|--:|--:|--:|--:|"
    );
    for (i, page) in [small, large].iter().enumerate() {
        let history = page.history();
        let each: Vec<String> = history.iter().map(|(n, size)| format!("{n} in {size}")).collect();
        let read: u64 = history.iter().map(|(n, size)| n * size).sum();
        let most = history.iter().map(|page| page.1).max().expect("it has old rows");
        let of = |times: &[Time], unit: f64| format!("{:.1}", times[i].median / unit);
        println!(
            "| {} | {} | {}, {most} | {} | {} | {} |",
            page.build.budget,
            each.join("; "),
            read / OLD,
            of(&build, 1e3),
            of(&as_of, 1.0),
            of(&walk, 1e3)
        );
    }
}

//! Random cases. Case n of a seed is the same everywhere. Each kind aims at one part of document 01; inputs stand at its edges as
//! often as not: values around the limit, history pages around the budget, arenas around the room that a build needs.

use oracle::answer::Stamp;
use oracle::image::{self, Item};
use oracle::judge::{HIST_PAGE_BUDGET, MAX_BUDGET, MAX_KEY, MIN_BUDGET};
use oracle::list::Child;
use oracle::prng::Prng;
use oracle::sample::{self, Row};
use oracle::upstream::RUST_HIST_PAGE_BUDGET;

use crate::case::{At, Case, List, Next, Op, Place, Read, Sizes};
use crate::theirs::{bounds, entry};

/// Case n of a seed.
pub fn case(seed: u64, n: u64) -> Case {
    let mut rng =
        Prng::new(seed.wrapping_mul(0x9e37_79b9_7f4a_7c15) ^ n.wrapping_mul(0xd1b5_4a32_d192_ed03));
    rng.number();
    let mut make = Make { rng, ops: Vec::new(), names: 0 };
    let (kind, len): (_, fn(&mut Make) -> usize) = match make.rng.below(21) {
        0..=4 => ("leaf", Make::leaf_case),
        5 | 6 => ("index", Make::index_case),
        7..=10 => ("merge", Make::merge_case),
        11 | 12 => ("delta", Make::delta_case),
        13..=15 => ("refused", Make::refused_case),
        16 => ("large", Make::large_case),
        17 => ("noise", Make::noise_case),
        18 => ("history", Make::history_case),
        _ => ("damaged", Make::damaged_case),
    };
    let len = len(&mut make);
    let (fill, at_start) = (make.rng.pick(&[0, 0xff, 0x5a, 1]), make.rng.once_in(4));
    Case { kind, len, fill, at_start, ops: make.ops }
}

/// A page that was built: what it is named, and what to ask it about.
#[derive(Clone)]
struct Page {
    at: At,
    index: bool,
    prefix: Vec<u8>,
    keys: Vec<Vec<u8>>,
    /// A leaf's rows.
    rows: Vec<Row>,
}

/// Where a leaf built at 8 ends, from the oracle.
fn leaf_end(sizes: Sizes, place: &Place, rows: &[Row]) -> usize {
    let items: Vec<Item> = rows.iter().map(|row| Item::arriving(&entry(row))).collect();
    let (limit, budget) = (sizes.limit as usize, sizes.budget as usize);
    8 + image::leaf_sizes(limit, budget, &bounds(place), &items).frames
}

/// Where an index page built at 8 ends.
fn index_end(place: &Place, children: &[(Vec<u8>, u64)]) -> usize {
    let lent: Vec<Child<'_>> = children.iter().map(|(key, pid)| Child { key, pid: *pid }).collect();
    8 + image::rounded(image::index_size(&bounds(place), &lent))
}

struct Make {
    rng: Prng,
    ops: Vec<Op>,
    names: usize,
}

impl Make {
    fn name(&mut self) -> usize {
        self.names += 1;
        self.names
    }

    fn stamp(&mut self) -> Stamp {
        let rng = &mut self.rng;
        let mut number = || match rng.below(5) {
            0 => 0,
            1 => u64::MAX,
            2 => rng.number(),
            _ => rng.below(100_000) as u64,
        };
        let (txid, lsn, checkpoint) = (number(), number(), number());
        Stamp { txid, group: rng.number() as u8, lsn, checkpoint }
    }

    fn limit(&mut self) -> usize {
        self.rng.pick(&[1, 2, 5, 8, 9, 16, 40, 64, 64, 65, 300, 1000])
    }

    fn budget(&mut self) -> u64 {
        match self.rng.below(5) {
            0 | 1 => MIN_BUDGET,
            2 => self.named_budget(),
            _ => self.rng.between(256, 900) as u64,
        }
    }

    /// The default, or the Rust's.
    fn named_budget(&mut self) -> u64 {
        self.rng.pick(&[HIST_PAGE_BUDGET, RUST_HIST_PAGE_BUDGET as u64])
    }

    /// Boundaries that rise, mostly with the prefix in common.
    fn place(&mut self, prefix: &[u8]) -> Place {
        let (lo, hi) = sample::bounds(&mut self.rng, prefix);
        let sibling = if self.rng.once_in(2) { 0 } else { self.rng.number() };
        Place { sibling, lo, hi }
    }

    /// Keys that lie between the boundaries, many at their edges.
    fn keys(&mut self, place: &Place, most: usize) -> Vec<Vec<u8>> {
        let count = self.rng.below(most + 1);
        let mut keys = sample::keys_between(&mut self.rng, &place.lo, &place.hi, count);
        // a key of the greatest length
        let longest = [&place.lo[..], &vec![0x61; MAX_KEY - place.lo.len()]].concat();
        if self.rng.once_in(30) && bounds(place).hold(&longest) {
            keys.push(longest);
            keys.sort();
            keys.dedup();
        }
        keys
    }

    /// Rows of the keys; now and then the old versions fill a history page to the byte, or miss it by one.
    fn rows(&mut self, keys: &[Vec<u8>], limit: usize, budget: u64) -> Vec<Row> {
        let most = self.rng.pick(&[1, 2, 5, 5, 30]);
        let mut rows = sample::rows(&mut self.rng, keys, most, limit);
        if budget <= 900 && self.rng.once_in(3) && !keys.is_empty() {
            let key = self.rng.pick(keys);
            rows.retain(|row| row.key != key);
            let mut versions = vec![0, 3, 40];
            // 40, then 12 + value size + 4 for each: an inline value of n has size 5 + n
            let total = 40 + versions[1..].iter().map(|n| 21 + n).sum::<usize>();
            let last = budget as usize - total - 21 + self.rng.below(3) - 1;
            if last < limit {
                versions.push(last);
            }
            let newest = 500 + self.rng.below(9) as u64;
            let at = rows.partition_point(|row| row.key < key);
            let new: Vec<Row> = (0..)
                .zip(versions)
                .map(|(k, len)| Row {
                    key: key.clone(),
                    txid: newest - k,
                    cmd: 1,
                    value: sample::filling(&mut self.rng, len),
                })
                .collect();
            rows.splice(at..at, new);
        }
        rows
    }

    fn build_leaf(&mut self, next: Next, sizes: Sizes, place: Place, rows: Vec<Row>) -> At {
        let (name, stamp) = (self.name(), self.stamp());
        self.ops.push(Op::Leaf { name, next, sizes, stamp, place, list: List::Rows(rows) });
        At::Built(name)
    }

    fn build_index(&mut self, next: Next, place: Place, children: Vec<(Vec<u8>, u64)>) -> At {
        let (name, stamp) = (self.name(), self.stamp());
        self.ops.push(Op::Index { name, next, stamp, place, list: List::Children(children) });
        At::Built(name)
    }

    fn merge(&mut self, left: At, right: At, sizes: Sizes) -> At {
        let (name, stamp) = (self.name(), self.stamp());
        self.ops.push(Op::Merge { name, next: Next::Free, sizes, stamp, left, right });
        At::Built(name)
    }

    fn read(&mut self, at: At, read: Read) {
        self.ops.push(Op::Ask { at, read });
    }

    fn children(&mut self, keys: &[Vec<u8>]) -> Vec<(Vec<u8>, u64)> {
        let pid = |rng: &mut Prng| if rng.once_in(8) { 0 } else { rng.number() };
        keys.iter().map(|key| (key.clone(), pid(&mut self.rng))).collect()
    }

    /// Every reader on a page: what it holds, what it does not, and positions inside and outside.
    fn ask(&mut self, page: &Page, probes: usize) {
        let elems = page.keys.len();
        for read in
            [Read::Check, Read::Info, Read::Hints, Read::Walk { begin: 0, end: elems as u64 }]
        {
            self.read(page.at, read);
        }
        self.read(page.at, Read::Back { start: elems as i64 - 1, end: 0 });
        for _ in 0..2 {
            let (a, b) = (self.position(elems), self.position(elems));
            self.read(page.at, Read::Walk { begin: a, end: b });
            self.read(
                page.at,
                Read::Back { start: (a as i64).wrapping_sub(1), end: (b as i64).wrapping_sub(1) },
            );
        }
        let probes = sample::probes(&mut self.rng, &page.prefix, &page.keys, probes);
        for (k, probe) in probes.iter().enumerate() {
            let probe = self.probe(probe.clone(), page.prefix.len());
            let (txid, cmd) = self.version();
            self.read(page.at, Read::Lower { key: probe.clone(), txid, cmd });
            if page.index != self.rng.once_in(20) {
                self.read(page.at, Read::Floor { key: probe.clone() });
            } else {
                self.read(page.at, Read::Search { key: probe.clone() });
                let (txid, cmd) = self.version();
                self.read(page.at, Read::AsOf { key: probe.clone(), txid, cmd });
            }
            if k % 3 == 0 {
                let other = self.rng.pick(&probes);
                let other = self.probe(other, page.prefix.len());
                let from = (!self.rng.once_in(6)).then_some(probe);
                let to = (!self.rng.once_in(6)).then_some(other);
                self.read(page.at, Read::Range { from, to });
            }
        }
        if self.rng.once_in(6) {
            self.read(page.at, Read::Delta);
        }
        if !page.rows.is_empty() {
            self.ask_versions(page);
        }
    }

    /// A key as of its versions, of several where they are many: at each, just above it and just below; and as of the least and the
    /// largest. A row is drawn, not a key, so that keys with many versions come often.
    fn ask_versions(&mut self, page: &Page) {
        let key = self.rng.pick(&page.rows).key;
        let all: Vec<(u64, u32)> =
            page.rows.iter().filter(|row| row.key == key).map(|row| (row.txid, row.cmd)).collect();
        let mut versions = vec![(0, 0), (u64::MAX, u32::MAX)];
        let some = all.iter().step_by(all.len().div_ceil(4));
        for &(txid, cmd) in some.chain(all.last().filter(|_| all.len() > 4)) {
            let below = if cmd > 0 { (txid, cmd - 1) } else { (txid - 1, u32::MAX) };
            let above = if cmd < u32::MAX { (txid, cmd + 1) } else { (txid + 1, 0) };
            versions.extend([(txid, cmd), below, above]);
        }
        for (txid, cmd) in versions {
            self.read(page.at, Read::AsOf { key: key.clone(), txid, cmd });
        }
    }

    /// A probe as it is, or without its beginning: below, above, beside the prefix, too short for it.
    fn probe(&mut self, mut probe: Vec<u8>, prefix: usize) -> Vec<u8> {
        let prefix = prefix.min(probe.len());
        match self.rng.below(16) {
            0 => probe.truncate(self.rng.below(prefix + 1)),
            1 if prefix > 0 => {
                let at = self.rng.below(prefix);
                probe[at] = probe[at].wrapping_add(self.rng.pick(&[1, 255]));
            }
            2 => probe = vec![0xff; self.rng.below(12)],
            3 => {
                let len = self.rng.below(12);
                probe = self.rng.bytes(len);
            }
            4 if self.rng.once_in(8) => probe.resize(5000, 0x61),
            _ => {}
        }
        probe
    }

    /// A version of a probe: the largest, the least, or about those of `sample::rows`.
    fn version(&mut self) -> (u64, u32) {
        match self.rng.below(4) {
            0 => (u64::MAX, u32::MAX),
            1 => (0, 0),
            _ => {
                let txid = self.rng.pick(&[999_990, 1_000_000, 1_000_500, 500])
                    + self.rng.below(20) as u64;
                (txid, self.rng.pick(&[0, 1, 2, 3, 7, u32::MAX]))
            }
        }
    }

    fn position(&mut self, elems: usize) -> u64 {
        match self.rng.below(8) {
            0 => elems as u64 + 1,
            1 => self.rng.pick(&[u64::MAX, 1 << 63, 65_535, 65_536, 1 << 32]),
            _ => self.rng.below(elems + 1) as u64,
        }
    }

    fn sizes(&mut self) -> Sizes {
        Sizes { limit: self.limit() as u64, budget: self.budget() }
    }

    // -----------------------------------------------------------------------------------------
    // Kinds of case; each gives the arena's length

    fn leaf_page(&mut self, most: usize) -> Page {
        let prefix = sample::prefix(&mut self.rng);
        let (place, sizes) = (self.place(&prefix), self.sizes());
        let keys = self.keys(&place, most);
        let rows = self.rows(&keys, sizes.limit as usize, sizes.budget);
        let at = self.build_leaf(Next::Free, sizes, place, rows.clone());
        Page { at, index: false, prefix, keys, rows }
    }

    fn leaf_case(&mut self) -> usize {
        let page = self.leaf_page(20);
        self.ask(&page, 8);
        if self.rng.once_in(4) {
            // a second page behind it; the first stays what it was
            let other = self.leaf_page(6);
            self.ask(&other, 2);
            self.read(page.at, Read::Check);
            self.read(page.at, Read::Walk { begin: 0, end: page.keys.len() as u64 });
        }
        self.length()
    }

    fn index_case(&mut self) -> usize {
        let prefix = sample::prefix(&mut self.rng);
        let place = self.place(&prefix);
        let keys = self.keys(&place, 40);
        let children = self.children(&keys);
        let left = self.build_index(Next::Free, place.clone(), children);
        let index = |at, prefix: &[u8], keys: &[Vec<u8>]| Page {
            at,
            index: true,
            prefix: prefix.to_vec(),
            keys: keys.to_vec(),
            rows: Vec::new(),
        };
        self.ask(&index(left, &prefix, &keys), 8);
        if self.rng.once_in(2) {
            // merged with its neighbour, or now and then with a page from anywhere
            let meets = !place.hi.is_empty() && !self.rng.once_in(4);
            let right = Place { hi: Vec::new(), lo: place.hi, sibling: 1 };
            let right = if meets { right } else { self.place(&prefix) };
            let more = self.keys(&right, 4);
            let children = self.children(&more);
            let right_at = self.build_index(Next::Free, right, children);
            let sizes = self.sizes();
            let at = self.merge(left, right_at, sizes);
            self.ask(&index(at, &prefix, &[keys, more].concat()), 6);
        }
        self.length()
    }

    /// Two or three neighbours, merged in every grouping; now and then pages whose boundaries do not meet.
    fn merge_case(&mut self) -> usize {
        let prefix = sample::prefix(&mut self.rng);
        let outer = self.place(&prefix);
        let keys = self.keys(&outer, 12);
        let one_size = self.sizes();
        let same = self.rng.once_in(2);
        let all = self.rows(&keys, one_size.limit as usize, one_size.budget);
        let most = self.rng.between(1, 2);
        let sides = if self.rng.once_in(5) {
            self.apart(&outer, &all, most + 1)
        } else {
            let cuts = sample::cuts(&mut self.rng, &outer.lo, &outer.hi, &keys, most);
            let parted = sample::parted(&outer.lo, &outer.hi, &cuts, &all, |row| &row.key);
            let place = |(sibling, (lo, hi, rows)): (u64, (&[u8], &[u8], _))| {
                (Place { sibling, lo: lo.to_vec(), hi: hi.to_vec() }, rows)
            };
            (0..).zip(parted).map(place).collect()
        };
        let parts = sides.len();
        let mut pages = Vec::new();
        for (place, rows) in sides {
            let sizes = if same { one_size } else { self.sizes() };
            pages.push(self.build_leaf(Next::Free, sizes, place, rows));
        }
        let mut sizes = || if same { one_size } else { self.sizes() };
        let groupings = [sizes(), sizes(), sizes(), sizes(), sizes()];
        let mut merged = vec![self.merge(pages[0], pages[1], groupings[0])];
        if parts == 3 {
            let left_first = self.merge(merged[0], pages[2], groupings[1]);
            let right = self.merge(pages[1], pages[2], groupings[2]);
            let right_first = self.merge(pages[0], right, groupings[3]);
            merged.extend([left_first, right_first]);
        }
        for &at in &merged {
            let (prefix, keys, rows) = (prefix.clone(), keys.clone(), all.clone());
            self.ask(&Page { at, index: false, prefix, keys, rows }, 3);
        }
        if self.rng.once_in(3) {
            self.merge(pages[1], pages[0], groupings[4]);
        }
        // once more with an empty neighbour or an empty page without boundaries, or the wrong way round, or with itself
        let again = match self.rng.below(5) {
            0 => {
                let place = Place { sibling: 9, lo: outer.hi, hi: Vec::new() };
                self.build_leaf(Next::Free, groupings[4], place, Vec::new())
            }
            4 => self.build_leaf(Next::Free, groupings[4], Place::default(), Vec::new()),
            1 => pages[0],
            2 => merged[0],
            _ => pages[pages.len() - 1],
        };
        let last = self.merge(merged[merged.len() - 1], again, groupings[4]);
        self.read(last, Read::Check);
        self.read(last, Read::Info);
        self.read(pages[0], Read::Check);
        self.length()
    }

    /// Pages of rows cut at any row, also inside the versions of a key. Each page has the outer boundaries or none, so that its keys lie
    /// between them; two such pages never meet.
    fn apart(&mut self, outer: &Place, rows: &[Row], parts: usize) -> Vec<(Place, Vec<Row>)> {
        let mut rows = rows.to_vec();
        let mut pages = Vec::new();
        for k in 0..parts {
            let take = if k + 1 == parts { rows.len() } else { self.rng.below(rows.len() + 1) };
            let rest = rows.split_off(take);
            let part = std::mem::replace(&mut rows, rest);
            let (no_lo, no_hi) =
                (k > 0 && self.rng.once_in(2), k + 1 < parts && self.rng.once_in(2));
            let lo = if no_lo { Vec::new() } else { outer.lo.clone() };
            let hi = if no_hi { Vec::new() } else { outer.hi.clone() };
            pages.push((Place { sibling: k as u64, lo, hi }, part));
        }
        pages
    }

    fn delta_row(&mut self, key: Vec<u8>, limit: usize) -> Row {
        let len = sample::value_len(&mut self.rng, limit);
        let (txid, cmd) = (999_990 + self.rng.below(1020) as u64, self.rng.below(4) as u32);
        Row { key, txid, cmd, value: sample::filling(&mut self.rng, len) }
    }

    fn delta_case(&mut self) -> usize {
        let page = self.leaf_page(6);
        let limit = self.limit();
        for _ in 0..2 {
            let key = sample::probes(&mut self.rng, &page.prefix, &page.keys, 1).remove(0);
            let key = self.probe(key, page.prefix.len());
            let (row, stamp) = (self.delta_row(key.clone(), limit), self.stamp());
            self.ops.push(Op::Lay { limit: limit as u64, stamp, row: row.clone() });
            let mut probes = sample::probes(&mut self.rng, &page.prefix, &page.keys, 4);
            probes.push(key.clone());
            for probe in probes {
                let key = self.probe(probe, page.prefix.len());
                self.read(page.at, Read::Overlay { delta: At::Laid, key });
            }
            // in the page's own arena, and read where it stands
            let (name, stamp) = (self.name(), self.stamp());
            self.ops.push(Op::LeafDelta {
                name,
                next: Next::Free,
                limit: limit as u64,
                stamp,
                row,
            });
            self.read(At::Built(name), Read::Delta);
            let (name, stamp, pid) =
                (self.name(), self.stamp(), self.rng.number() >> self.rng.below(64));
            self.ops.push(Op::IndexDelta { name, next: Next::Free, stamp, key, pid });
            self.read(At::Built(name), Read::Delta);
            self.read(At::Built(name), Read::Info);
        }
        let (lo, hi) = sample::bounds(&mut self.rng, &page.prefix);
        self.ops.push(Op::Common { lo, hi });
        self.length()
    }

    /// A page of hundreds or thousands of keys: halvings with many steps.
    fn large_case(&mut self) -> usize {
        let count = self.rng.pick(&[100, 255, 256, 257, 400, 1000, 2000]);
        let prefix = sample::prefix(&mut self.rng);
        let mut keys: Vec<Vec<u8>> = (0..count)
            .map(|_| {
                let n = self.rng.below(60_000) as u32;
                [&prefix[..], &n.to_be_bytes()[self.rng.below(3)..]].concat()
            })
            .collect();
        keys.sort();
        keys.dedup();
        // boundaries as near as can be, or far, or none
        let last = [&keys[keys.len() - 1][..], &[0]].concat();
        let lo = self.rng.pick(&[keys[0].clone(), prefix.clone(), Vec::new()]);
        let hi = self.rng.pick(&[last, [&prefix[..], &[0xff]].concat(), Vec::new()]);
        let place = Place { sibling: 0, lo, hi };
        let (at, index, rows) = if self.rng.once_in(2) {
            let children = self.children(&keys);
            (self.build_index(Next::Free, place, children), true, Vec::new())
        } else {
            let sizes = self.sizes();
            let row = |key: &Vec<u8>| {
                let value = key[key.len() - 2..].to_vec();
                Row { key: key.clone(), txid: 1_000_000, cmd: 1, value }
            };
            let rows: Vec<Row> = keys.iter().map(row).collect();
            (self.build_leaf(Next::Free, sizes, place, rows.clone()), false, rows)
        };
        self.ask(&Page { at, index, prefix, keys, rows }, 6);
        262_144
    }

    /// Old versions of one key that fill two history pages to the byte, or miss it by one, and begin a third.
    fn long_history(&mut self, key: &[u8], budget: u64) -> Vec<Row> {
        let a_page = self.rng.pick(&[1, 2, 3, 7, 1000]);
        // 40, then 12 + value size + 4 for each: an inline value of n has size 5 + n
        let most = (budget as usize - 40) / a_page;
        let len = (most + self.rng.below(3)).saturating_sub(22).min(65_535);
        let count = 2 * a_page as u32 + 1 + self.rng.below(2) as u32;
        (0..=count)
            .rev()
            .map(|cmd| Row { key: key.to_vec(), txid: 7, cmd, value: vec![cmd as u8; len] })
            .collect()
    }

    /// Two pages with long histories and their merge, each at a budget of its own: a named one, the least, or any.
    fn history_case(&mut self) -> usize {
        let mut end = 0;
        let mut pages = Vec::new();
        for (key, lo, hi) in [(b"p", "", "q"), (b"q", "q", "")] {
            let budget = match self.rng.below(4) {
                0 | 1 => self.named_budget(),
                2 => MIN_BUDGET,
                _ => self.rng.between(MIN_BUDGET as usize, MAX_BUDGET as usize) as u64,
            };
            let sizes = Sizes { limit: 65_536, budget };
            let place = Place { sibling: 0, lo: lo.into(), hi: hi.into() };
            let rows = self.long_history(key, budget);
            end += leaf_end(sizes, &place, &rows);
            let at = self.build_leaf(Next::Free, sizes, place, rows.clone());
            pages.push((at, sizes, rows));
        }
        let keys = vec![b"p".to_vec(), b"q".to_vec()];
        let rows = pages.iter().flat_map(|page| page.2.clone()).collect();
        let sizes = self.rng.pick(&[pages[0].1, pages[1].1]);
        let at = self.merge(pages[0].0, pages[1].0, sizes);
        self.ask(&Page { at, index: false, prefix: Vec::new(), keys, rows }, 3);
        // for the merge twice as much: it may have more pages than the two, each with its headers and hint
        3 * end + 8192
    }

    /// Inputs that a build, merge or delta must refuse, and their neighbours that it must not.
    fn refused_case(&mut self) -> usize {
        let prefix = sample::prefix(&mut self.rng);
        let place = self.place(&prefix);
        let prefix = image::prefix(&place.lo, &place.hi).to_vec();
        let keys = self.keys(&place, 5);
        let index = self.rng.once_in(3);
        let sizes = self.sizes();
        let mut rows = self.rows(&keys, sizes.limit as usize, sizes.budget);
        let mut children = self.children(&keys);
        let room =
            if index { index_end(&place, &children) } else { leaf_end(sizes, &place, &rows) };
        let good = if index {
            self.build_index(Next::Free, place.clone(), children.clone())
        } else {
            self.build_leaf(Next::Free, sizes, place.clone(), rows.clone())
        };
        let neighbour = if self.rng.once_in(2) {
            Place { sibling: 0, lo: place.hi.clone(), hi: Vec::new() }
        } else {
            Place { sibling: 0, lo: Vec::new(), hi: place.lo.clone() }
        };
        self.outside_alone(index, sizes, &place, rows.clone(), children.clone());
        // one thing wrong, or two: the first number of the table counts
        let (mut sizes, mut place, mut next) = (sizes, place, Next::Free);
        let mut bytes = None;
        for _ in 0..self.rng.between(1, 2) {
            match self.rng.below(12) {
                0 => sizes.limit = self.rng.pick(&[0, 65_536, 65_537, u64::MAX]),
                1 => {
                    sizes.budget = self.rng.pick(&[
                        0,
                        MIN_BUDGET - 1,
                        MIN_BUDGET,
                        MAX_BUDGET,
                        MAX_BUDGET + 1,
                        u64::MAX,
                    ])
                }
                2 => place.lo = vec![0x70; self.rng.pick(&[4096, 4097, 8192])],
                3 => place.hi = vec![0x70; self.rng.pick(&[4096, 4097])],
                4 => next = Next::Raw(self.next()),
                5 => self.disorder(&mut rows, &mut children),
                6 => self.other_prefix(&mut rows, &mut children, &prefix),
                7 => self.too_long(&mut rows, &mut children),
                8 | 9 => self.outside(&mut rows, &mut children, &place),
                10 => {
                    let fallen = sample::bounds_fallen(&mut self.rng, &place.lo, &place.hi);
                    (place.lo, place.hi) = fallen.unwrap_or((vec![1], vec![1]));
                }
                _ => {
                    let list = if index {
                        List::Children(children.clone())
                    } else {
                        List::Rows(rows.clone())
                    };
                    bytes = Some(self.broken(list.bytes()));
                }
            }
        }
        let (name, stamp) = (self.name(), self.stamp());
        let list = match bytes {
            Some(bytes) => List::Bytes(bytes),
            None if index => List::Children(children),
            None => List::Rows(rows),
        };
        self.ops.push(if index {
            Op::Index { name, next, stamp, place, list }
        } else {
            Op::Leaf { name, next, sizes, stamp, place, list }
        });
        // a merge with the other kind, a delta, nothing, itself; deltas with the same wrong numbers
        let usual = Sizes { limit: 64, budget: 256 };
        let other = match self.rng.below(5) {
            0 => self.build_index(Next::Free, Place::default(), vec![(b"zz".to_vec(), 1)]),
            1 => self.build_leaf(Next::Free, usual, Place::default(), Vec::new()),
            // a neighbour, where there is a boundary
            4 => self.build_leaf(Next::Free, usual, neighbour, Vec::new()),
            2 => At::Raw(self.next()),
            _ => good,
        };
        let (name, stamp) = (self.name(), self.stamp());
        let (left, right) = if self.rng.once_in(2) { (good, other) } else { (other, good) };
        self.ops.push(Op::Merge { name, next, sizes, stamp, left, right });
        let (name, stamp) = (self.name(), self.stamp());
        let key = vec![0x6b; self.rng.pick(&[0, 1, 4096, 4097])];
        let value = vec![0x76; self.rng.pick(&[0, 1, 64, 65_536, 65_537])];
        let row = Row { key: key.clone(), txid: 5, cmd: 0, value };
        self.ops.push(Op::LeafDelta { name, next, limit: sizes.limit, stamp, row });
        let (name, stamp) = (self.name(), self.stamp());
        self.ops.push(Op::IndexDelta { name, next, stamp, key, pid: 1 });
        self.read(good, Read::Check);
        self.ops.push(Op::Common { lo: prefix, hi: keys.first().cloned().unwrap_or_default() });
        // around the room that the first build needs, or roomy
        if self.rng.once_in(2) {
            room.saturating_add_signed(self.rng.pick(&[-9, -8, -1, 0, 1, 8]))
        } else {
            self.length()
        }
    }

    /// Nothing wrong but one key outside, or boundaries that do not rise.
    fn outside_alone(
        &mut self,
        index: bool,
        sizes: Sizes,
        place: &Place,
        mut rows: Vec<Row>,
        mut children: Vec<(Vec<u8>, u64)>,
    ) {
        let mut place = place.clone();
        if self.rng.once_in(5) {
            let fallen = sample::bounds_fallen(&mut self.rng, &place.lo, &place.hi);
            (place.lo, place.hi) = fallen.unwrap_or((vec![1], vec![1]));
            rows.clear();
            children.clear();
        } else {
            self.outside(&mut rows, &mut children, &place);
        }
        if index {
            self.build_index(Next::Free, place, children);
        } else {
            self.build_leaf(Next::Free, sizes, place, rows);
        }
    }

    /// A next free address, or any address, that may be none.
    fn next(&mut self) -> u64 {
        match self.rng.below(3) {
            0 => self.rng.pick(&[0, 1, 7, 8, 9, 12, 16, u64::MAX, u64::MAX - 7, 1 << 63, 1 << 32]),
            1 => 8 * self.rng.below(200) as u64,
            _ => self.rng.below(70_000) as u64,
        }
    }

    /// Two entries change places, or one stands twice.
    fn disorder(&mut self, rows: &mut Vec<Row>, children: &mut Vec<(Vec<u8>, u64)>) {
        let twice = self.rng.once_in(2);
        if !rows.is_empty() {
            let (a, b) = (self.rng.below(rows.len()), self.rng.below(rows.len()));
            if twice { rows.insert(a, rows[a].clone()) } else { rows.swap(a, b) }
        }
        if !children.is_empty() {
            let (a, b) = (self.rng.below(children.len()), self.rng.below(children.len()));
            if twice { children.insert(a, children[a].clone()) } else { children.swap(a, b) }
        }
    }

    /// The last key loses the prefix, in order.
    fn other_prefix(
        &mut self,
        rows: &mut Vec<Row>,
        children: &mut Vec<(Vec<u8>, u64)>,
        prefix: &[u8],
    ) {
        let mut key = prefix.to_vec();
        match key.last_mut() {
            Some(last) => *last = last.wrapping_add(self.rng.pick(&[1, 255])),
            None => key = vec![0xff; 300],
        }
        rows.push(Row { key: key.clone(), txid: 1, cmd: 0, value: Vec::new() });
        children.push((key, 1));
    }

    /// One key more, in order, that lies outside the boundaries.
    fn outside(&mut self, rows: &mut Vec<Row>, children: &mut Vec<(Vec<u8>, u64)>, place: &Place) {
        let Some(key) = sample::key_outside(&mut self.rng, &place.lo, &place.hi) else { return };
        let at = rows.partition_point(|row| row.key < key);
        rows.insert(at, Row { key: key.clone(), txid: 1, cmd: 0, value: Vec::new() });
        let at = children.partition_point(|child| child.0 < key);
        children.insert(at, (key, 1));
    }

    /// The last entry's key or value is as long as the table lets it be, or longer.
    fn too_long(&mut self, rows: &mut Vec<Row>, children: &mut Vec<(Vec<u8>, u64)>) {
        let (key, value) = (self.rng.pick(&[4096, 4097, 5000]), self.rng.pick(&[65_536, 65_537]));
        match self.rng.below(2) {
            0 => rows.push(Row { key: vec![0xff; 3], txid: 1, cmd: 0, value: vec![1; value] }),
            _ => rows.push(Row { key: vec![0xff; key], txid: 1, cmd: 0, value: Vec::new() }),
        }
        children.push((vec![0xff; key], 1));
    }

    /// A list that is none: cut, longer, another version, another count, a byte changed, or nothing of it.
    fn broken(&mut self, mut list: Vec<u8>) -> Vec<u8> {
        match self.rng.below(6) {
            0 => list.truncate(self.rng.below(list.len() + 1)),
            1 => list.push(0),
            2 => list[0] = self.rng.pick(&[0, 2, 255]),
            3 => {
                let at = self.rng.between(1, 4);
                list[at] = list[at].wrapping_add(1);
            }
            4 => {
                let at = self.rng.below(list.len());
                list[at] = self.rng.number() as u8;
            }
            _ => {
                // the count made right behind the cut, so that an entry is cut short
                list.truncate(self.rng.between(5, list.len()));
                let count = (list.len() - 5) as u32;
                list[1..5].copy_from_slice(&count.to_be_bytes());
            }
        }
        list
    }

    /// Frames of every kind in a small arena, then bytes changed, cut off, and every reader at every frame and beside.
    fn damaged_case(&mut self) -> usize {
        let key = |k: u8| vec![b'p', b'a' + k];
        let place = || Place { sibling: 7, lo: b"pa".to_vec(), hi: b"pz".to_vec() };
        let sizes = Sizes { limit: self.rng.pick(&[4, 4, 64]), budget: 256 };
        let count = self.rng.between(1, 5) as u8;
        let mut keys: Vec<Vec<u8>> = (0..count).map(key).collect();
        if self.rng.once_in(3) {
            // the last key long enough for a length of two bytes, or just not
            let len = self.rng.pick(&[100, 114, 115, 116, 117, 128, 300]);
            keys.push([key(count), vec![b'k'; len]].concat());
        }
        let mut rows = Vec::new();
        for key in &keys {
            for k in 0..self.rng.pick(&[1, 1, 2, 3, 9]) {
                let len = self.rng.pick(&[0, 1, 2, 6, 60]);
                rows.push(Row {
                    key: key.clone(),
                    txid: 20 - k,
                    cmd: 5,
                    value: self.rng.bytes(len),
                });
            }
        }
        let leaf = self.build_leaf(Next::Free, sizes, place(), rows.clone());
        let children = self.children(&keys);
        let index = self.build_index(Next::Free, place(), children);
        // neighbours without keys
        let right = || Place { sibling: 0, lo: b"pz".to_vec(), hi: Vec::new() };
        let behind = self.build_leaf(Next::Free, sizes, right(), Vec::new());
        let index_behind = self.build_index(Next::Free, right(), Vec::new());
        let row = Row { key: key(0), txid: 20, cmd: 5, value: b"remote".to_vec() };
        let (name, stamp) = (self.name(), self.stamp());
        let delta = At::Built(name);
        self.ops.push(Op::LeafDelta { name, next: Next::Free, limit: 4, stamp, row: row.clone() });
        let (name, stamp) = (self.name(), self.stamp());
        let tree = At::Built(name);
        self.ops.push(Op::IndexDelta { name, next: Next::Free, stamp, key: key(0), pid: 5 });
        let stamp = self.stamp();
        self.ops.push(Op::Lay { limit: self.rng.pick(&[4, 64]), stamp, row });
        let end = leaf_end(sizes, &place(), &rows);
        for _ in 0..self.rng.between(1, 4) {
            let at = self.rng.below(end + 200);
            let damage = match self.rng.below(20) {
                0 => Op::Put { at, bytes: vec![self.rng.number() as u8] },
                1 => Op::Put { at, bytes: vec![self.rng.pick(&[0, 1, 2, 8, 0x7f, 0x80, 0xff])] },
                2 => Op::Put { at, bytes: vec![self.rng.below(24) as u8] },
                3 | 4 => Op::Add { at, by: self.rng.pick(&[1, 255, 8, 248, 0x80]) },
                5 => Op::Copy {
                    from: self.rng.below(end),
                    to: at,
                    len: self.rng.pick(&[1, 2, 4, 8]),
                },
                // whole words: addresses, links, versions, headers
                6 => Op::Copy { from: self.rng.below(end) & !7, to: at & !7, len: 8 },
                7 => Op::Copy {
                    from: self.rng.below(end) & !7,
                    to: at & !7,
                    len: self.rng.pick(&[32, 72, 104]),
                },
                // a letter of lo or hi, or of a key: the page may be unsound by its boundaries alone
                16 | 17 => {
                    let by = 72 + 4 * keys.len() + self.rng.below(4);
                    let bytes = vec![self.rng.pick(b"opqabcdyz")];
                    Op::Strike { frame: self.rng.pick(&[leaf, index]), slot: None, by, bytes }
                }
                18 | 19 => {
                    // behind the length of the key, a leaf's behind the version too
                    let (frame, by) = self.rng.pick(&[(leaf, 13), (index, 1)]);
                    let slot = self.rng.pick(&[0, keys.len() - 1]);
                    let bytes = vec![self.rng.pick(b"ABabcdyz{")];
                    Op::Strike { frame, slot: Some(slot), by, bytes }
                }
                // the headers of a frame, its slots and first bytes; the first history page stands at 8
                8..=11 => {
                    let frame = self.rng.pick(&[leaf, leaf, index, delta, tree, At::Raw(8)]);
                    let bytes = self.strike();
                    Op::Strike { frame, slot: None, by: self.rng.below(100), bytes }
                }
                // a record: its length, version, rest, value, history
                _ => {
                    let frame = self.rng.pick(&[leaf, leaf, index, At::Raw(8)]);
                    let by = if self.rng.once_in(2) { 0 } else { self.rng.below(60) };
                    Op::Strike {
                        frame,
                        slot: Some(self.rng.below(keys.len())),
                        by,
                        bytes: self.strike(),
                    }
                }
            };
            self.ops.push(damage);
        }
        if self.rng.once_in(3) {
            let (at, byte) = (self.rng.below(90), self.rng.pick(&[0, 1, 3, 0x80, 0xff]));
            self.ops.push(Op::BufferPut { at, bytes: vec![byte] });
        }
        if self.rng.once_in(5) {
            let len = self.rng.below(110);
            self.ops.push(Op::BufferCut { len });
        }
        if self.rng.once_in(3) {
            let len = self.rng.below(end + 300);
            self.ops.push(Op::Cut { len });
        }
        for at in [
            leaf,
            index,
            delta,
            tree,
            At::Raw(8),
            At::Raw(8 * self.rng.below(end / 8 + 30) as u64),
            At::Raw(self.next()),
        ] {
            self.everything(at, keys.len());
        }
        for (left, right) in [
            (leaf, behind),
            (index, index_behind),
            (leaf, leaf),
            (leaf, index),
            (index, index),
            (delta, leaf),
        ] {
            let sizes = self.sizes();
            self.merge(left, right, sizes);
        }
        end + 2000
    }

    /// What damage stores: a byte, a number of four or eight bytes at an edge, a length that is too long or not in its shortest form.
    fn strike(&mut self) -> Vec<u8> {
        let number = self.rng.pick(&[
            0,
            1,
            7,
            8,
            16,
            104,
            4096,
            4097,
            65_535,
            65_536,
            65_537,
            1 << 31,
            u64::MAX,
        ]);
        match self.rng.below(6) {
            0 => number.to_le_bytes()[..4].to_vec(),
            1 => number.to_le_bytes().to_vec(),
            2 => vec![self.rng.number() as u8],
            3 => vec![self.rng.pick(&[0, 1, 2, 3, 4, 11, 12, 13, 0x7f, 0x80, 0xff])],
            4 => {
                let bytes: &[&[u8]] = &[
                    &[0x8e, 0x00],
                    &[0x8e, 0x80, 0x00],
                    &[0xff, 0xff, 0x01],
                    &[0x80, 0x80, 0x01],
                    &[0x8c, 0xff, 0x01],
                    &[0x8c, 0x20],
                    &[0x8d, 0x20],
                    &[0xff, 0xff, 0xff, 0xff, 0x0f],
                    &[0xff, 0xff, 0xff, 0xff, 0x10],
                    &[0x8e, 0x80, 0x80, 0x80, 0x80, 0x00],
                ];
                self.rng.pick(bytes).to_vec()
            }
            _ => [
                vec![0x80 + self.rng.below(128) as u8, 0x80 + self.rng.below(128) as u8],
                vec![self.rng.below(3) as u8],
            ]
            .concat(),
        }
    }

    /// Every reader, a few times over.
    fn everything(&mut self, at: At, elems: usize) {
        for read in [Read::Check, Read::Info, Read::Hints, Read::Delta] {
            self.read(at, read);
        }
        for key in [&b""[..], b"p", b"pa", b"pb", b"pc", b"pz", b"q"] {
            let key = key.to_vec();
            self.read(at, Read::Lower { key: key.clone(), txid: 19, cmd: 5 });
            self.read(at, Read::Floor { key: key.clone() });
            self.read(at, Read::Search { key: key.clone() });
            for (txid, cmd) in [(20, 5), (18, 5), (13, 9)] {
                self.read(at, Read::AsOf { key: key.clone(), txid, cmd });
            }
            self.read(at, Read::Overlay { delta: At::Laid, key });
        }
        self.read(at, Read::AsOf { key: b"pa".to_vec(), txid: 0, cmd: 0 });
        self.read(at, Read::Overlay { delta: At::Raw(8), key: b"pa".to_vec() });
        for (begin, end) in [(0, 0), (0, 1), (0, elems), (1, elems), (elems, 1), (0, elems + 1)] {
            self.read(at, Read::Walk { begin: begin as u64, end: end as u64 });
        }
        self.read(at, Read::Walk { begin: 0, end: u64::MAX });
        let last = elems as i64 - 1;
        for (start, end) in [
            (-1, 0),
            (0, 0),
            (last, 0),
            (last + 1, 0),
            (last, -1),
            (i64::MIN, i64::MAX),
            (i64::MAX, i64::MIN),
        ] {
            self.read(at, Read::Back { start, end });
        }
        self.read(at, Read::Range { from: Some(b"pa".to_vec()), to: None });
    }

    /// Random bytes where frames could be: small numbers at the places of the headers.
    fn noise_case(&mut self) -> usize {
        let len = self.rng.below(400);
        for at in 0..len / 8 {
            let mut word = [0; 8];
            for byte in &mut word {
                *byte = match self.rng.below(4) {
                    0 => self.rng.number() as u8,
                    1 => self.rng.below(4) as u8,
                    _ => 0,
                };
            }
            self.ops.push(Op::Put { at: at * 8, bytes: word.to_vec() });
        }
        if len >= 80 {
            // a box header and a base header that nearly fit
            let payload = (len - 48) as u32 & !7;
            let mut head = payload.to_le_bytes().to_vec();
            head.extend([
                self.rng.between(1, 3) as u8,
                self.rng.between(1, 2) as u8,
                self.rng.below(2) as u8,
                0,
            ]);
            head.extend([0; 24]);
            let size = self.rng.pick(&[payload, payload, payload - payload.min(8)]);
            head.extend(size.to_le_bytes());
            head.extend([self.rng.below(4) as u8, 0, 0, 0]);
            self.ops.push(Op::Put { at: 8, bytes: head });
            if self.rng.once_in(2) {
                self.ops.push(Op::Put { at: 8 + 32 + 16, bytes: vec![0; 24] });
            }
        }
        let mut bytes = vec![0; self.rng.below(60)];
        bytes.iter_mut().for_each(|byte| *byte = self.rng.number() as u8);
        self.ops.push(Op::Buffer { bytes });
        for _ in 0..2 {
            let at = At::Raw(self.next());
            self.everything(at, 2);
        }
        self.everything(At::Raw(8), 2);
        self.everything(At::Raw(0), 1);
        len
    }

    /// An arena that mostly has room.
    fn length(&mut self) -> usize {
        self.rng.pick(&[2048, 8192, 32_768, 32_768, 65_536, 65_536, 65_541])
    }
}

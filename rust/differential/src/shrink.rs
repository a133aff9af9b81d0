//! A differing case made small: operations dropped, lists cut, keys and values shortened, numbers made plain, as long as the two sides
//! still differ. Every accepted step costs less than the one before, so it ends.

use std::time::{Duration, Instant};

use oracle::answer::Stamp;
use oracle::sample::Row;

use crate::case::{Case, List, Op, Place, Read};

/// A smaller case for which `differs` still holds, found within the time.
pub fn shrink(mut case: Case, most: Duration, mut differs: impl FnMut(&Case) -> bool) -> Case {
    let end = Instant::now() + most;
    loop {
        let before = cost(&case);
        let mut accept = |case: &mut Case, smaller: Case| {
            let better = Instant::now() < end && cost(&smaller) < cost(case) && differs(&smaller);
            if better {
                *case = smaller;
            }
            better
        };
        // operations, in chunks and then one by one
        let mut chunk = case.ops.len().div_ceil(2);
        while chunk > 0 {
            let mut at = 0;
            while at < case.ops.len() {
                let mut smaller = case.clone();
                smaller.ops.drain(at..(at + chunk).min(smaller.ops.len()));
                if !accept(&mut case, smaller) {
                    at += chunk;
                }
            }
            chunk /= 2;
        }
        for at in 0..case.ops.len() {
            // again from the first idea as long as one helps
            'again: loop {
                let whole = case.ops[at].clone();
                for op in smaller_ops(&whole) {
                    if Instant::now() >= end {
                        return case;
                    }
                    let lost = keys(&whole).saturating_sub(keys(&op));
                    let mut smaller = case.clone();
                    smaller.ops[at] = op;
                    let follow = (lost > 0).then(|| fewer_positions(&smaller, lost));
                    if accept(&mut case, smaller)
                        || follow.is_some_and(|follow| accept(&mut case, follow))
                    {
                        continue 'again;
                    }
                }
                break;
            }
        }
        // a key in all its places at once: its versions, probes that ask for it
        for key in all_keys(&case).into_iter().take(100) {
            for shorter in smaller_bytes(&key) {
                if Instant::now() >= end {
                    return case;
                }
                let mut smaller = case.clone();
                each_key(&mut smaller, &mut |k| {
                    if *k == key {
                        k.clone_from(&shorter);
                    }
                });
                if accept(&mut case, smaller) {
                    break;
                }
            }
        }
        // all versions at once, rows' and questions', in the same order
        let smaller = ranked(&case);
        accept(&mut case, smaller);
        for len in shorter(case.len) {
            let smaller = Case { len, ..case.clone() };
            accept(&mut case, smaller);
        }
        let smaller = Case { fill: 0, ..case.clone() };
        accept(&mut case, smaller);
        if cost(&case) == before {
            return case;
        }
    }
}

/// Every key, boundary and probe of a case: keys lie between boundaries, and neighbours share one.
fn each_key(case: &mut Case, f: &mut dyn FnMut(&mut Vec<u8>)) {
    for op in &mut case.ops {
        if let Op::Leaf { place, .. } | Op::Index { place, .. } = op {
            f(&mut place.lo);
            f(&mut place.hi);
        }
        match op {
            Op::Leaf { list: List::Rows(rows), .. } => {
                rows.iter_mut().for_each(|row| f(&mut row.key))
            }
            Op::Index { list: List::Children(children), .. } => {
                children.iter_mut().for_each(|(key, _)| f(key))
            }
            Op::Lay { row, .. } | Op::LeafDelta { row, .. } => f(&mut row.key),
            Op::IndexDelta { key, .. } => f(key),
            Op::Ask { read, .. } => match read {
                Read::Lower { key, .. }
                | Read::Floor { key }
                | Read::Search { key }
                | Read::AsOf { key, .. }
                | Read::Overlay { key, .. } => f(key),
                Read::Range { from, to } => [from, to].into_iter().flatten().for_each(&mut *f),
                _ => {}
            },
            _ => {}
        }
    }
}

/// Every version of a leaf's rows, and every one that a question about versions asks for.
fn each_version(case: &mut Case, f: &mut dyn FnMut(&mut u64, &mut u32)) {
    for op in &mut case.ops {
        match op {
            Op::Leaf { list: List::Rows(rows), .. } => {
                rows.iter_mut().for_each(|row| f(&mut row.txid, &mut row.cmd))
            }
            Op::Ask { read: Read::AsOf { txid, cmd, .. }, .. } => f(txid, cmd),
            _ => {}
        }
    }
}

/// The case with its versions 0, 1, 2 .. in their order.
fn ranked(case: &Case) -> Case {
    let mut case = case.clone();
    let mut versions = Vec::new();
    each_version(&mut case, &mut |txid, cmd| versions.push((*txid, *cmd)));
    versions.sort();
    versions.dedup();
    each_version(&mut case, &mut |txid, cmd| {
        let rank = versions.binary_search(&(*txid, *cmd)).expect("it is there");
        (*txid, *cmd) = (rank as u64, 0);
    });
    case
}

fn all_keys(case: &Case) -> Vec<Vec<u8>> {
    let mut keys = Vec::new();
    each_key(&mut case.clone(), &mut |key| keys.push(key.clone()));
    keys.sort();
    keys.dedup();
    keys
}

/// How many keys the page of a build has.
fn keys(op: &Op) -> usize {
    match op {
        Op::Leaf { list: List::Rows(rows), .. } => rows.chunk_by(|a, b| a.key == b.key).count(),
        Op::Index { list: List::Children(children), .. } => children.len(),
        _ => 0,
    }
}

/// Walks that end so many positions earlier, where a page has lost as many keys: else the range would lie outside.
fn fewer_positions(case: &Case, lost: usize) -> Case {
    let mut case = case.clone();
    for op in &mut case.ops {
        match op {
            Op::Ask { read: Read::Walk { begin, end }, .. } => {
                *begin = begin.saturating_sub(lost as u64);
                *end = end.saturating_sub(lost as u64);
            }
            Op::Ask { read: Read::Back { start, .. }, .. } => {
                *start = start.saturating_sub(lost as i64)
            }
            _ => {}
        }
    }
    case
}

/// What a reader of the case has to take in.
fn cost(case: &Case) -> usize {
    let bits = |n: u64| (64 - n.leading_zeros()) as usize;
    let row = |r: &Row| {
        20 + 4 * (r.key.len() + r.value.len())
            + plain(&r.key)
            + plain(&r.value)
            + bits(r.txid)
            + bits(r.cmd.into())
    };
    let stamp = |s: &Stamp| bits(s.txid) + bits(s.group.into()) + bits(s.lsn) + bits(s.checkpoint);
    let place = |p: &Place| bits(p.sibling) + 4 * (p.lo.len() + p.hi.len());
    let list = |l: &List| match l {
        List::Rows(rows) => rows.iter().map(row).sum(),
        List::Children(children) => {
            children.iter().map(|(key, pid)| 20 + 4 * key.len() + plain(key) + bits(*pid)).sum()
        }
        List::Bytes(bytes) => 4 * bytes.len() + plain(bytes),
    };
    let read = |r: &Read| match r {
        Read::Lower { key, .. }
        | Read::Floor { key }
        | Read::Search { key }
        | Read::Overlay { key, .. } => 4 * key.len() + plain(key),
        Read::AsOf { key, txid, cmd } => {
            4 * key.len() + plain(key) + bits(*txid) + bits((*cmd).into())
        }
        Read::Range { from, to } => {
            [from, to].into_iter().flatten().map(|key| 4 * key.len() + plain(key) + 1).sum()
        }
        Read::Walk { begin, end } => bits(*begin) + bits(*end),
        Read::Back { start, end } => bits(start.unsigned_abs()) + bits(end.unsigned_abs()),
        _ => 0,
    };
    let op = |op: &Op| match op {
        Op::Put { bytes, .. }
        | Op::Strike { bytes, .. }
        | Op::Buffer { bytes }
        | Op::BufferPut { bytes, .. } => 4 * bytes.len() + plain(bytes),
        Op::Add { .. } | Op::Copy { .. } | Op::Cut { .. } | Op::BufferCut { .. } => 0,
        Op::Lay { stamp: s, row: r, .. } | Op::LeafDelta { stamp: s, row: r, .. } => {
            stamp(s) + row(r)
        }
        Op::Leaf { sizes, stamp: s, place: p, list: l, .. } => {
            bits(sizes.limit) + bits(sizes.budget) + stamp(s) + place(p) + list(l)
        }
        Op::Index { stamp: s, place: p, list: l, .. } => stamp(s) + place(p) + list(l),
        Op::Merge { sizes, stamp: s, .. } => bits(sizes.limit) + bits(sizes.budget) + stamp(s),
        Op::IndexDelta { stamp: s, key, pid, .. } => {
            stamp(s) + 4 * key.len() + plain(key) + bits(*pid)
        }
        Op::Ask { read: r, .. } => read(r),
        Op::Common { lo, hi } => 4 * (lo.len() + hi.len()),
    };
    bits(case.len as u64)
        + usize::from(case.fill != 0)
        + case.ops.iter().map(|o| 100 + op(o)).sum::<usize>()
}

/// Bytes other than the letter that shortened ones are made of.
fn plain(bytes: &[u8]) -> usize {
    bytes.iter().filter(|&&byte| byte != b'a').count()
}

fn shorter(len: usize) -> Vec<usize> {
    vec![len / 2, len - len / 4, len.saturating_sub(64), len.saturating_sub(8)]
}

/// Bytes made shorter or plainer: nothing, a half, one less at either end, one letter.
fn smaller_bytes(bytes: &[u8]) -> Vec<Vec<u8>> {
    let mut out = Vec::new();
    if let [_, rest @ ..] = bytes {
        out.push(Vec::new());
        out.push(bytes[..bytes.len() / 2].to_vec());
        out.push(bytes[..bytes.len() - 1].to_vec());
        out.push(rest.to_vec());
        out.push(vec![b'a'; bytes.len()]);
    }
    out
}

fn smaller_number(n: u64) -> Vec<u64> {
    [0, 1, n / 2, n.saturating_sub(1)].into_iter().filter(|&m| m < n).collect()
}

fn smaller_row(row: &Row) -> Vec<Row> {
    let mut out: Vec<Row> = Vec::new();
    out.extend(smaller_bytes(&row.value).into_iter().map(|value| Row { value, ..row.clone() }));
    out.extend(smaller_bytes(&row.key).into_iter().map(|key| Row { key, ..row.clone() }));
    out.extend(smaller_number(row.txid).into_iter().map(|txid| Row { txid, ..row.clone() }));
    out.extend(
        smaller_number(row.cmd.into())
            .into_iter()
            .map(|cmd| Row { cmd: cmd as u32, ..row.clone() }),
    );
    out
}

/// Ideas, made one at a time: a list may be long.
type Ideas<'a, T> = Box<dyn Iterator<Item = T> + 'a>;

/// Ways to leave out a run of entries, long runs first, then each entry made smaller. A long list loses its long runs first.
fn smaller_entries<T: Clone>(
    entries: &[T],
    smaller: fn(&T) -> Vec<T>,
) -> impl Iterator<Item = Vec<T>> {
    let len = entries.len();
    let chunks = std::iter::successors(Some(len), |chunk| Some(chunk / 2))
        .take_while(move |chunk| *chunk > 0 && chunk * 64 > len);
    let fewer = chunks.flat_map(move |chunk| {
        (0..len)
            .step_by(chunk)
            .map(move |at| [&entries[..at], &entries[(at + chunk).min(len)..]].concat())
    });
    let changed = entries.iter().enumerate().take(40).flat_map(move |(at, entry)| {
        smaller(entry).into_iter().map(move |one| {
            let mut changed = entries.to_vec();
            changed[at] = one;
            changed
        })
    });
    fewer.chain(changed)
}

fn smaller_child((key, pid): &(Vec<u8>, u64)) -> Vec<(Vec<u8>, u64)> {
    let keys = smaller_bytes(key).into_iter().map(|key| (key, *pid));
    keys.chain(smaller_number(*pid).into_iter().map(|pid| (key.clone(), pid))).collect()
}

fn smaller_lists(list: &List) -> Ideas<'_, List> {
    match list {
        List::Rows(rows) => {
            // and all versions small at once
            let ranked = rows.iter().enumerate().map(|(k, row)| Row {
                txid: (rows.len() - k) as u64,
                cmd: 0,
                ..row.clone()
            });
            let ranked = std::iter::once_with(|| List::Rows(ranked.collect()));
            Box::new(smaller_entries(rows, smaller_row).map(List::Rows).chain(ranked))
        }
        List::Children(children) => {
            Box::new(smaller_entries(children, smaller_child).map(List::Children))
        }
        List::Bytes(bytes) => Box::new(smaller_bytes(bytes).into_iter().map(List::Bytes)),
    }
}

fn smaller_places(place: &Place) -> Vec<Place> {
    let mut out = vec![Place::default(), Place { sibling: 0, ..place.clone() }];
    out.extend(smaller_bytes(&place.lo).into_iter().map(|lo| Place { lo, ..place.clone() }));
    out.extend(smaller_bytes(&place.hi).into_iter().map(|hi| Place { hi, ..place.clone() }));
    out
}

fn smaller_reads(read: &Read) -> Vec<Read> {
    let keys = |key: &Vec<u8>| smaller_bytes(key);
    match read {
        Read::Lower { key, txid, cmd } => {
            keys(key).into_iter().map(|key| Read::Lower { key, txid: *txid, cmd: *cmd }).collect()
        }
        Read::Floor { key } => keys(key).into_iter().map(|key| Read::Floor { key }).collect(),
        Read::Search { key } => keys(key).into_iter().map(|key| Read::Search { key }).collect(),
        Read::AsOf { key, txid, cmd } => {
            let (t, c) = (*txid, *cmd);
            let as_of = |txid, cmd| Read::AsOf { key: key.clone(), txid, cmd };
            let shorter = keys(key).into_iter().map(|key| Read::AsOf { key, txid: t, cmd: c });
            let less = smaller_number(t).into_iter().map(|txid| as_of(txid, c));
            let cmds = smaller_number(c.into()).into_iter().map(|cmd| as_of(t, cmd as u32));
            shorter.chain(less).chain(cmds).collect()
        }
        Read::Overlay { delta, key } => {
            keys(key).into_iter().map(|key| Read::Overlay { delta: *delta, key }).collect()
        }
        Read::Walk { begin, end } => {
            let ends =
                smaller_number(*end).into_iter().map(|end| Read::Walk { begin: *begin, end });
            ends.chain(
                smaller_number(*begin).into_iter().map(|begin| Read::Walk { begin, end: *end }),
            )
            .collect()
        }
        Read::Back { start, end } => {
            let less = |n: i64| [0, n / 2, n - n.signum()];
            let starts = less(*start).into_iter().map(|start| Read::Back { start, end: *end });
            starts
                .chain(less(*end).into_iter().map(|end| Read::Back { start: *start, end }))
                .collect()
        }
        Read::Range { from, to } => {
            let less = |key: &Option<Vec<u8>>| match key {
                Some(key) => {
                    [None].into_iter().chain(smaller_bytes(key).into_iter().map(Some)).collect()
                }
                None => Vec::new(),
            };
            let froms = less(from).into_iter().map(|from| Read::Range { from, to: to.clone() });
            froms
                .chain(less(to).into_iter().map(|to| Read::Range { from: from.clone(), to }))
                .collect()
        }
        _ => Vec::new(),
    }
}

/// Smaller operations in place of one, the boldest first.
fn smaller_ops(op: &Op) -> Ideas<'_, Op> {
    let mut out: Vec<Ideas<'_, Op>> = Vec::new();
    // one field at a time, the others as they are
    macro_rules! each {
        ($variant:ident, $($field:ident: $ideas:expr),*) => {{
            $(out.push(Box::new($ideas.into_iter().map(|idea| {
                let mut smaller = op.clone();
                if let Op::$variant { $field, .. } = &mut smaller {
                    *$field = idea;
                }
                smaller
            })));)*
        }};
    }
    let zero = || [Stamp::default()];
    match op {
        Op::Put { bytes, .. } => each!(Put, bytes: smaller_bytes(bytes)),
        Op::Strike { bytes, .. } => each!(Strike, bytes: smaller_bytes(bytes)),
        Op::Buffer { bytes } => each!(Buffer, bytes: smaller_bytes(bytes)),
        Op::BufferPut { bytes, .. } => each!(BufferPut, bytes: smaller_bytes(bytes)),
        Op::Add { .. } | Op::Copy { .. } | Op::Cut { .. } | Op::BufferCut { .. } => {}
        Op::Lay { row, .. } => each!(Lay, stamp: zero(), row: smaller_row(row)),
        Op::LeafDelta { row, .. } => each!(LeafDelta, stamp: zero(), row: smaller_row(row)),
        Op::Leaf { place, list, .. } => {
            each!(Leaf, stamp: zero(), place: smaller_places(place), list: smaller_lists(list))
        }
        Op::Index { place, list, .. } => {
            each!(Index, stamp: zero(), place: smaller_places(place), list: smaller_lists(list))
        }
        Op::Merge { .. } => each!(Merge, stamp: zero()),
        Op::IndexDelta { key, pid, .. } => {
            each!(IndexDelta, stamp: zero(), key: smaller_bytes(key), pid: smaller_number(*pid))
        }
        Op::Ask { read, .. } => each!(Ask, read: smaller_reads(read)),
        Op::Common { lo, hi } => each!(Common, lo: smaller_bytes(lo), hi: smaller_bytes(hi)),
    }
    Box::new(out.into_iter().flatten())
}

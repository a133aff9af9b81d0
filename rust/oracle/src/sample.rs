//! Random inputs inside document 01's domain, for the golden vectors and for the tests; and, asked for by name, keys and boundaries
//! that order 4 refuses.
//! Long keys and values are mostly runs, so that they stay short as text.

use crate::answer::Bounds;
use crate::image;
use crate::judge::MAX_KEY;
use crate::list::{self, Child, Entry};
use crate::prng::Prng;

/// A record that owns its bytes.
#[derive(Clone, Debug, PartialEq, Eq)]
pub struct Row {
    pub key: Vec<u8>,
    pub txid: u64,
    pub cmd: u32,
    pub value: Vec<u8>,
}

pub fn row(key: &[u8], txid: u64, cmd: u32, value: &[u8]) -> Row {
    Row { key: key.to_vec(), txid, cmd, value: value.to_vec() }
}

pub fn list_of(rows: &[Row]) -> Vec<u8> {
    let entries: Vec<Entry> = rows
        .iter()
        .map(|r| Entry { key: &r.key, txid: r.txid, cmd: r.cmd, value: &r.value })
        .collect();
    list::write_entries(&entries)
}

pub fn index_list_of(children: &[(Vec<u8>, u64)]) -> Vec<u8> {
    let children: Vec<Child> = children.iter().map(|(key, pid)| Child { key, pid: *pid }).collect();
    list::write_children(&children)
}

/// Bytes of a length: random when short, a run between random ends when long.
pub fn filling(rng: &mut Prng, len: usize) -> Vec<u8> {
    if len <= 24 {
        return rng.bytes(len);
    }
    let byte = rng.number() as u8;
    [rng.bytes(5), vec![byte; len - 10], rng.bytes(5)].concat()
}

/// A key rest. Lengths stand at the places where words of eight bytes or LEB128 could go wrong;
/// a small alphabet makes keys share beginnings.
pub fn rest(rng: &mut Prng) -> Vec<u8> {
    let len = match rng.below(12) {
        0..=7 => rng.below(20),
        8 => rng.between(20, 40),
        9 | 10 => rng.between(108, 134),
        _ => rng.pick(&[255, 256, 300]),
    };
    let mut key = match rng.below(4) {
        0 => rng.bytes(len),
        1 => vec![0x61; len],
        _ => (0..len).map(|_| rng.pick(&[0x00, 0x61, 0x62, 0xff])).collect(),
    };
    if len > 24 {
        key[3..len - 3].fill(0x61);
    }
    key
}

/// Sorted different keys, all behind one prefix.
pub fn keys(rng: &mut Prng, prefix: &[u8], count: usize) -> Vec<Vec<u8>> {
    let mut keys: Vec<Vec<u8>> = (0..count).map(|_| [prefix, &rest(rng)].concat()).collect();
    keys.sort();
    keys.dedup();
    keys
}

/// A value's length, around the limit as often as not.
pub fn value_len(rng: &mut Prng, limit: usize) -> usize {
    match rng.below(8) {
        0 => 0,
        1 => limit - 1,
        2 => limit.min(65_536),
        3 => (limit + 1).min(65_536),
        4 => rng.below(limit.min(200)),
        _ => rng.below(20),
    }
}

/// Versions of one key, newest first; the first is no newer than `newest`.
pub fn versions(rng: &mut Prng, count: usize, newest: u64) -> Vec<(u64, u32)> {
    let mut txid = newest;
    let mut cmd = rng.below(4) as u32;
    let mut out = vec![(txid, cmd)];
    while out.len() < count {
        // the same txid with a smaller cmd is older too
        if cmd > 0 && rng.once_in(2) {
            cmd -= 1;
        } else {
            txid -= 1 + rng.below(3) as u64;
            cmd = rng.pick(&[0, 1, 7, u32::MAX]);
        }
        out.push((txid, cmd));
    }
    out
}

/// Rows for the given keys, most with one version, some with up to `most`.
pub fn rows(rng: &mut Prng, keys: &[Vec<u8>], most: usize, limit: usize) -> Vec<Row> {
    let mut out = Vec::new();
    for key in keys {
        let count = if rng.once_in(2) { 1 } else { rng.between(1, most) };
        let newest = 1_000_000 + rng.below(1000) as u64;
        for (txid, cmd) in versions(rng, count, newest) {
            let len = value_len(rng, limit);
            out.push(Row { key: key.clone(), txid, cmd, value: filling(rng, len) });
        }
    }
    out
}

/// Boundaries that rise, mostly with exactly the prefix in common; now and then no hi, no lo, neither, or lo as hi's beginning.
/// A boundary lies between them (`cuts`).
pub fn bounds(rng: &mut Prng, prefix: &[u8]) -> (Vec<u8>, Vec<u8>) {
    let behind = |rng: &mut Prng, first: u8| {
        let len = rng.below(4);
        [prefix, &[first], &rng.bytes(len)].concat()
    };
    match rng.below(9) {
        0 => (Vec::new(), Vec::new()),
        1 => (behind(rng, 0x00), Vec::new()),
        2 => (Vec::new(), behind(rng, 0x62)),
        3 => (prefix.to_vec(), behind(rng, 0x61)),
        // every key between them begins with one byte more
        4 => ([prefix, &[0x61]].concat(), [prefix, &[0x62]].concat()),
        _ => (behind(rng, 0x00), behind(rng, 0xff)),
    }
}

/// Sorted different keys between boundaries that rise, at least one if any is asked for: many at the edges.
pub fn keys_between(rng: &mut Prng, lo: &[u8], hi: &[u8], count: usize) -> Vec<Vec<u8>> {
    let bounds = Bounds { sibling: 0, lo, hi };
    let prefix = image::prefix(lo, hi);
    let mut keys: Vec<Vec<u8>> = (0..count)
        .map(|_| match rng.below(12) {
            0 => lo.to_vec(),
            1 => [lo, &[rng.pick(&[0x00, 0x61, 0xff])]].concat(),
            2 => one_less(hi),
            3 => [one_less(hi), rest(rng)].concat(),
            4 => hi[..rng.below(hi.len() + 1)].to_vec(),
            5 | 6 => [lo, &rest(rng)].concat(),
            _ => [prefix, &rest(rng)].concat(),
        })
        .filter(|key| bounds.hold(key) && key.len() <= MAX_KEY)
        .collect();
    if keys.is_empty() && count > 0 {
        keys.push(lo.to_vec());
    }
    keys.sort();
    keys.dedup();
    keys
}

/// Keys as near to boundaries that rise as can be: lo, lo with one byte more, just below hi.
pub fn keys_near(lo: &[u8], hi: &[u8]) -> Vec<Vec<u8>> {
    let last = if hi.is_empty() { [lo, b"k"].concat() } else { one_less(hi) };
    let mut keys = vec![lo.to_vec(), [lo, &[0]].concat(), last];
    keys.retain(|key| Bounds { sibling: 0, lo, hi }.hold(key));
    keys.sort();
    keys.dedup();
    keys
}

/// A string just below: its last byte one less, or without it where that is 0.
fn one_less(bytes: &[u8]) -> Vec<u8> {
    let mut less = bytes.to_vec();
    match less.pop() {
        None | Some(0) => {}
        Some(last) => less.push(last - 1),
    }
    less
}

/// A key that number 10 speaks of, though it begins as the boundaries do: hi itself, just above it, just below lo, a proper beginning
/// of lo. None where no key lies outside.
pub fn key_outside(rng: &mut Prng, lo: &[u8], hi: &[u8]) -> Option<Vec<u8>> {
    let bounds = Bounds { sibling: 0, lo, hi };
    let prefix = image::prefix(lo, hi);
    let beginning = lo[..rng.between(prefix.len(), lo.len())].to_vec();
    let mut keys = vec![hi.to_vec(), [hi, &[0]].concat(), one_less(lo), beginning];
    keys.retain(|key| key.starts_with(prefix) && !bounds.hold(key) && key.len() <= MAX_KEY);
    (!keys.is_empty()).then(|| rng.pick(&keys))
}

/// Boundaries that do not rise: equal, or the wrong way round. None where there is no boundary to take.
pub fn bounds_fallen(rng: &mut Prng, lo: &[u8], hi: &[u8]) -> Option<(Vec<u8>, Vec<u8>)> {
    let mut pairs = vec![(lo, lo), (hi, hi), (hi, lo)];
    pairs.retain(|&(lo, hi)| !Bounds { sibling: 0, lo, hi }.rise());
    (!pairs.is_empty()).then(|| rng.pick(&pairs)).map(|(lo, hi)| (lo.to_vec(), hi.to_vec()))
}

/// How boundaries lie, and each key to them, by name: for tests that count what the sampler makes.
pub fn lies(lo: &[u8], hi: &[u8], keys: &[Vec<u8>]) -> Vec<&'static str> {
    let bounds = Bounds { sibling: 0, lo, hi };
    let mut kinds = vec![match (lo.is_empty(), hi.is_empty()) {
        (true, true) => "no boundaries",
        (false, true) => "lo alone",
        (true, false) => "hi alone",
        _ if lo == hi => "lo is hi",
        _ if lo > hi => "lo above hi",
        _ if hi.starts_with(lo) => "lo begins hi",
        _ => "lo below hi",
    }];
    for key in keys {
        let inside = bounds.rise() && bounds.hold(key);
        kinds.push(match (inside, &key[..]) {
            (true, key) if key == lo && !lo.is_empty() => "a key that is lo",
            (true, key) if key.len() == lo.len() + 1 && key.starts_with(lo) => "lo and a byte more",
            (true, key) if !hi.is_empty() && key == one_less(hi) => "hi's last byte one less",
            (true, key) if !key.is_empty() && hi.starts_with(key) => "a beginning of hi",
            (true, _) => "a key between",
            (false, _) if !bounds.rise() => "a key where nothing lies between",
            (false, key) if key == hi => "outside: hi",
            (false, key) if key > hi && key >= lo => "outside: above hi",
            (false, key) if lo.starts_with(key) => "outside: a beginning of lo",
            (false, key) if key == one_less(lo) => "outside: one byte below lo",
            _ => "outside: below lo",
        });
    }
    kinds
}

/// At most so many rising boundaries strictly between lo and hi, at which the keys may be parted: just above lo, a key, just above one,
/// a beginning of one.
pub fn cuts(rng: &mut Prng, lo: &[u8], hi: &[u8], keys: &[Vec<u8>], most: usize) -> Vec<Vec<u8>> {
    let mut cuts = vec![[lo, &[0]].concat()];
    for key in keys {
        let beginning = key[..rng.below(key.len() + 1)].to_vec();
        cuts.extend([key.clone(), [&key[..], &[0]].concat(), beginning]);
    }
    let bounds = Bounds { sibling: 0, lo, hi };
    cuts.retain(|cut| &cut[..] != lo && bounds.hold(cut) && cut.len() <= MAX_KEY);
    cuts.sort();
    cuts.dedup();
    while cuts.len() > most {
        cuts.remove(rng.below(cuts.len()));
    }
    cuts
}

/// Neighbouring pages: their boundaries, which meet at the cuts, each with the entries that lie between them.
pub fn parted<'a, T: Clone>(
    lo: &'a [u8],
    hi: &'a [u8],
    cuts: &'a [Vec<u8>],
    entries: &[T],
    key: impl Fn(&T) -> &[u8],
) -> Vec<(&'a [u8], &'a [u8], Vec<T>)> {
    let edges: Vec<&[u8]> =
        std::iter::once(lo).chain(cuts.iter().map(|cut| &cut[..])).chain([hi]).collect();
    let page = |edge: &[&'a [u8]]| {
        let bounds = Bounds { sibling: 0, lo: edge[0], hi: edge[1] };
        (edge[0], edge[1], entries.iter().filter(|e| bounds.hold(key(e))).cloned().collect())
    };
    edges.windows(2).map(page).collect()
}

/// A prefix of 0, 1 or many bytes.
pub fn prefix(rng: &mut Prng) -> Vec<u8> {
    let len = match rng.below(6) {
        0 | 1 => 0,
        2 => 1,
        3 => rng.between(2, 9),
        4 => rng.between(10, 30),
        _ => rng.pick(&[115, 127, 200]),
    };
    if len > 24 { vec![0x70; len] } else { rng.bytes(len) }
}

/// A stamp's numbers as text: TXID GROUP LSN CKPT.
pub fn stamp(rng: &mut Prng) -> String {
    let mut number = || match rng.below(6) {
        0 => 0,
        1 => u64::MAX,
        2 => rng.number(),
        _ => rng.below(100_000) as u64,
    };
    let (txid, lsn, checkpoint) = (number(), number(), number());
    format!("{txid} {} {lsn} {checkpoint}", rng.number() as u8)
}

/// Probes for a page: its keys, keys between, below and above, the prefix alone, longer ones.
pub fn probes(rng: &mut Prng, prefix: &[u8], keys: &[Vec<u8>], count: usize) -> Vec<Vec<u8>> {
    (0..count)
        .map(|_| {
            let mut probe = match keys {
                [] => prefix.to_vec(),
                _ => keys[rng.below(keys.len())].clone(),
            };
            match rng.below(7) {
                0..=2 => {}
                3 => probe.push(rng.pick(&[0x00, 0xff])),
                4 if probe.len() > prefix.len() => {
                    probe.pop();
                }
                5 if probe.len() > prefix.len() => {
                    let last = probe.len() - 1;
                    probe[last] = probe[last].wrapping_add(rng.pick(&[1, 255]));
                }
                _ => probe = [prefix, &rest(rng)].concat(),
            }
            probe
        })
        .collect()
}

//! The model is total: every byte of small arenas damaged, every reader run, no panic. Where a
//! damaged page is still sound, `Both` asks the Rust too.

use oracle::answer::{Bounds, Stamp};
use oracle::arena::Arena;
use oracle::both::Both;
use oracle::list::{Child, Entry};
use oracle::model;
use oracle::prng::Prng;
use oracle::sample::{index_list_of, list_of, row};

const STAMP: Stamp = Stamp { txid: 1, group: 1, lsn: 1, checkpoint: 1 };

/// An arena with frames of every kind, and their addresses.
fn every_kind() -> (Vec<u8>, Vec<u64>) {
    let mut both = Both::new(Arena::new(4096, 0));
    let bounds = Bounds { sibling: 7, lo: b"pa", hi: b"pz" };
    let rows = [
        row(b"pa", 9, 5, b"remote"),
        row(b"pa", 8, 5, b"older!"),
        row(b"pa", 7, 5, b"in"),
        row(b"pb", 9, 5, b""),
        row(b"pc", 9, 5, b"x"),
        row(b"pc", 9, 4, b"y"),
    ];
    let leaf = both.leaf(8, 4, 256, &STAMP, &bounds, &list_of(&rows)).unwrap();
    let index = both
        .index(
            leaf.next,
            &STAMP,
            &bounds,
            &index_list_of(&[(b"pa".to_vec(), 1), (b"pb".to_vec(), 2)]),
        )
        .unwrap();
    // a neighbour, so that a merge may be accepted
    let right = Bounds { sibling: 0, lo: b"pz", hi: b"" };
    let row = [row(b"pz", 9, 5, b"right")];
    let neighbour = both.leaf(index.next, 64, 256, &STAMP, &right, &list_of(&row)).unwrap();
    let e = Entry { key: b"pa", txid: 9, cmd: 5, value: b"remote" };
    let delta = both.leaf_delta(neighbour.next, 4, &STAMP, &e).unwrap();
    let tree = both.index_delta(delta.next, &STAMP, &Child { key: b"pa", pid: 5 }).unwrap();
    let bytes = both.arena.bytes()[..tree.next as usize].to_vec();
    let all = (0..bytes.len() as u64 + 16).step_by(8).collect();
    (bytes, all)
}

/// Every reader on every address that could be a frame's. Answers do not matter here.
fn read_everything(both: &mut Both, addresses: &[u64]) {
    for &addr in addresses {
        let _ = both.check(addr);
        let _ = model::sound(both.arena.bytes(), addr);
        let _ = both.lo(addr).is_ok();
        let _ = both.hi(addr).is_ok();
        let _ = both.prefix(addr).is_ok();
        let _ = both.history_hints(addr);
        let _ = both.remote_hints(addr);
        for probe in [&b""[..], b"p", b"pa", b"pb", b"q"] {
            let _ = both.lower_bound(addr, probe, 9, 5);
            let _ = both.floor(addr, probe);
            let _ = both.search(addr, probe);
            for (txid, cmd) in [(0, 0), (8, 5), (9, 4), (9, 5)] {
                let _ = both.as_of(addr, probe, txid, cmd);
            }
        }
        for (begin, end) in [(0, 0), (0, 1), (0, 2), (0, 3), (2, 3), (0, u64::MAX)] {
            let _ = both.walk(addr, begin, end);
        }
        for (start, end) in [(-1, 0), (0, 0), (2, 0), (0, -1)] {
            let _ = both.walk_back(addr, start, end);
        }
        let _ = both.leaf_delta_key(addr).is_ok();
        let _ = both.leaf_delta_value(addr).is_ok();
        let _ = both.index_delta_key(addr).is_ok();
        let _ = both.index_delta_pid(addr).is_ok();
    }
}

/// The addresses of frames in the undamaged arena.
fn frames(bytes: &[u8], all: &[u64]) -> Vec<u64> {
    all.iter().copied().filter(|&addr| model::sound(bytes, addr).is_ok()).collect()
}

#[test]
fn every_byte_damaged() {
    let (bytes, all) = every_kind();
    let frames = frames(&bytes, &all);
    assert!(frames.len() >= 8, "{frames:?}");
    let mut both = Both::new(Arena::from_bytes(&bytes));
    read_everything(&mut both, &all);
    for (at, &old) in bytes.iter().enumerate() {
        for value in [old ^ 1, old ^ 0x80, old.wrapping_add(1), 0, 0xff] {
            both.arena.bytes_mut()[at] = value;
            read_everything(&mut both, &frames);
        }
        both.arena.bytes_mut()[at] = old;
    }
}

#[test]
fn many_bytes_damaged() {
    let (bytes, all) = every_kind();
    let frames = frames(&bytes, &all);
    let mut rng = Prng::new(5);
    let pages: Vec<u64> =
        frames.iter().copied().filter(|&addr| model::page(&bytes, addr).is_ok()).collect();
    let mut merged = 0;
    for _ in 0..4000 {
        let room = vec![0; 1024];
        let mut both = Both::new(Arena::from_bytes(&[&bytes[..], &room].concat()));
        for _ in 0..rng.between(1, 6) {
            let at = rng.below(bytes.len());
            both.arena.bytes_mut()[at] = match rng.below(3) {
                0 => rng.number() as u8,
                // a byte of elsewhere: lengths, addresses and slots that could be right
                1 => bytes[rng.below(bytes.len())],
                _ => rng.pick(&[0, 1, 2, 8, 0x7f, 0x80, 0xff]),
            };
        }
        read_everything(&mut both, &frames);
        let (left, right) = (rng.pick(&pages), rng.pick(&pages));
        let answer = both.merge(bytes.len() as u64, 64, 256, &STAMP, left, right);
        merged += usize::from(answer.is_ok());
    }
    assert!(merged > 100, "{merged} merges of damaged pages that are still sound");
}

#[test]
fn every_length_cut() {
    let (bytes, all) = every_kind();
    for len in 0..bytes.len() {
        let mut both = Both::new(Arena::from_bytes(&bytes[..len]));
        read_everything(&mut both, &all[all.len().saturating_sub(12)..]);
        read_everything(&mut both, &all[..12.min(all.len())]);
    }
}

#[test]
fn noise() {
    let mut rng = Prng::new(6);
    for _ in 0..300 {
        let len = rng.below(300);
        let mut both = Both::new(Arena::from_bytes(&rng.bytes(len)));
        let addresses: Vec<u64> = (0..len as u64 + 9).collect();
        read_everything(&mut both, &addresses);
    }
    let mut both = Both::new(Arena::new(64, 0));
    read_everything(&mut both, &[0, 1, 7, 8, 56, 64, 65, 72, 1 << 32, u64::MAX - 7, u64::MAX]);
}

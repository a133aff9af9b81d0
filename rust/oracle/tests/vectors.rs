//! The golden vectors in the repository are what the oracle makes, and replay to themselves.

use std::collections::{BTreeMap, BTreeSet};
use std::path::PathBuf;

use oracle::{script, text, vectors};

fn dir() -> PathBuf {
    PathBuf::from(env!("CARGO_MANIFEST_DIR")).join("../../tests/vectors")
}

#[test]
fn regenerate_identically() {
    let made = vectors::all();
    let mut bytes = 0;
    for v in &made {
        let text = std::fs::read_to_string(dir().join(v.name)).expect(v.name);
        assert!(text == v.text, "{} is not what `oracle vectors` makes", v.name);
        bytes += text.len();
        assert!(text.is_ascii());
        assert!(text.lines().all(|l| l.len() <= vectors::MAX_LINE));
    }
    assert!(bytes < 3_200_000);
    // and no file lies there that nobody makes
    for file in std::fs::read_dir(dir()).unwrap() {
        let name = file.unwrap().file_name().into_string().unwrap();
        assert!(name == "README.md" || vectors::NAMES.contains(&&name[..]), "{name}");
    }
}

#[test]
fn replay_to_themselves() {
    for v in vectors::all() {
        let (again, _) = script::run(&v.text).unwrap();
        assert!(again == v.text, "{} does not replay to itself", v.name);
    }
}

/// What tests/vectors/README.md promises to a program that has no heap.
#[test]
fn sizes_are_as_promised() {
    for v in vectors::all() {
        for line in v.text.lines().filter(|l| !l.starts_with('#')) {
            let words: Vec<&str> = line.split(' ').collect();
            let bytes = |at: usize| text::read(words[at]).unwrap().len();
            let (longest, most) = match words[0] {
                "arena" => (words[1].parse().unwrap(), vectors::MAX_ARENA),
                "leaf" => (bytes(11), 262_144),
                "index" => (bytes(9), 262_144),
                "buffer" => (bytes(1), 4_096),
                "put" => (bytes(2), 65_536),
                "bytes" => (bytes(2), 32_768),
                "dleaf" => (bytes(9), 65_537),
                "search" | "floor" | "lower" => (bytes(2), 16_384),
                "r" => (bytes(4), 65_536),
                _ => (0, 0),
            };
            assert!(longest <= most, "{}: {longest} in {:.60}", v.name, line);
        }
    }
}

/// Every number of a call occurs, and no other: 7 is no reader's.
#[test]
fn every_number_occurs() {
    let all: String = vectors::all().into_iter().map(|v| v.text).collect();
    let mut calls = BTreeMap::<&str, BTreeSet<u8>>::new();
    let mut command = "";
    for line in all.lines() {
        match line.split(' ').next().unwrap() {
            "!" => _ = calls.entry(command).or_default().insert(line[2..].parse().unwrap()),
            "#" | "=" | "none" | "bytes" | "r" | "i" | "end" => {}
            word => command = word,
        }
    }
    for (call, numbers) in [
        ("leaf", &[1, 2, 3, 6, 7, 9, 10][..]),
        ("index", &[1, 2, 3, 6, 7, 9, 10]),
        ("merge", &[1, 2, 4, 5, 6, 7, 8, 9, 10]),
        ("dleaf", &[1, 2, 3, 9]),
        ("dindex", &[2, 3, 9]),
        ("check", &[4]),
        ("lower", &[4]),
        ("floor", &[4]),
        ("search", &[4]),
        ("walk", &[4]),
        ("back", &[4]),
        ("lo", &[4]),
        ("hi", &[4]),
        ("prefix", &[4]),
        ("hists", &[4]),
        ("remotes", &[4]),
        ("dkey", &[4]),
        ("dval", &[4]),
        ("ikey", &[4]),
        ("ipid", &[4]),
        ("overlay", &[4]),
        ("unlength", &[4]),
    ] {
        let found = calls.remove(call).unwrap_or_default();
        assert_eq!(found, numbers.iter().copied().collect(), "the numbers of {call}");
    }
    assert_eq!(calls, BTreeMap::new(), "calls that are not listed here");
}

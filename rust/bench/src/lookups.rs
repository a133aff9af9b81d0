//! Rows of the calls that look for one key: search, lower bound, as of, floor.

use crate::others::{Lmdb, Sqlite};
use crate::sheet::Sheet;
use bench::cases::{CALLS, Case};
use bench::number;
use bench::timing::{Contestant, EACH, Time, race};
use cresttrestle::sys::*;
use oracle::Ver;
use std::process::{Command, Stdio};

pub fn rows(case: &Case, sheet: &mut Sheet) {
    let (arena, built) = case.leaf();
    let (p, len, addr) = (arena.bytes().as_ptr(), arena.bytes().len(), built.addr);
    let leaf = arena.leaf_page(addr);
    let keys = |round| case.probes(round).iter().map(|&i| &case.keys[i][..]);

    // A lookup ends with the value's bytes in hand, for everybody.
    let mut ours = |round| {
        let mut out = [0u64; CT_OUT_WORDS];
        keys(round).fold(0, |sum: u64, key| {
            // SAFETY: here and below, arenas, keys and words outlive the calls.
            let refused = unsafe {
                ct_search(p, len, addr, key.as_ptr(), key.len(), out.as_mut_ptr(), out.len())
            };
            assert!(refused == 0 && out[0] == 1, "the key is there");
            sum.wrapping_add(number(&arena.bytes()[out[4] as usize..]))
        })
    };
    let mut rust = |round| {
        keys(round).fold(0, |sum: u64, key| {
            let found = leaf.search(key, &mut ()).expect("the key is there");
            sum.wrapping_add(number(leaf.value(&found.1)))
        })
    };
    sheet.row(case, "search", || {
        let newest = || case.keys.iter().enumerate().map(|(i, k)| (&k[..], case.value(i)));
        let (lmdb, sqlite) = (Lmdb::open(newest()), Sqlite::open(newest()));
        let mut lookups: Vec<Contestant> = vec![&mut ours, &mut rust];
        let mut names = Vec::new();
        let mut from_lmdb;
        match &lmdb {
            Some(db) => {
                from_lmdb = |round| keys(round).fold(0u64, |sum, k| sum.wrapping_add(db.lookup(k)));
                lookups.push(&mut from_lmdb);
                names.push(db.version.clone());
            }
            None => {
                eprintln!("LMDB is left out: liblmdb.so is not there (apt-get install liblmdb0)")
            }
        }
        let mut from_sqlite;
        match &sqlite {
            Some(db) => {
                from_sqlite =
                    |round| keys(round).fold(0u64, |sum, k| sum.wrapping_add(db.lookup(k)));
                lookups.push(&mut from_sqlite);
                names.push(db.version.clone());
            }
            None => eprintln!(
                "SQLite is left out: libsqlite3.so is not there (apt-get install libsqlite3-0)"
            ),
        }
        (race(CALLS, EACH, &mut lookups), names)
    });

    let mut ours = |round| {
        let mut out = [0u64; CT_OUT_WORDS];
        keys(round).fold(0, |sum, key| {
            let (key, key_len, words) = (key.as_ptr(), key.len(), out.as_mut_ptr());
            unsafe { ct_lower_bound(p, len, addr, key, key_len, 50, 0, words, CT_OUT_WORDS) };
            sum + out[1]
        })
    };
    let mut rust =
        |round| keys(round).map(|k| leaf.lower_bound(k, Ver::new(50, 0), &mut ()) as u64).sum();
    sheet.race(case, "lower bound", CALLS, &mut ours, &mut rust);

    sheet.row(case, "as of", || (as_of(case), Vec::new()));

    let (index, root) = case.index();
    let (p, len) = (index.bytes().as_ptr(), index.bytes().len());
    let tree = index.index_page(root.addr);
    let mut ours = |round| {
        let mut out = [0u64; CT_OUT_WORDS];
        keys(round).fold(0, |sum, key| {
            unsafe {
                ct_floor(p, len, root.addr, key.as_ptr(), key.len(), out.as_mut_ptr(), out.len())
            };
            sum + out[2]
        })
    };
    let mut rust = |round| keys(round).map(|k| tree.floor(k, &mut ()).map_or(0, |f| f.1)).sum();
    sheet.race(case, "floor", CALLS, &mut ours, &mut rust);
}

/// Ours and the Rust's times of a row as of a version, by the program beside this one that times them.
fn as_of(case: &Case) -> Vec<Time> {
    let program = std::env::current_exe().expect("this program's path").with_file_name("asof");
    let ran = Command::new(program)
        .args([case.keys.len(), case.key_len()].map(|n| n.to_string()))
        .stderr(Stdio::inherit())
        .output()
        .expect("asof is built (cargo build)");
    assert!(ran.status.success(), "asof failed");
    let said = String::from_utf8(ran.stdout).expect("two lines of numbers");
    let numbers: Vec<f64> = said.split_whitespace().map(|n| n.parse().expect("a number")).collect();
    numbers.chunks_exact(2).map(|t| Time { median: t[0], fast: t[1] }).collect()
}

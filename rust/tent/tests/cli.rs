//! Runs the program itself: what it prints, its exit status by number, and what it does to the file.

use cresttrestle::Build;
use oracle::prng::Prng;
use std::fs;
use std::path::{Path, PathBuf};
use std::process::{Command, Output};
use std::time::Duration;

/// A folder of its own for each test, gone afterwards.
struct Folder(PathBuf);

impl Folder {
    fn new(name: &str) -> Self {
        let path = std::env::temp_dir().join(format!("tent-test-{}-{name}", std::process::id()));
        fs::create_dir_all(&path).unwrap();
        Folder(path)
    }

    fn write(&self, name: &str, bytes: impl AsRef<[u8]>) {
        fs::write(self.0.join(name), bytes).unwrap();
    }

    fn read(&self, name: &str) -> Vec<u8> {
        fs::read(self.0.join(name)).unwrap()
    }

    fn names(&self) -> Vec<String> {
        let mut names: Vec<String> = fs::read_dir(&self.0)
            .unwrap()
            .map(|e| e.unwrap().file_name().into_string().unwrap())
            .collect();
        names.sort();
        names
    }

    fn command(&self, line: &[&str]) -> Command {
        let mut command = Command::new(Path::new(env!("CARGO_BIN_EXE_tent")));
        command.current_dir(&self.0).args(line);
        command
    }

    fn run(&self, line: &[&str]) -> Output {
        self.command(line).output().unwrap()
    }

    /// What a command prints that must succeed.
    fn ok(&self, line: &[&str]) -> String {
        let out = self.run(line);
        assert!(out.status.success(), "{line:?}: {}", String::from_utf8_lossy(&out.stderr));
        String::from_utf8(out.stdout).unwrap()
    }

    /// A command that must end with a status and words, and leave every file of the folder as it was.
    fn stops(&self, status: i32, words: &str, line: &[&str]) {
        let before: Vec<_> = self.names().into_iter().map(|n| (self.read(&n), n)).collect();
        let out = self.run(line);
        let said = String::from_utf8_lossy(&out.stderr);
        assert_eq!(out.status.code(), Some(status), "{line:?}: {said}");
        assert!(said.contains(words), "{line:?}: {words:?} is not in {said}");
        let after: Vec<_> = self.names().into_iter().map(|n| (self.read(&n), n)).collect();
        assert!(before == after, "{line:?} changed a file");
    }
}

impl Drop for Folder {
    fn drop(&mut self) {
        let _ = fs::remove_dir_all(&self.0);
    }
}

#[test]
fn p7_from_rows_to_bytes() {
    let f = Folder::new("p7");
    f.write("p7.csv", "# newest or oldest first, the order is the tool's\na,3,z\na,5,xy\n");
    assert_eq!(
        f.ok(&[
            "make", "p7.arena", "p7.csv", "--limit", "64", "--budget", "256", "--txid", "5",
            "--size", "240"
        ]),
        "page 104 next 240\n"
    );
    let arena = f.read("p7.arena");
    assert_eq!(arena.len(), 240);
    assert_eq!(arena[..8], 240u64.to_le_bytes());
    // the judge's bytes from 8 on
    let text = fs::read_to_string(
        Path::new(env!("CARGO_MANIFEST_DIR")).join("../../tests/vectors/cases.txt"),
    )
    .unwrap();
    let bytes = text
        .lines()
        .skip_while(|l| !l.starts_with("# P7"))
        .find_map(|l| l.strip_prefix("bytes 8 "))
        .unwrap();
    assert_eq!(arena[8..], oracle::text::read(bytes).unwrap());
    assert_eq!(f.ok(&["list", "p7.arena"]), "a,5,xy\n");
    assert_eq!(f.ok(&["list", "p7.arena", "--all"]), "a,5,xy\na,3,z\n");
    assert_eq!(f.ok(&["get", "p7.arena", "a"]), "a,5,xy\n");
    assert_eq!(f.ok(&["get", "p7.arena", "0x61", "--all", "--page=104"]), "a,5,xy\na,3,z\n");
    assert_eq!(f.ok(&["check", "p7.arena"]), "sound: leaf page at 104, keys 1\n");
    assert!(f.ok(&["show", "p7.arena"]).ends_with("sound\n"));
    assert!(f.ok(&["show", "p7.arena", "8"]).ends_with("as laid out, but no leaf or index page\n"));
    assert_eq!(f.ok(&["frames", "p7.arena"]).lines().count(), 3);
    f.stops(32, "none", &["get", "p7.arena", "b"]);
}

/// Order 2: without --budget history pages are the default's, 271 old rows of 100 bytes in two; at the Rust's budget they stand in one.
#[test]
fn history_pages_of_the_default_budget() {
    let f = Folder::new("budget");
    let old = (0..271).map(|cmd| format!("k,8.{cmd},{}\n", "v".repeat(100)));
    f.write("rows.csv", "k,9,\n".to_string() + &old.collect::<String>());
    let rust = Build::RUST_HIST_PAGE_BUDGET.to_string();
    let make = ["make", "small", "rows.csv", "--limit", "512"];
    assert_eq!(f.ok(&make), "page 32952 next 33192\n");
    let make = ["make", "large", "rows.csv", "--limit", "512", "--budget", &rust];
    assert_eq!(f.ok(&make), "page 32872 next 33104\n");
    assert_eq!(f.ok(&["list", "small", "--all"]), f.ok(&["list", "large", "--all"]));
    assert!(f.ok(&["help"]).contains(&format!("--budget {} ", Build::HIST_PAGE_BUDGET)));
}

/// Order 3: a key that does not begin with the page's prefix is asked for like any other, and bounds a list like any other.
#[test]
fn keys_from_elsewhere() {
    let f = Folder::new("elsewhere");
    f.write("rows.csv", "ba,3,1\nbb,5,2\nbb,4,3\nbc,2,4\n");
    f.ok(&["make", "a", "rows.csv", "--lo", "ba", "--hi", "bd"]);
    for key in ["azz", "c", "b"] {
        f.stops(32, "none", &["get", "a", key]);
        f.stops(32, "none", &["get", "a", key, "--as-of", "9"]);
    }
    let all = "ba,3,1\nbb,5,2\nbc,2,4\n";
    assert_eq!(f.ok(&["list", "a", "--from", "azz", "--to", "c"]), all);
    assert_eq!(f.ok(&["list", "a", "--from", "a", "--to", "bb"]), "ba,3,1\n");
    assert_eq!(f.ok(&["list", "a", "--from", "bb", "--to", "x"]), "bb,5,2\nbc,2,4\n");
    for (from, to) in [("c", "d"), ("a", "azz"), ("x", "a")] {
        assert_eq!(f.ok(&["list", "a", "--from", from, "--to", to]), "", "{from} to {to}");
    }
}

#[test]
fn what_is_listed_makes_the_same_page() {
    let (f, mut random) = (Folder::new("again"), Prng::new(7));
    let odd = [
        "",
        "0x61",
        "#note",
        " blank ",
        "comma,",
        "quo\"te",
        "\"",
        "caf\u{e9} \u{2212}30 \u{b0}C",
        "tab\tin",
        "-5",
    ];
    let mut rows = String::new();
    for (i, key) in odd.iter().enumerate() {
        rows += &format!(
            "\"{}\",{},\"{}\"\n",
            key.replace('"', "\"\""),
            i + 1,
            odd[(i + 3) % odd.len()].replace('"', "\"\"")
        );
    }
    for _ in 0..200 {
        let hex =
            |bytes: Vec<u8>| bytes.iter().fold("0x".to_string(), |s, b| s + &format!("{b:02x}"));
        let (k, v) = (random.between(1, 3), random.between(0, 90));
        rows += &format!(
            "{},{}.{},{}\n",
            hex(random.bytes(k)),
            random.number() % 1000,
            random.below(3),
            hex(random.bytes(v))
        );
    }
    f.write("rows.csv", &rows);
    f.ok(&["make", "one", "rows.csv", "--budget", "256"]);
    let listed = f.ok(&["list", "one", "--all"]);
    assert_eq!(listed.lines().count(), rows.lines().count(), "every row once");
    f.write("listed.csv", &listed);
    // the list is in order, so it is accepted as it is, and the file comes out byte for byte
    f.ok(&["make", "two", "listed.csv", "--budget", "256", "--as-is"]);
    assert!(f.read("one") == f.read("two"));
    for key in odd {
        let quoted = format!("\"{}\"", key.replace('"', "\"\""));
        assert_eq!(f.ok(&["get", "one", "--", &quoted]).lines().count(), 1, "{key:?}");
    }
    assert!(f.ok(&["get", "one", "--", "-5"]).starts_with("-5,10,"));
}

#[test]
fn ranges_backward_and_merges() {
    let f = Folder::new("merge");
    f.write("left.csv", "b,1,one\nd,2,two\nd,1,old\n");
    f.write("right.csv", "f,1,six\nh,3,eight\n");
    assert_eq!(
        f.ok(&["make", "a", "left.csv", "--hi", "e", "--sibling", "7"]).split(' ').next(),
        Some("page")
    );
    let left = last_page(&f);
    f.ok(&["make", "a", "right.csv", "--lo", "e"]);
    let right = last_page(&f);
    assert_eq!(f.ok(&["list", "a"]), "f,1,six\nh,3,eight\n", "the last page is meant");
    assert_eq!(f.ok(&["list", "a", "--page", &left]), "b,1,one\nd,2,two\n");
    f.ok(&["merge", "a", &left, &right]);
    assert_eq!(f.ok(&["list", "a", "--all"]), "b,1,one\nd,2,two\nd,1,old\nf,1,six\nh,3,eight\n");
    assert_eq!(f.ok(&["list", "a", "--from", "c", "--to", "h"]), "d,2,two\nf,1,six\n");
    assert_eq!(
        f.ok(&["list", "a", "--back", "--all", "--to", "g"]),
        "f,1,six\nd,2,two\nd,1,old\nb,1,one\n"
    );
    assert_eq!(f.ok(&["list", "a", "--back", "--from", "e", "--to", "e"]), "");
    assert_eq!(f.ok(&["list", "a", "--back", "--from", "z"]), "");
    // an index page: keys and page ids
    f.write("index.csv", "m,12\n\"\",11\n");
    f.ok(&["make", "i", "index.csv", "--index"]);
    assert_eq!(f.ok(&["list", "i"]), ",11\nm,12\n");
    assert!(f.ok(&["check", "i"]).starts_with("sound: index page"));
}

/// Order 4: neighbours meet at a boundary; a page that leaves a gap, one without hi and the wrong way round are refused, by number.
#[test]
fn only_neighbours_merge() {
    let f = Folder::new("neighbours");
    let page = |name: &str, rows: &str, bounds: &[&str]| {
        f.write(name, rows);
        f.ok(&[&["make", "a", name], bounds].concat());
        last_page(&f)
    };
    // order 4's A, B, C, E and N
    let a = page("A.csv", "e,1,v\n", &["--lo", "d", "--hi", "h"]);
    let b = page("B.csv", "i,1,v\n", &["--lo", "h", "--hi", "p"]);
    let c = page("C.csv", "q,1,v\n", &["--lo", "p"]);
    let e = page("E.csv", "", &["--lo", "h", "--hi", "p"]);
    let n = page("N.csv", "", &[]);
    for (left, right) in [(&a, &c), (&c, &n), (&n, &n), (&e, &e)] {
        f.stops(10, "boundaries do not meet", &["merge", "a", left, right]);
    }
    f.stops(6, "out of order", &["merge", "a", &b, &a]);
    f.stops(6, "out of order", &["merge", "a", &a, &a]);
    f.stops(7, "wrong prefix", &["merge", "a", &e, &a]);
    assert_eq!(f.ok(&["merge", "a", &a, &b]), "page 472 next 600\n");
    assert_eq!(f.ok(&["list", "a"]), "e,1,v\ni,1,v\n");
    f.ok(&["merge", "a", &a, &e]);
    f.ok(&["merge", "a", &b, &c]);
    assert_eq!(f.ok(&["list", "a"]), "i,1,v\nq,1,v\n");
}

/// Order 4: a page from before it, whose first key is below its lo, is told as damaged, and its row is still found.
#[test]
fn a_key_below_lo_is_told_in_words() {
    let f = Folder::new("below");
    f.write("rows.csv", "c,1,v\n");
    f.ok(&["make", "a", "rows.csv", "--lo", "c", "--size", "112"]);
    let mut bytes = f.read("a");
    bytes[84] = b'd';
    f.write("a", &bytes);
    f.stops(4, "key \"c\" 63 is outside the boundaries: below lo", &["check", "a"]);
    assert_eq!(f.ok(&["get", "a", "c"]), "c,1,v\n");
    assert_eq!(f.ok(&["list", "a"]), "c,1,v\n");
}

/// The address of the last page, as `check` tells it.
fn last_page(f: &Folder) -> String {
    let said = f.ok(&["check", "a"]);
    said.split("at ").nth(1).unwrap().split(',').next().unwrap().to_string()
}

#[test]
fn as_of_a_version() {
    let f = Folder::new("as-of");
    f.write("rows.csv", "a,9,new\na,7.2,mid\na,7,early\na,4,old\nb,8,only\nc,3,long ago\n");
    f.ok(&["make", "a", "rows.csv", "--budget", "256", "--limit", "4"]);
    let get = |key: &str, ver: &str| f.ok(&["get", "a", key, "--as-of", ver]);
    assert_eq!(get("a", "9"), "a,9,new\n");
    assert_eq!(get("a", "8"), "a,7.2,mid\n");
    assert_eq!(get("a", "7"), "a,7.2,mid\n", "all of the transaction");
    assert_eq!(get("a", "7.1"), "a,7,early\n");
    assert_eq!(get("a", "7.0"), "a,7,early\n", "no newer: itself too");
    assert_eq!(get("a", "6"), "a,4,old\n");
    f.stops(32, "all rows of this key are newer", &["get", "a", "a", "--as-of", "3"]);
    f.stops(32, "the page has no such key", &["get", "a", "x", "--as-of", "9"]);
    assert_eq!(f.ok(&["get", "a", "a", "--as-of=7.1", "--all"]), "a,7,early\na,4,old\n");
    assert_eq!(f.ok(&["list", "a", "--as-of", "7"]), "a,7.2,mid\nc,3,long ago\n");
    assert_eq!(
        f.ok(&["list", "a", "--as-of", "8", "--back", "--from", "b"]),
        "c,3,long ago\nb,8,only\n"
    );
    assert_eq!(f.ok(&["list", "a", "--as-of", "6", "--all"]), "a,4,old\nc,3,long ago\n");
    assert_eq!(f.ok(&["list", "a", "--as-of", "2"]), "");
    // a row a key, as `get` says each
    for ver in ["9", "8.0", "7", "7.1", "5", "3", "2"] {
        let one =
            |key| String::from_utf8(f.run(&["get", "a", key, "--as-of", ver]).stdout).unwrap();
        assert_eq!(f.ok(&["list", "a", "--as-of", ver]), one("a") + &one("b") + &one("c"));
    }
    let shown = f.ok(&["show", "a", "--as-of", "7.1"]);
    let marked: Vec<&str> = shown.lines().filter(|line| line.contains("as of")).collect();
    assert!(marked[0].contains("version 7  value") && marked[0].ends_with("  <-- as of 7.1"));
    assert!(marked[1].ends_with("as of 7.1: none, all are newer"));
    assert!(marked[2].contains("version 3  value") && marked.len() == 3, "{shown}");
    // a skipped newer row needs no remote: its frame is damaged, and only the row itself is refused
    let mut bytes = f.read("a");
    let newest = bytes.windows(8).rposition(|w| w == b"long ago").expect("the remote of c");
    bytes[newest - 8] ^= 1;
    f.write("b", &bytes);
    f.stops(4, "bad frame", &["get", "b", "c", "--as-of", "3"]);
    f.stops(32, "newer", &["get", "b", "c", "--as-of", "2"]);
    f.write("index.csv", "m,12\n");
    f.ok(&["make", "i", "index.csv", "--index"]);
    f.stops(64, "an index page has no versions", &["list", "i", "--as-of", "7"]);
    f.stops(64, "is no version", &["get", "a", "a", "--as-of", "last year"]);
}

#[test]
fn every_refusal_by_number_changes_nothing() {
    let f = Folder::new("refused");
    f.write("rows.csv", "ba,5,xy\nba,3,z\nbc,1,w\n");
    f.ok(&["make", "a", "rows.csv", "--lo", "ba", "--hi", "bd", "--size", "560"]);
    f.ok(&["make", "a", "rows.csv", "--lo", "ba", "--hi", "bd"]);
    let page = last_page(&f);
    f.stops(1, "bad limit", &["make", "a", "rows.csv", "--limit", "0"]);
    f.stops(1, "bad limit", &["merge", "a", &page, &page, "--budget", "255"]);
    let mut broken = f.read("a");
    broken[0] ^= 1;
    f.write("odd-mark", &broken);
    f.stops(2, "the mark of odd-mark", &["list", "odd-mark"]);
    f.stops(2, "the mark of odd-mark", &["make", "odd-mark", "rows.csv"]);
    f.write("short", [8, 0, 0]);
    f.stops(2, "no room for its mark", &["make", "short", "rows.csv"]);
    f.write("long.csv", format!("k,1,{}\n", "v".repeat(65_537)));
    f.stops(3, "bad list", &["make", "new", "long.csv"]);
    f.write("long-key.csv", format!("{},1,v\n", "k".repeat(70_000)));
    f.stops(3, "bad list", &["make", "new", "long-key.csv"]);
    f.stops(4, "bad frame", &["list", "a", "--page", "16"]);
    f.stops(4, "bad frame", &["merge", "a", "8", &page]);
    f.write("index.csv", "m,12\n");
    f.ok(&["make", "mixed", "rows.csv"]);
    f.ok(&["make", "mixed", "index.csv", "--index"]);
    let pages: Vec<String> = f
        .ok(&["frames", "mixed"])
        .lines()
        .filter(|l| l.contains("leaf page") || l.contains("index page"))
        .map(|l| l.split_whitespace().next().unwrap().into())
        .collect();
    f.stops(5, "mixed kinds", &["merge", "mixed", &pages[0], &pages[1]]);
    f.write("twice.csv", "a,1,x\na,1,y\n");
    f.stops(6, "out of order", &["make", "a", "twice.csv"]);
    f.write("falling.csv", "b,1,x\na,1,y\n");
    f.stops(6, "out of order", &["make", "new", "falling.csv", "--as-is"]);
    f.stops(7, "wrong prefix", &["make", "a", "falling.csv", "--lo", "ba", "--hi", "bd"]);
    // a key from elsewhere is a key that is not there
    f.stops(32, "none", &["get", "a", "xa"]);
    f.stops(10, "refused 10, outside", &["make", "a", "rows.csv", "--lo", "bb"]);
    f.stops(10, "outside", &["make", "a", "rows.csv", "--lo", "ba", "--hi", "bc"]);
    f.stops(10, "outside", &["make", "a", "rows.csv", "--lo", "x", "--hi", "b"]);
    f.write("index-b.csv", "ba,1\n");
    f.stops(10, "outside", &["make", "a", "index-b.csv", "--index", "--hi", "ba"]);
    f.write("many.csv", (0..65_536).map(|i| format!("k{i},1,\n")).collect::<String>());
    f.stops(8, "too big", &["make", "new", "many.csv"]);
    f.stops(9, "--size makes it longer", &["make", "a", "rows.csv"]);
    assert!(!f.names().contains(&"new".to_string()), "a refused build makes no file");
    // and with more room it goes on
    f.ok(&["make", "a", "rows.csv", "--size", "800"]);
    assert_eq!(f.read("a").len(), 800);
}

#[test]
fn wrong_lines_and_files() {
    let f = Folder::new("usage");
    f.write("rows.csv", "a,5,xy\n");
    f.write("bad.csv", "a,5,xy\n\nb,five,z\n");
    f.write("two.csv", "a,5\n");
    f.write("latin.csv", [b'a', b',', b'5', b',', 0xe9, b'\n']);
    f.stops(64, "a command is missing", &[]);
    f.stops(64, "no such command", &["mak"]);
    f.stops(64, "does not know --limits", &["make", "a", "rows.csv", "--limits", "3"]);
    f.stops(64, "given twice", &["make", "a", "rows.csv", "--limit", "3", "--limit", "4"]);
    f.stops(64, "wants a value", &["make", "a", "rows.csv", "--limit"]);
    f.stops(64, "no such number", &["make", "a", "rows.csv", "--limit", "many"]);
    f.stops(64, "1 words given", &["make", "a"]);
    f.stops(64, "is over", &["make", "a", "rows.csv", "--size", "9999999999"]);
    f.stops(64, "is not bytes in hex", &["delta", "a", "0x1", "5", "v"]);
    f.stops(65, "line 3", &["make", "a", "bad.csv"]);
    f.stops(65, "2 fields, 3 are wanted", &["make", "a", "two.csv"]);
    f.stops(65, "not UTF-8", &["make", "a", "latin.csv"]);
    f.stops(74, "no-such-file", &["list", "no-such-file"]);
    f.stops(74, "no.csv", &["make", "a", "no.csv"]);
    f.stops(74, "no-such-folder", &["make", "no-such-folder/a", "rows.csv"]);
    let help = f.ok(&["--help"]);
    assert!(help.contains("Exit status") && help.lines().all(|l| l.len() <= 80));
}

#[test]
fn a_damaged_page_is_told_in_words() {
    let f = Folder::new("damaged");
    f.write("p7.csv", "a,5,xy\na,3,z\n");
    f.ok(&["make", "a", "p7.csv", "--budget", "256", "--size", "240"]);
    let mut bytes = f.read("a");
    bytes[176..178].copy_from_slice(&812u16.to_le_bytes());
    f.write("a", &bytes);
    f.stops(
        4,
        "at 176 (0xb0): slot 0: offset 812 is outside the page of 85 bytes",
        &["check", "a"],
    );
    f.stops(4, "refused 4", &["show", "a"]);
    let shown = f.run(&["show", "a"]);
    assert!(
        String::from_utf8_lossy(&shown.stdout)
            .contains("!! at 176 (0xb0): slot 0: offset 812 is outside the page of 85 bytes\n")
    );
    // a frame that cannot be passed hides what is behind it; a page given by its address is still found
    bytes[176..178].copy_from_slice(&44u16.to_le_bytes());
    bytes[12] = 9;
    f.write("a", &bytes);
    f.stops(4, "name the frame with --page", &["get", "a", "a"]);
    assert_eq!(f.ok(&["get", "a", "a", "--page", "104"]), "a,5,xy\n");
}

#[test]
fn a_delta_lies_over_a_page() {
    let f = Folder::new("overlay");
    f.write("rows.csv", "a,5,xy\nb,5,b\n");
    f.ok(&["make", "a", "rows.csv"]);
    assert!(
        f.ok(&["delta", "d", "a", "6.1", "newer", "--size", "1024"]).starts_with("delta 8 next ")
    );
    assert_eq!(f.ok(&["overlay", "a", "d", "a"]), "delta,a,newer\n");
    assert_eq!(f.ok(&["overlay", "a", "d", "b"]), "page,b,b\n");
    f.stops(32, "none", &["overlay", "a", "d", "c"]);
    f.ok(&["delta", "d", "a", "4", "older"]);
    assert_eq!(f.ok(&["overlay", "a", "d", "a"]), "page,a,xy\n");
    assert_eq!(f.ok(&["overlay", "a", "d", "a", "--delta", "8"]), "delta,a,newer\n");
}

#[test]
fn barometers() {
    let f = Folder::new("barometer");
    f.write("b.csv", "20417:-300,9,-1250\n20417:-300,7,-1240\n20417:5,9,2147483647\n7:-32768,1,0\n4294967295:32767,1,-2147483648\n");
    f.ok(&["make", "b", "b.csv", "--barometer"]);
    assert_eq!(f.ok(&["get", "b", "--barometer", "20417:-300"]), "20417:-300,9,-1250\n");
    assert_eq!(
        f.ok(&["get", "b", "0x00004fc17ed4"]),
        "0x00004fc17ed4,9,0xfffffb1e\n",
        "minus thirty, as order 10 writes it"
    );
    let listed = f.ok(&["list", "b", "--barometer", "--all"]);
    assert_eq!(listed.lines().next(), Some("7:-32768,1,0"), "cold rows first");
    f.write("again.csv", &listed);
    f.ok(&["make", "again", "again.csv", "--barometer", "--as-is"]);
    assert!(f.read("b") == f.read("again"));
    f.stops(64, "is no serial:tenths", &["get", "b", "--barometer", "minus thirty"]);
}

#[test]
fn a_link_stays_a_link() {
    let f = Folder::new("link");
    f.write("rows.csv", "a,5,xy\n");
    f.ok(&["make", "a", "rows.csv"]);
    std::os::unix::fs::symlink("a", f.0.join("link")).unwrap();
    f.write("rows.csv", "a,6,newer\n");
    f.ok(&["make", "link", "rows.csv"]);
    assert!(f.0.join("link").is_symlink());
    assert_eq!(f.ok(&["list", "a"]), "a,6,newer\n");
}

/// A run that is killed in the middle of its write: the shell's limit on a file's length sends the signal.
#[test]
fn killed_in_the_middle_of_the_write() {
    let f = Folder::new("middle");
    f.write("rows.csv", "a,5,xy\n");
    f.ok(&["make", "a", "rows.csv", "--size", "400000"]);
    let (old, names) = (f.read("a"), f.names());
    let line = format!(
        "ulimit -c 0; ulimit -f 100; exec '{}' make a rows.csv",
        env!("CARGO_BIN_EXE_tent")
    );
    let killed = Command::new("sh").current_dir(&f.0).args(["-c", &line]).output().unwrap();
    assert_eq!(killed.status.code(), None, "ended by a signal: {killed:?}");
    assert!(f.read("a") == old, "the file is as it was");
    let left: Vec<String> = f.names().into_iter().filter(|n| !names.contains(n)).collect();
    assert!(left.len() == 1 && left[0].starts_with(".tent-"), "what is left behind: {left:?}");
    assert!((1..old.len()).contains(&f.read(&left[0]).len()), "a part was written");
    // and it harms nobody
    assert_eq!(f.ok(&["list", "a"]), "a,5,xy\n");
    f.ok(&["make", "a", "rows.csv"]);
    f.ok(&["check", "a"]);
}

/// Killed at any time, a run leaves the old file or the new one, never a part.
#[test]
fn killed_at_any_time() {
    let f = Folder::new("killed");
    f.write("rows.csv", (0..3_000).map(|i| format!("k{i:05},1,value {i}\n")).collect::<String>());
    f.write(".tent-1-a", "left behind by another run");
    f.ok(&["make", "a", "rows.csv", "--size", "4000000"]);
    let listed = f.ok(&["list", "a"]);
    let (mut old, mut done, mut killed) = (f.read("a"), 0, 0);
    for round in 0..24 {
        let mut child = f
            .command(&["make", "a", "rows.csv"])
            .stdout(std::process::Stdio::null())
            .spawn()
            .unwrap();
        std::thread::sleep(Duration::from_micros(2_000 * round));
        child.kill().unwrap();
        child.wait().unwrap();
        let new = f.read("a");
        if new == old {
            killed += 1;
        } else {
            done += 1;
            assert_eq!(new.len(), old.len());
            assert_eq!(f.ok(&["list", "a"]), listed);
            // what lay below the old mark has not changed, but for the mark itself
            let mark = u64::from_le_bytes(old[..8].try_into().unwrap()) as usize;
            assert!(new[8..mark] == old[8..mark]);
        }
        old = new;
        f.ok(&["check", "a"]);
    }
    println!("{done} done, {killed} killed before");
    assert!(killed > 0, "nothing was killed in time");
    assert_eq!(f.read(".tent-1-a"), b"left behind by another run");
}

/// Runs the lines of README.md's tour and compares what they print.
#[test]
fn the_tour_of_the_readme() {
    let here = Path::new(env!("CARGO_MANIFEST_DIR"));
    let f = Folder::new("readme");
    fs::copy(here.join("sample/barometer.csv"), f.0.join("barometer.csv")).unwrap();
    let readme = fs::read_to_string(here.join("README.md")).unwrap();
    let tours: Vec<&str> = readme.split("```\n").skip(1).step_by(2).collect();
    for (tour, cut) in tours.iter().zip([false, true]) {
        let (mut commands, mut lines) = (0, tour.lines().peekable());
        while let Some(command) = lines.next() {
            let line: Vec<&str> =
                command.strip_prefix("$ tent ").expect("a command").split(' ').collect();
            let out = f.run(&line);
            let mut said =
                String::from_utf8(out.stdout).unwrap() + &String::from_utf8(out.stderr).unwrap();
            if !out.status.success() {
                said += &format!("(exit status {})\n", out.status.code().unwrap());
            }
            let mut wanted = String::new();
            while let Some(line) = lines.next_if(|l| !l.starts_with("$ ")) {
                wanted += line;
                wanted.push('\n');
            }
            assert!(
                if cut { said.contains(&wanted) } else { said == wanted },
                "{command}\n{said}\nis not\n{wanted}"
            );
            commands += 1;
        }
        assert!(commands > 0);
        let mut bytes = f.read("glacier.arena");
        bytes[232..234].copy_from_slice(&812u16.to_le_bytes());
        f.write("damaged.arena", &bytes);
    }
    assert_eq!(tours.len(), 2);
}

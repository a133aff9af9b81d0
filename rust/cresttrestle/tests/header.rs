//! src/sys.rs declares what include/cresttrestle.h declares: the same calls with the same parameters in the same order, the same
//! constants. The linker compares names only, so a parameter of another type would be undefined behaviour and nobody would say so.
//! Both texts are read strictly: a statement of a form that is not known here fails the test, so that none is passed over. The budgets
//! that have a name are constants of Rattle (crates/frames); the header's and the crate's are held to those.

use cresttrestle::Build;
use std::collections::BTreeMap;
use std::path::Path;

const HEADER: &str = include_str!("../../../include/cresttrestle.h");
const SYS: &str = include_str!("../src/sys.rs");
const RATTLE: &str = include_str!("../../../crates/frames/src/lib.rt");

/// Each declared name with its value, or with its parameters and result as Rust writes them: `fn(at: u64) -> u32`.
type Declared = BTreeMap<String, String>;

fn insert(declared: &mut Declared, name: &str, what: String) {
    let before = declared.insert(name.trim().to_string(), what);
    assert_eq!(before, None, "{name} is declared twice");
}

/// Both write a number in decimal, Rust with `_` between digits.
fn number(text: &str) -> String {
    let value: u64 = text.trim().replace('_', "").parse().expect(text);
    value.to_string()
}

fn call(params: &[(String, String)], result: &str) -> String {
    let params: Vec<String> = params.iter().map(|(name, kind)| format!("{name}: {kind}")).collect();
    format!("fn({}) -> {result}", params.join(", "))
}

fn without_comments(text: &str, open: &str, close: &str) -> String {
    let mut parts = text.split(open);
    let first = parts.next().unwrap_or_default().to_string();
    parts.fold(first, |kept, part| kept + "\n" + part.split_once(close).expect("a comment's end").1)
}

/// What stands before each `;`, with single blanks, without the brackets of the block that the calls stand in.
fn statements(text: &str, block: &str) -> Vec<String> {
    text.split(';')
        .map(|statement| statement.split_whitespace().collect::<Vec<_>>().join(" "))
        .map(|statement| statement.strip_prefix(block).unwrap_or(&statement).trim().to_string())
        .filter(|statement| !statement.is_empty() && statement != "}")
        .collect()
}

/// What a header declares.
fn of_c(header: &str) -> Declared {
    let mut declared = Declared::new();
    let mut code = String::new();
    for line in without_comments(header, "/*", "*/").lines() {
        match line.split_whitespace().collect::<Vec<_>>()[..] {
            ["#define", name, value] => insert(&mut declared, name, number(value)),
            ["#define" | "#ifndef" | "#ifdef" | "#include", _] | ["#endif"] => {}
            _ => code = code + line + "\n",
        }
    }
    for statement in statements(&code, r#"extern "C" {"#) {
        if let Some(list) = statement.strip_prefix("enum ct_refusal {") {
            for constant in list.strip_suffix('}').expect(&statement).split(',') {
                let (name, value) = constant.split_once('=').expect(constant);
                insert(&mut declared, name, number(value));
            }
        } else {
            let call_text = statement.strip_suffix(')').and_then(|s| s.split_once('('));
            let (front, params) = call_text.expect(&statement);
            let (name, result) = c_variable(front);
            let params: Vec<_> = params.split(',').map(c_variable).collect();
            insert(&mut declared, &name, call(&params, &result));
        }
    }
    declared
}

/// `const uint8_t *key`: the name, and the type in Rust.
fn c_variable(text: &str) -> (String, String) {
    let plain = |kind| match kind {
        "uint8_t" => "u8",
        "uint32_t" => "u32",
        "uint64_t" => "u64",
        "int64_t" => "i64",
        "size_t" => "usize",
        _ => panic!("a type that is not known here: {text}"),
    };
    let text = text.replace('*', " * ");
    match text.split_whitespace().collect::<Vec<_>>()[..] {
        [kind, name] => (name.to_string(), plain(kind).to_string()),
        [kind, "*", name] => (name.to_string(), format!("*mut {}", plain(kind))),
        ["const", kind, "*", name] => (name.to_string(), format!("*const {}", plain(kind))),
        _ => panic!("a type that is not known here: {text}"),
    }
}

/// What a Rust module of constants and of one block of calls declares.
fn of_rust(module: &str) -> Declared {
    let pair = |text: &str, mark| {
        let (a, b) = text.split_once(mark).expect(text);
        (a.trim().to_string(), b.trim().to_string())
    };
    let mut declared = Declared::new();
    for statement in statements(&without_comments(module, "//", "\n"), r#"unsafe extern "C" {"#) {
        if let Some(constant) = statement.strip_prefix("pub const ") {
            let (front, value) = pair(constant, "=");
            insert(&mut declared, &pair(&front, ":").0, number(&value));
        } else {
            let (name, rest) = pair(statement.strip_prefix("pub fn ").expect(&statement), "(");
            let (params, result) = pair(&rest, ") -> ");
            let params = params.trim_end_matches(',').split(',').map(|param| pair(param, ":"));
            insert(&mut declared, &name, call(&params.collect::<Vec<_>>(), &result));
        }
    }
    declared
}

/// The names that only one of the two declares, or both but differently.
fn differences(header: &Declared, sys: &Declared) -> Vec<String> {
    let all: Declared = header.iter().chain(sys).map(|(k, v)| (k.clone(), v.clone())).collect();
    all.into_keys().filter(|name| header.get(name) != sys.get(name)).collect()
}

#[test]
fn sys_is_the_header() {
    let (header, sys) = (of_c(HEADER), of_rust(SYS));
    let differ = differences(&header, &sys);
    for name in &differ {
        println!("{name}\n  header: {:?}\n  sys.rs: {:?}", header.get(name), sys.get(name));
    }
    assert!(differ.is_empty(), "the header and sys.rs differ in {differ:?}");
    // the last of each kind is there, so the texts were read to their ends
    assert_eq!((&*header["CT_STEP_WORDS"], &*header["CT_NO_ROOM"]), ("9", "9"));
    assert!(
        header["ct_overlay"].ends_with("key_len: usize, out: *mut u64, out_len: usize) -> u32")
    );
}

/// The value of an associated constant of Rattle, which declares each once.
fn of_rattle(source: &str, name: &str) -> u64 {
    let front = format!("pub const {name}: usize =");
    let values: Vec<&str> =
        source.lines().filter_map(|line| line.trim().strip_prefix(&front)).collect();
    let [value] = values[..] else { panic!("{name} is declared {} times", values.len()) };
    number(value.strip_suffix(';').expect(value)).parse().expect(value)
}

#[test]
fn budgets_are_rattles() {
    let (header, sys) = (of_c(HEADER), of_rust(SYS));
    for (name, crates) in [
        ("HIST_PAGE_BUDGET", Build::HIST_PAGE_BUDGET),
        ("RUST_HIST_PAGE_BUDGET", Build::RUST_HIST_PAGE_BUDGET),
    ] {
        let rattle = of_rattle(RATTLE, name);
        assert_eq!(crates, rattle, "{name} of the crate");
        let (c, raw) = (&header[&format!("CT_{name}")], &sys[&format!("CT_{name}")]);
        assert_eq!((c, raw), (&rattle.to_string(), &rattle.to_string()), "{name} of C and sys.rs");
    }
    assert_eq!(Build::default().budget, Build::HIST_PAGE_BUDGET);
    let small = "    pub const A: usize = 1_800;\n    pub const AB: usize = 7;\n";
    assert_eq!((of_rattle(small, "A"), of_rattle(small, "AB")), (1800, 7));
}

const SMALL_C: &str = r#"/* words; */
#define CT_WORDS 1800
enum ct_refusal {
    CT_OK = 0, /* , */
    CT_BAD = 1
};
uint32_t first(const uint8_t *key, size_t key_len, uint64_t *out,
               int64_t at);
uint32_t second(uint32_t cmd);
"#;
const SMALL_RUST: &str = r#"//! words;
pub const CT_WORDS: usize = 1_800;
pub const CT_OK: u32 = 0;
pub const CT_BAD: u32 = 1;
unsafe extern "C" {
    pub fn first(
        key: *const u8,
        key_len: usize,
        out: *mut u64,
        at: i64,
    ) -> u32;
    pub fn second(cmd: u32) -> u32;
}
"#;

/// Each way in which one text may leave the other is found, by name.
#[test]
fn a_difference_is_found() {
    let found = |c: &str, rust: &str| differences(&of_c(c), &of_rust(rust)).join(" ");
    assert_eq!(found(SMALL_C, SMALL_RUST), "");
    for (name, from, to) in [
        ("second", "uint32_t second(uint32_t cmd);", ""),
        ("third", "uint32_t second", "uint32_t third(uint64_t at);\nuint32_t second"),
        ("first", ", size_t key_len", ""),
        ("first", "int64_t at", "int64_t at, uint8_t group"),
        ("first", "const uint8_t *key, size_t key_len", "size_t key_len, const uint8_t *key"),
        ("first", "uint64_t *out", "const uint64_t *out"),
        ("first", "uint64_t *out", "uint64_t out"),
        ("second", "uint32_t second", "uint64_t second"),
        ("CT_WORDS", "1800", "1801"),
        ("CT_WORDS", "#define CT_WORDS 1800", ""),
        ("CT_BAD", "CT_BAD = 1", "CT_BAD = 2"),
        ("CT_WORSE", "CT_BAD = 1", "CT_BAD = 1, CT_WORSE = 2"),
    ] {
        assert!(SMALL_C.contains(from), "{from}");
        assert_eq!(found(&SMALL_C.replacen(from, to, 1), SMALL_RUST), name, "{from} made {to}");
    }
    for (name, from, to) in [
        ("second", "pub fn second(cmd: u32) -> u32;", ""),
        ("third", "pub fn second", "pub fn third(at: u64) -> u32;\n    pub fn second"),
        ("first", "at: i64,", ""),
        ("first", "at: i64,", "at: i64, group: u8,"),
        ("first", "at: i64", "at: u64"),
        ("first", "*mut u64", "*const u64"),
        ("second", "cmd: u32", "txid: u32"),
        ("second", "second(cmd: u32) -> u32", "second(cmd: u32) -> u64"),
        ("CT_WORDS", "1_800", "1_801"),
        ("CT_BAD", "pub const CT_BAD: u32 = 1;", ""),
    ] {
        assert!(SMALL_RUST.contains(from), "{from}");
        assert_eq!(found(SMALL_C, &SMALL_RUST.replacen(from, to, 1)), name, "{from} made {to}");
    }
}

/// No other file of rust/ declares a call again.
#[test]
fn declared_in_one_place() {
    let mut folders = vec![Path::new(env!("CARGO_MANIFEST_DIR")).join("..")];
    let mut declaring = Vec::new();
    while let Some(folder) = folders.pop() {
        for path in folder.read_dir().unwrap().map(|entry| entry.unwrap().path()) {
            if path.is_dir() && !path.ends_with("target") {
                folders.push(path);
            } else if path.extension().is_some_and(|ending| ending == "rs") {
                let text = std::fs::read_to_string(&path).unwrap();
                let mut lines = text.lines().map(|line| line.trim().trim_start_matches("pub "));
                if lines.any(|line| line.starts_with("fn ct_")) {
                    declaring.push(path);
                }
            }
        }
    }
    assert!(
        declaring.len() == 1 && declaring[0].ends_with("cresttrestle/src/sys.rs"),
        "{declaring:?}"
    );
}

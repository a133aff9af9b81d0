//! What each command does. Answers go to `out`; a command that stops has written nothing to a file.

use crate::args::{Args, number};
use crate::decode::{BASE, DELTA, LEAF, Version};
use crate::file::ArenaFile;
use crate::rows::{self, Form, address, version};
use crate::show::{self, Line, Look, Verdict, What};
use crate::stop::Stop;
use cresttrestle::{
    Addr, Bounds, Build, IndexList, Kind, Laid, Page, PageId, Record, Refusal, RowList, Ver, Walk,
};
use std::io::Write;

pub const HELP: &str = include_str!("help.txt");

type Done = Result<(), Stop>;

/// Options of every command that writes.
const BUILD: [&str; 7] = ["size", "limit", "budget", "group", "txid", "lsn", "checkpoint"];
const MAKE: [&str; 10] =
    ["size", "limit", "budget", "group", "txid", "lsn", "checkpoint", "lo", "hi", "sibling"];

const LIST: [&str; 4] = ["page", "from", "to", "as-of"];

/// Runs a command line without the program's name.
pub fn run(line: &[String], out: &mut dyn Write) -> Done {
    let Some((command, rest)) = line.split_first() else {
        return Err(Stop::Usage("a command is missing".into()));
    };
    match command.as_str() {
        "make" => make(&Args::parse(rest, &MAKE, &["index", "as-is", "barometer"])?, out),
        "merge" => merge(&Args::parse(rest, &BUILD, &[])?, out),
        "delta" => delta(&Args::parse(rest, &BUILD, &["barometer"])?, out),
        "get" => get(&Args::parse(rest, &["page", "as-of"], &["all", "barometer"])?, out),
        "list" => list(&Args::parse(rest, &LIST, &["all", "back", "barometer"])?, out),
        "overlay" => overlay(&Args::parse(rest, &["page", "delta"], &["barometer"])?, out),
        "check" => check(&Args::parse(rest, &["page"], &[])?, out),
        "show" => show(&Args::parse(rest, &["page", "as-of"], &["full", "barometer"])?, out),
        "frames" => frames(&Args::parse(rest, &[], &[])?, out),
        "help" | "--help" | "-h" => say(out, HELP.trim_end()),
        other => Err(Stop::Usage(format!("no such command: {other}"))),
    }
}

fn say(out: &mut dyn Write, line: impl AsRef<str>) -> Done {
    writeln!(out, "{}", line.as_ref()).map_err(Stop::output)
}

fn form(args: &Args) -> Form {
    if args.has("barometer") { Form::Barometer } else { Form::Plain }
}

/// A key or value of the command line.
fn word<T>(read: Result<T, String>) -> Result<T, Stop> {
    read.map_err(Stop::Usage)
}

fn build(args: &Args) -> Result<Build, Stop> {
    let usual = Build::default();
    Ok(Build {
        limit: args.number("limit")?.unwrap_or(usual.limit),
        budget: args.number("budget")?.unwrap_or(usual.budget),
        group: args.number("group")?.unwrap_or(usual.group),
        txid: args.number("txid")?.unwrap_or(usual.txid),
        lsn: args.number("lsn")?.unwrap_or(usual.lsn),
        checkpoint: args.number("checkpoint")?.unwrap_or(usual.checkpoint),
    })
}

fn make(args: &Args, out: &mut dyn Write) -> Done {
    let [path, rows] = args.words(["ARENA", "ROWS.csv"])?;
    let (form, build) = (form(args), build(args)?);
    let edge = |name: &str| args.value(name).map(|v| word(form.key(v))).transpose();
    let (lo, hi) = (edge("lo")?.unwrap_or_default(), edge("hi")?);
    let bounds = Bounds {
        lo: &lo,
        hi: hi.as_deref(),
        sibling: args.number("sibling")?.and_then(PageId::new),
    };
    let mut file = ArenaFile::open_or_new(path, args.number("size")?)?;
    let bytes = std::fs::read(rows).map_err(|e| Stop::Io(format!("{rows}: {e}")))?;
    let text =
        String::from_utf8(bytes).map_err(|e| Stop::Rows(format!("{rows}: not UTF-8: {e}")))?;
    // A field too long for the list's own length field is far over the table's lengths: number 3, as a list with it would be.
    let long = |_| Stop::Refused(Refusal::BadList, "a key or value is far too long".into());
    let page = if args.has("index") {
        let mut children = form.children(&text)?;
        if !args.has("as-is") {
            children.sort_by(|a, b| a.key.cmp(&b.key));
        }
        let mut list = IndexList::new();
        for child in &children {
            list.push(&child.key, child.page).map_err(long)?;
        }
        file.write(|arena| arena.new_intl(list.bytes(), bounds, build))?
    } else {
        let mut all = form.rows(&text)?;
        if !args.has("as-is") {
            all.sort_by(|a, b| a.key.cmp(&b.key).then(b.ver.cmp(&a.ver)));
        }
        let mut list = RowList::new();
        for row in &all {
            list.push(&row.key, row.ver, &row.value).map_err(long)?;
        }
        file.write(|arena| arena.new_leaf(list.bytes(), bounds, build))?
    };
    written(out, "page", page, &file)
}

fn written(out: &mut dyn Write, sort: &str, addr: Addr, file: &ArenaFile) -> Done {
    say(out, format!("{sort} {addr} next {}", file.next()?))
}

fn merge(args: &Args, out: &mut dyn Write) -> Done {
    let [path, left, right] = args.words(["ARENA", "LEFT", "RIGHT"])?;
    let (left, right, build) =
        (Addr::new(address(left)?), Addr::new(address(right)?), build(args)?);
    let mut file = longer(path, args)?;
    let page = file.write(|arena| arena.merge(left, right, build))?;
    written(out, "page", page, &file)
}

/// An arena that is there, made longer where that is asked for.
fn longer(path: &str, args: &Args) -> Result<ArenaFile, Stop> {
    ArenaFile::open(path)?;
    ArenaFile::open_or_new(path, args.number("size")?)
}

fn delta(args: &Args, out: &mut dyn Write) -> Done {
    let [path, key, ver, value] = args.words(["ARENA", "KEY", "VERSION", "VALUE"])?;
    let (form, build) = (form(args), build(args)?);
    let (key, ver, value) = (word(form.key(key))?, word(version(ver))?, word(form.value(value))?);
    let mut file = ArenaFile::open_or_new(path, args.number("size")?)?;
    let addr = file.write(|arena| arena.delta_leaf(&key, ver, &value, build))?;
    written(out, "delta", addr, &file)
}

/// The page that a reading command means.
fn page<'a>(args: &Args, file: &'a ArenaFile) -> Result<Page<'a>, Stop> {
    Ok(file.view().page(file.page(args.number("page")?)?))
}

/// The version that is looked back to; only a leaf has versions.
fn as_of(args: &Args, page: Page) -> Result<Option<Ver>, Stop> {
    let ver = args.value("as-of").map(|v| word(rows::as_of(v))).transpose()?;
    match page.info() {
        Ok(info) if ver.is_some() && info.kind == Kind::Index => {
            Err(Stop::Usage("--as-of wants a leaf: an index page has no versions".into()))
        }
        _ => Ok(ver),
    }
}

fn get(args: &Args, out: &mut dyn Write) -> Done {
    let [path, key] = args.words(["ARENA", "KEY"])?;
    let (form, file) = (form(args), ArenaFile::open(path)?);
    let (key, page) = (word(form.key(key))?, page(args, &file)?);
    let as_of = as_of(args, page)?;
    let (slot, ver, value) = match as_of {
        None => {
            let found = page.search(&key)?.ok_or(Stop::Nothing)?;
            (found.slot, found.ver, found.value)
        }
        Some(ver) => {
            let absent = || page.search(&key).is_ok_and(|found| found.is_none());
            let row = page.as_of(&key, ver)?;
            let row = row.ok_or_else(|| if absent() { Stop::Nothing } else { Stop::Newer })?;
            (row.slot, row.ver, row.value)
        }
    };
    if args.has("all") {
        return records(page.walk(slot..slot + 1)?, true, as_of, form, out);
    }
    say(out, form.row_text(&key, ver, value))
}

fn list(args: &Args, out: &mut dyn Write) -> Done {
    let [path] = args.words(["ARENA"])?;
    let (form, file) = (form(args), ArenaFile::open(path)?);
    let edge = |name: &str| args.value(name).map(|v| word(form.key(v))).transpose();
    let (from, to, page) = (edge("from")?, edge("to")?, page(args, &file)?);
    let walk = if args.has("back") {
        let place =
            |key: &[u8]| Ok::<i64, Refusal>(page.lower_bound(key, Ver::NEWEST)?.position as i64);
        let end = from.as_deref().map(place).transpose()?.unwrap_or(0);
        let above = to.as_deref().map(place).transpose()?;
        page.walk_back(above.map_or_else(|| page.info().map(|i| i.len as i64), Ok)? - 1, end)?
    } else {
        page.range(from.as_deref(), to.as_deref())?
    };
    records(walk, args.has("all"), as_of(args, page)?, form, out)
}

/// A record a line, those that are no newer than `as_of`; without `all` only the newest of each key.
fn records(walk: Walk, all: bool, as_of: Option<Ver>, form: Form, out: &mut dyn Write) -> Done {
    let mut before = None;
    for record in walk {
        match record? {
            Record::Row(row) if as_of.is_some_and(|ver| row.ver > ver) => {}
            Record::Row(row) => {
                let key = row.key.to_vec();
                if all || before.as_ref() != Some(&key) {
                    say(out, form.row_text(&key, row.ver, row.value))?;
                }
                before = Some(key);
            }
            Record::Child(child) => {
                say(
                    out,
                    format!(
                        "{},{}",
                        form.key_text(&child.key.to_vec()),
                        child.page.map_or(0, |id| id.get())
                    ),
                )?;
            }
        }
    }
    Ok(())
}

fn overlay(args: &Args, out: &mut dyn Write) -> Done {
    let [path, over, key] = args.words(["ARENA", "DELTA-ARENA", "KEY"])?;
    let (form, file, over) = (form(args), ArenaFile::open(path)?, ArenaFile::open(over)?);
    let (key, page) = (word(form.key(key))?, page(args, &file)?);
    let delta = over.last(args.number("delta")?, "leaf delta", "--delta", |f| {
        f.kind == DELTA && f.node_type == LEAF
    })?;
    let laid = page.overlay(over.view().delta(delta), &key)?.ok_or(Stop::Nothing)?;
    let from = if matches!(laid, Laid::Delta(_)) { "delta" } else { "page" };
    let (Laid::Delta(value) | Laid::Page(value)) = laid;
    say(out, format!("{from},{},{}", form.key_text(&key), form.value_text(value)))
}

fn check(args: &Args, out: &mut dyn Write) -> Done {
    let [path] = args.words(["ARENA"])?;
    let file = ArenaFile::open(path)?;
    let page = page(args, &file)?;
    if let Err(why) = page.check() {
        let first = show::frame(
            file.bytes(),
            page.addr().get(),
            Look { full: false, form: Form::Plain, as_of: None },
        )
        .faults
        .first()
        .map(ToString::to_string);
        return Err(Stop::Refused(
            why,
            first.unwrap_or_else(|| format!("no leaf or index page at {}", page.addr())),
        ));
    }
    let info = page.info()?;
    let kind = if info.kind == Kind::Leaf { "leaf" } else { "index" };
    say(out, format!("sound: {kind} page at {}, keys {}", page.addr(), info.len))
}

fn show(args: &Args, out: &mut dyn Write) -> Done {
    let file = ArenaFile::open(args.first("ARENA")?)?;
    let given = match args.rest() {
        [] => args.number("page")?,
        [word] if args.value("page").is_none() => Some(number("address", word)?),
        _ => return Err(Stop::Usage("show wants ARENA and at most one address".into())),
    };
    let page = file.view().page(file.page(given)?);
    let as_of = as_of(args, page)?;
    let look = Look { full: args.has("full"), form: form(args), as_of };
    let shown = show::frame(file.bytes(), page.addr().get(), look);
    write!(out, "{}", shown.text).map_err(Stop::output)?;
    // The printer has a decoder of its own, so it is asked here whether the proved library agrees.
    let sound = page.check();
    if sound.is_ok() != (shown.verdict == Verdict::Sound) {
        return Err(Stop::Bug(format!("show and the check disagree about page {}", page.addr())));
    }
    if sound.is_ok() {
        let walked: Result<Vec<Line>, Refusal> =
            page.walk(..)?.map(|record| record.map(line)).collect();
        if walked? != shown.lines {
            return Err(Stop::Bug(format!(
                "show and the walk disagree about page {}",
                page.addr()
            )));
        }
        if let Some(ver) = as_of
            && answers(page, ver, &shown.lines)? != shown.answers
        {
            return Err(Stop::Bug(format!(
                "show and the lookup as of a version disagree about page {}",
                page.addr()
            )));
        }
    }
    match (sound, shown.verdict) {
        (Err(why), Verdict::Damaged) => Err(why.into()),
        _ => Ok(()),
    }
}

/// What the library answers for each key of the lines as of a version, in the printer's form.
pub fn answers(page: Page, ver: Ver, lines: &[Line]) -> Result<Vec<Line>, Refusal> {
    let keys = lines.chunk_by(|a, b| a.key == b.key).map(|versions| &versions[0].key);
    let row = |key: &Vec<u8>| match page.as_of(key, ver) {
        Ok(row) => row.map(|row| Ok(row_line(key.clone(), row.ver, row.value))),
        Err(why) => Some(Err(why)),
    };
    keys.filter_map(row).collect()
}

fn row_line(key: Vec<u8>, ver: Ver, value: &[u8]) -> Line {
    let version = Version { txid: ver.txid, cmd: ver.cmd };
    Line { key, what: What::Row(version, value.to_vec()) }
}

/// A record of the library in the printer's form.
pub fn line(record: Record) -> Line {
    let key = record.key().to_vec();
    match record {
        Record::Row(row) => row_line(key, row.ver, row.value),
        Record::Child(child) => {
            Line { key, what: What::Child(child.page.map_or(0, |id| id.get())) }
        }
    }
}

fn frames(args: &Args, out: &mut dyn Write) -> Done {
    let [path] = args.words(["ARENA"])?;
    let file = ArenaFile::open(path)?;
    for f in file.frames()? {
        let sort = match (f.kind, f.node_type == LEAF) {
            (BASE, true) if f.is_history() => "history page",
            (BASE, true) => "leaf page",
            (BASE, false) => "index page",
            (DELTA, true) => "leaf delta",
            (DELTA, false) => "index delta",
            _ => "remote",
        };
        say(out, format!("{:>10}  {sort:<13} {:>8} bytes", f.addr, f.end() - f.addr))?;
    }
    say(out, format!("{:>10}  next free address of {} bytes", file.next()?, file.bytes().len()))
}

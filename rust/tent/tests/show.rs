//! The page printer is held against the proved library: it must say "sound" exactly where the check says 0, and print what the walk
//! lists; on a sound page it must mark, as of a version, what the lookup answers. Pages come from the judge's vectors (built, merged, crafted and damaged ones) and from random damage to them.

use cresttrestle::{Addr, Arena, Bounds, Build, IndexList, PageId, RowList, Ver, View};
use oracle::prng::Prng;
use oracle::text;
use std::path::Path;
use tent::commands::{answers, line};
use tent::rows::Form;
use tent::show::{self, Line, Look, Verdict, What};

const WHOLE: Look = Look { full: true, form: Form::Plain, as_of: None };
const CUT: Look = Look { full: false, form: Form::Plain, as_of: None };

/// Compares what is shown of a frame with the check and, on a sound page, with the walk; a frame of any other kind with the judge's
/// definition of its soundness, since the library has no check for it. Answers whether it is a sound page.
fn agree(arena: &[u8], addr: u64) -> bool {
    let page = View::new(arena).page(Addr::new(addr));
    let shown = show::frame(arena, addr, WHOLE);
    let sound = page.check().is_ok();
    assert_eq!(
        shown.verdict == Verdict::Sound,
        sound,
        "page {addr} of {}:\n{}",
        text::write(arena),
        shown.text
    );
    assert_eq!(shown.verdict == Verdict::Damaged, !shown.faults.is_empty());
    let judged = oracle::model::sound(arena, addr).is_ok();
    assert_eq!(
        shown.faults.is_empty(),
        judged,
        "frame {addr} of {}:\n{}",
        text::write(arena),
        shown.text
    );
    if sound {
        let walked: Vec<Line> = page
            .walk(..)
            .expect("a sound page")
            .map(|record| line(record.expect("a sound page")))
            .collect();
        assert_eq!(shown.lines, walked, "page {addr}:\n{}", shown.text);
        marks_agree(arena, addr, &walked);
    }
    sound
}

/// As of a version of the page's own (its last row's, so that there are newer ones) and as of the one just before it.
fn marks_agree(arena: &[u8], addr: u64, walked: &[Line]) {
    let Some(Line { what: What::Row(last, _), .. }) = walked.last() else { return };
    let before = match (last.txid, last.cmd) {
        (0, 0) => Ver::default(),
        (txid, 0) => Ver::of_txid(txid - 1),
        (txid, cmd) => Ver::new(txid, cmd - 1),
    };
    for ver in [Ver::new(last.txid, last.cmd), before] {
        let shown = show::frame(arena, addr, Look { as_of: Some(ver), ..CUT });
        let page = View::new(arena).page(Addr::new(addr));
        let asked = answers(page, ver, walked).expect("a sound page");
        assert_eq!(shown.answers, asked, "as of {ver:?}, page {addr}:\n{}", shown.text);
        let marked = shown.text.lines().filter(|line| line.contains("  <-- as of ")).count();
        let none =
            shown.text.lines().filter(|line| line.ends_with(": none, all are newer")).count();
        let keys = walked.chunk_by(|a, b| a.key == b.key).count();
        assert_eq!((marked, none), (asked.len(), keys - asked.len()), "{}", shown.text);
    }
}

/// The text of a file of vectors.
fn vectors(name: &str) -> String {
    let path = Path::new(env!("CARGO_MANIFEST_DIR")).join("../../tests/vectors").join(name);
    std::fs::read_to_string(path).expect("vectors")
}

const FILES: [&str; 9] = [
    "cases.txt",
    "built.txt",
    "searches.txt",
    "walks.txt",
    "merges.txt",
    "refused.txt",
    "crafted.txt",
    "damaged.txt",
    "deltas.txt",
];

/// Replays a file's arenas without judging anything: what was put, and the bytes that the judge says a build stored. `asked` is called
/// at every command that names a frame, with the command's first word, the frame and the answer's first word.
fn replay(name: &str, mut asked: impl FnMut(&[u8], &str, u64, &str)) {
    let (text, mut arena) = (vectors(name), Vec::new());
    let lines: Vec<Vec<&str>> = text.lines().map(|l| l.split(' ').collect()).collect();
    for (line, next) in lines.iter().zip(lines.iter().skip(1)) {
        let number = |i: usize| line[i].parse::<u64>().expect("a number");
        match line[0] {
            "arena" => arena = vec![number(2) as u8; number(1) as usize],
            "put" | "bytes" => {
                let (at, bytes) = (number(1) as usize, text::read(line[2]).expect("bytes"));
                arena[at..at + bytes.len()].copy_from_slice(&bytes);
            }
            "check" | "lower" | "floor" | "search" | "walk" | "back" | "lo" | "hi" | "prefix"
            | "hists" | "remotes" | "dkey" | "dval" | "ikey" | "ipid" => {
                asked(&arena, line[0], number(1), next[0]);
            }
            _ => (),
        }
    }
}

#[test]
fn every_page_of_the_vectors() {
    let (mut sound, mut damaged) = (0, 0);
    for name in FILES {
        let mut last = (Vec::new(), 0);
        replay(name, |arena, command, addr, answer| {
            // the same page in the same bytes is not judged twice
            if command == "check" || last.0 != arena || last.1 != addr {
                let found = agree(arena, addr);
                assert!(
                    command != "check" || found == (answer == "="),
                    "the judge says {answer} of page {addr}"
                );
                *if found { &mut sound } else { &mut damaged } += 1;
                last = (arena.to_vec(), addr);
            }
        });
    }
    println!("{sound} sound, {damaged} damaged");
    assert!(
        sound > 1_500 && damaged > 1_500,
        "{sound} sound and {damaged} damaged pages are too few to show anything"
    );
}

/// The arenas of the vectors that hold a sound frame and are small, each with the frame's address.
fn frames() -> Vec<(Vec<u8>, u64)> {
    let mut out: Vec<(Vec<u8>, u64)> = Vec::new();
    for name in FILES {
        replay(name, |arena, _, addr, _| {
            let known = out.last().is_some_and(|(a, p)| a == arena && *p == addr);
            if arena.len() <= 16_384 && !known && oracle::model::sound(arena, addr).is_ok() {
                out.push((arena.to_vec(), addr));
            }
        });
    }
    out
}

#[test]
fn random_damage() {
    let (frames, mut random) = (frames(), Prng::new(20_261_115));
    let (mut sound, mut damaged) = (0, 0);
    for _ in 0..30_000 {
        let (mut arena, mut addr) = random.pick(&frames);
        for _ in 0..random.between(1, 3) {
            let at = random.below(arena.len());
            match random.below(4) {
                0 => arena[at] = random.number() as u8,
                1 => arena[at] ^= 1 << random.below(8),
                2 => arena[at] = arena[at].wrapping_add(random.pick(&[1, 255])),
                _ => {
                    // a stretch from elsewhere, as a torn write leaves it
                    let (from, len) = (random.below(arena.len()), random.between(1, 16));
                    let part = arena[from..arena.len().min(from + len)].to_vec();
                    let len = part.len().min(arena.len() - at);
                    arena[at..at + len].copy_from_slice(&part[..len]);
                }
            }
        }
        match random.below(20) {
            0 => arena.truncate(random.below(arena.len() + 1)),
            1 => addr = random.below(arena.len() + 16) as u64,
            2 => addr = 8 * random.below(arena.len() / 8 + 2) as u64,
            _ => (),
        }
        *if agree(&arena, addr) { &mut sound } else { &mut damaged } += 1;
    }
    println!("{sound} sound, {damaged} damaged");
    assert!(
        sound > 1_500 && damaged > 1_500,
        "{sound} sound and {damaged} damaged pages are too few to show anything"
    );
}

/// P7's arena of 240 bytes, its page at 104.
fn p7() -> Vec<u8> {
    let mut found = None;
    replay("cases.txt", |arena, command, addr, _| {
        if command == "check" && addr == 104 && arena.len() == 240 {
            found = Some(arena.to_vec());
        }
    });
    found.expect("P7")
}

#[test]
fn every_byte_of_p7_in_every_value() {
    let good = p7();
    for at in 0..good.len() {
        for value in 0..=255 {
            let mut arena = good.clone();
            arena[at] = value;
            agree(&arena, 104);
        }
    }
}

#[test]
fn p7_in_words() {
    let shown = show::frame(&p7(), 104, CUT).text;
    for line in [
        "leaf page at 104, 136 bytes, up to 240\n",
        "payload_size          101\n",
        "has_multiple_versions 1\n",
        "slot 0, record at 180: key \"a\" 61\n",
        "      version 5  value \"xy\" 7879\n",
        "history: 1 older, from slot 0 of the history page at 8\n",
        "        version 3  value \"z\" 7a  (page 8, slot 0)\n",
        "unused tail: 6 bytes at 215, zero\n",
        "hints at 221\n    history pages: 8\n    remote frames: none\n",
        "rounding: 3 bytes at 237, zero\nsound\n",
    ] {
        assert!(shown.contains(line), "{line:?} is not in\n{shown}");
    }
}

#[test]
fn p7_as_of() {
    let p7 = p7();
    let shown = |arena: &[u8], ver| {
        let text = show::frame(arena, 104, Look { as_of: Some(ver), ..CUT }).text;
        let lines =
            text.lines().filter(|line| line.contains("as of")).map(|l| l.trim().to_string());
        lines.collect::<Vec<_>>()
    };
    assert_eq!(shown(&p7, Ver::of_txid(9)), ["version 5  value \"xy\" 7879  <-- as of 9"]);
    assert_eq!(shown(&p7, Ver::new(5, 0)), ["version 5  value \"xy\" 7879  <-- as of 5.0"]);
    let old = "version 3  value \"z\" 7a  (page 8, slot 0)  <-- as of 4";
    assert_eq!(shown(&p7, Ver::of_txid(4)), [old]);
    assert_eq!(shown(&p7, Ver::of_txid(2)), ["as of 2: none, all are newer"]);
    // the old version's flag is damaged: nobody can say
    let mut arena = p7.clone();
    arena[96] = 7;
    assert_eq!(shown(&arena, Ver::of_txid(4)), [""; 0]);
    assert_eq!(shown(&arena, Ver::of_txid(5)).len(), 1);
}

#[test]
fn damage_in_words() {
    for (at, bytes, words) in [
        (
            176,
            &[0x2c, 0x03][..],
            "at 176 (0xb0): slot 0: offset 812 is outside the page of 85 bytes",
        ),
        (
            176,
            &[0x10],
            "at 176 (0xb0): slot 0: offset 16 lies before the records, which begin at offset 44",
        ),
        (176, &[0x2d], "at 176 (0xb0): slot 0: offset 45 is not 44, where the record before ends"),
        (180, &[0x8d, 0x00], "at 180 (0xb4): the length is not in its shortest form"),
        (181, &[2], "at 8 (0x8): version 3 is not older than 2"),
        (194, &[7], "at 194 (0xc2): the value's flag is 7, over 3"),
        (
            195,
            &[9],
            "at 9 (0x9): history page: address 9 is no frame's: addresses are multiples of 8",
        ),
        (205, &[2], "at 16 (0x10): the links end while 1 older versions remain"),
        (203, &[1], "at 194 (0xc2): history slot 1 is outside its page of 1 records"),
        (174, &[0], "at 174 (0xae): has_multiple_versions is 0 where a key has older versions"),
        (221, &[9], "at 225 (0xe1): list of 9 history hints of 72 bytes runs over the end at 237"),
        (14, &[0], "at 12 (0xc): history page at 8: a history page is wanted here"),
        (
            104,
            &[0xff],
            "at 104 (0x68): payload_size 255 ends the frame at 392, outside the arena of 240 bytes",
        ),
    ] {
        let mut arena = p7();
        arena[at..at + bytes.len()].copy_from_slice(bytes);
        agree(&arena, 104);
        let shown = show::frame(&arena, 104, CUT);
        assert!(
            shown.faults.iter().any(|f| f.to_string() == words),
            "{words:?} is not in\n{}",
            shown.text
        );
    }
}

/// Order 4 in words: a page `pc`..`pm` with keys `pc`, `pe`, `pl`, built by the library, its lo, hi or a key damaged. Nothing else is wrong,
/// so these are all faults; where the boundaries do not rise, that is said once and not of each key.
#[test]
fn outside_in_words() {
    let (mut rows, mut buffer, mut bytes) = (vec![0; 256], vec![0; 256], vec![0; 512]);
    let (mut list, mut children) =
        (RowList::lent(&mut rows).unwrap(), IndexList::lent(&mut buffer).unwrap());
    for key in [b"pc", b"pe", b"pl"] {
        list.push(key, Ver::new(9, 5), b"v").unwrap();
        children.push(key, PageId::new(1)).unwrap();
    }
    let bounds = Bounds { lo: b"pc", hi: Some(b"pm"), sibling: None };
    let mut arena = Arena::new(&mut bytes);
    let leaf = arena.new_leaf(list.bytes(), bounds, Build::default()).unwrap().get();
    let index = arena.new_intl(children.bytes(), bounds, Build::default()).unwrap().get();
    // behind the headers and three slots: lo, hi, then the records; a key's rest is the byte behind its length, a leaf's behind its version too
    for (page, rest, record) in [(leaf, 13, 20), (index, 1, 10)] {
        let (lo, hi) = (page as usize + 84, page as usize + 86);
        let first = hi + 2;
        let key = |slot: usize| first + slot * record + rest;
        let at = |slot: usize| first + slot * record;
        let outside = |slot: usize, key: &str, hex: &str, side: &str| {
            let at = at(slot);
            format!("at {at} (0x{at:x}): key \"{key}\" {hex} is outside the boundaries: {side}")
        };
        let falls = format!("at {lo} (0x{lo:x}): lo is not below hi");
        for (place, byte, faults) in [
            (lo + 1, b'b', vec![]),
            (lo + 1, b'd', vec![outside(0, "pc", "7063", "below lo")]),
            (
                lo + 1,
                b'l',
                vec![outside(0, "pc", "7063", "below lo"), outside(1, "pe", "7065", "below lo")],
            ),
            (lo + 1, b'm', vec![falls.clone()]),
            (lo + 1, b'n', vec![falls.clone()]),
            (hi + 1, b'n', vec![]),
            (hi + 1, b'l', vec![outside(2, "pl", "706c", "not below hi")]),
            (hi + 1, b'c', vec![falls.clone()]),
            (key(0), b'b', vec![outside(0, "pb", "7062", "below lo")]),
            (key(2), b'm', vec![outside(2, "pm", "706d", "not below hi")]),
        ] {
            let mut damaged = bytes.clone();
            damaged[place] = byte;
            assert_eq!(agree(&damaged, page), faults.is_empty());
            let said = show::frame(&damaged, page, CUT).faults;
            assert_eq!(said.iter().map(ToString::to_string).collect::<Vec<_>>(), faults);
        }
    }
}

/// Rules that chance does not reach, since other rules speak first: everything else about these frames is as laid out.
#[test]
fn rules_that_stand_alone() {
    // P7's history page with a lo of one byte: its record moved up by one, slot, size and payload_size with it
    let mut arena = p7();
    arena.copy_within(84..102, 85);
    (arena[8], arena[40], arena[64], arena[80]) = (63, 63, 1, 45);
    let fault = "at 64 (0x40): history page at 8: a history page has boundaries";
    assert!(!agree(&arena, 104));
    let faults = show::frame(&arena, 104, CUT).faults;
    assert_eq!(faults.iter().map(ToString::to_string).collect::<Vec<_>>(), [fault]);

    // P8's chain of four history pages, the second one empty and its two records taken off the count
    let mut p8 = None;
    replay("cases.txt", |arena, _, addr, _| {
        p8 = p8.take().or((addr == 832).then(|| arena.to_vec()))
    });
    let mut arena = p8.expect("P8");
    assert!(agree(&arena, 832));
    let count = arena.windows(4).rposition(|w| w == [7, 0, 0, 0]).expect("the count of seven");
    (arena[232 + 36], arena[count]) = (0, 5);
    assert!(!agree(&arena, 832));
    let faults = show::frame(&arena, 832, CUT).faults;
    assert_eq!(
        faults.iter().map(ToString::to_string).collect::<Vec<_>>(),
        ["at 268 (0x10c): history page at 232: a history page is empty"]
    );

    // a remote frame one byte longer than any value may be
    let mut arena = vec![0; 8 + 32 + 8 + 65_537 + 7];
    arena[8..12].copy_from_slice(&65_545u32.to_le_bytes());
    (arena[12], arena[13]) = (3, 1);
    arena[40..44].copy_from_slice(&65_537u32.to_le_bytes());
    assert!(!agree(&arena, 8));
    let faults = show::frame(&arena, 8, CUT).faults;
    assert_eq!(
        faults.iter().map(ToString::to_string).collect::<Vec<_>>(),
        ["at 40 (0x28): a value of 65537 bytes is over 65536"]
    );
}

#[test]
fn other_frames_are_shown_and_are_no_pages() {
    let shown = show::frame(&p7(), 8, CUT);
    assert_eq!(shown.verdict, Verdict::NoPage, "{}", shown.text);
    assert!(shown.text.contains("history page at 8, 96 bytes"));
    // the others, where the vectors' readers ask for them
    let mut seen = [0; 4];
    replay("deltas.txt", |arena, _, addr, _| {
        let text = show::frame(arena, addr, CUT).text;
        let names = ["leaf delta at", "index delta at", "remote frame at", "history page at"];
        for (count, name) in seen.iter_mut().zip(names) {
            *count += usize::from(text.starts_with(name));
        }
    });
    assert!(seen.iter().all(|&n| n > 0), "kinds seen: {seen:?}");
}

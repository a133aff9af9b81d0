//! What include/cresttrestle.h says of `out` and `walk`, on the C calls themselves: a shorter slice takes the first words only, words
//! behind the answer stay, a refusal writes no word, and a walk moves on exactly where a step gives a record.

use cresttrestle::sys::{CT_STEP_WORDS as STEP, CT_WALK_WORDS as WALK, *};
use differential::case::{At, Case, List, Op, Read};
use differential::guard::Guarded;
use differential::make;
use oracle::answer::{Bounds, Stamp};
use oracle::arena::Arena;
use oracle::both::Both;
use oracle::prng::Prng;
use oracle::sample::{self, Row};

/// A lent slice as C takes it.
macro_rules! lent {
    ($s:expr) => {
        ($s.as_ptr(), $s.len())
    };
}

const STAYS: u64 = 0xdead_beef_dead_beef;

/// Words between guard pages, so that one written behind a short slice ends the run.
#[derive(Default)]
struct Words(Guarded);

impl Words {
    fn of(&mut self, words: &[u64]) -> &mut [u64] {
        let bytes: Vec<u8> = words.iter().flat_map(|word| word.to_le_bytes()).collect();
        self.0.lend(&bytes, false);
        let bytes = self.0.bytes_mut();
        // SAFETY: whole words at the end of a page, so aligned; any bytes are words.
        unsafe { std::slice::from_raw_parts_mut(bytes.as_mut_ptr().cast(), words.len()) }
    }
}

#[derive(Default)]
struct Count {
    answered: usize,
    refused: usize,
}

/// A call that answers `count` words, with `out` of every length.
fn out_of_every_length(
    words: &mut Words,
    seen: &mut Count,
    count: usize,
    call: impl Fn(*mut u64, usize) -> u32,
) {
    let mut full = [STAYS; WALK + 3];
    let status = call(full.as_mut_ptr(), full.len());
    if status == 0 {
        seen.answered += 1;
        // another pattern below: a word that is equal to STAYS by chance is no word that stayed
        let mut again = [!STAYS; WALK + 3];
        assert_eq!(call(again.as_mut_ptr(), again.len()), 0);
        assert_eq!(full[..count], again[..count], "not all words are written");
        assert!(
            full[count..].iter().all(|&word| word == STAYS),
            "a word behind the answer is written"
        );
    } else {
        seen.refused += 1;
        assert_eq!(full, [STAYS; WALK + 3], "a refusal writes a word");
    }
    for n in 0..=count + 1 {
        let short = words.of(&vec![STAYS; n]);
        assert_eq!(call(short.as_mut_ptr(), n), status, "the length of out changes the status");
        assert_eq!(short, &full[..n], "out of {n} words");
    }
}

/// Every step of a walk: `out` of every length; a walk of every length is one with zeros behind it; it moves on exactly with a record.
fn every_step(words: &mut Words, seen: &mut Count, arena: &[u8], mut walk: [u64; WALK]) {
    let (p, len) = lent!(arena);
    for _ in 0..200 {
        let before = walk;
        out_of_every_length(words, seen, STEP, |out, n| {
            let mut walk = before;
            // SAFETY: live slices.
            unsafe { ct_step(p, len, walk.as_mut_ptr(), WALK, out, n) }
        });
        let mut out = [STAYS; STEP];
        let status = unsafe { ct_step(p, len, walk.as_mut_ptr(), WALK, out.as_mut_ptr(), STEP) };
        for n in 0..WALK {
            let mut zeros = before;
            zeros[n..].fill(0);
            let (mut a, mut b) = ([STAYS; STEP], [STAYS; STEP]);
            let expected =
                unsafe { ct_step(p, len, zeros.as_mut_ptr(), WALK, a.as_mut_ptr(), STEP) };
            let short = words.of(&before[..n]);
            let got = unsafe { ct_step(p, len, short.as_mut_ptr(), n, b.as_mut_ptr(), STEP) };
            assert_eq!((got, b), (expected, a), "a walk of {n} words");
            assert_eq!(short, &zeros[..n], "a walk of {n} words moves on otherwise");
        }
        match (status, out[0]) {
            (0, 0) => assert_eq!(out, [0; STEP], "the end is all 0"),
            (0, 1) => {}
            (0, 2) => assert_eq!(out[4..], [0; 5], "behind a key of an index page all is 0"),
            (0, what) => panic!("a step of kind {what}"),
            _ => {}
        }
        if status != 0 || out[0] == 0 {
            assert_eq!(walk, before, "a walk at its end or refused moved on");
            return;
        }
        assert_ne!(walk, before, "a walk did not move on");
    }
}

/// The case's builds done by the C call where it is a leaf, everything else asked as raw words.
fn words_of(case: &Case, words: &mut Words, seen: &mut Count) {
    let mut arena = vec![case.fill; case.len.min(70_000)];
    let (mut next, mut page) = (8, 0);
    for op in &case.ops {
        match op {
            Op::Leaf { sizes, stamp, place, list, .. } => {
                let list = if let List::Bytes(bytes) = list { bytes.clone() } else { list.bytes() };
                let before = arena.clone();
                let ((lp, ll), (a, b), (c, d)) = (lent!(list), lent!(place.lo), lent!(place.hi));
                let build = |arena: &mut [u8], out: *mut u64, n| unsafe {
                    let (p, len) = (arena.as_mut_ptr(), arena.len());
                    let (s, t) = (sizes, stamp);
                    ct_new_leaf(
                        p,
                        len,
                        next,
                        lp,
                        ll,
                        a,
                        b,
                        c,
                        d,
                        place.sibling,
                        s.limit,
                        s.budget,
                        t.group,
                        t.txid,
                        t.lsn,
                        t.checkpoint,
                        out,
                        n,
                    )
                };
                out_of_every_length(words, seen, 2, |out, n| build(&mut before.clone(), out, n));
                let mut out = [0; 2];
                if build(&mut arena, out.as_mut_ptr(), 2) == 0 {
                    [page, next] = out;
                } else {
                    assert!(arena == before, "a refusal changes the arena");
                }
            }
            Op::Ask { at, read } => {
                let addr = if let At::Raw(addr) = at { *addr } else { page };
                ask(&arena, addr, read, words, seen);
            }
            Op::Common { lo, hi } => {
                let ((a, b), (c, d)) = (lent!(lo), lent!(hi));
                out_of_every_length(words, seen, 1, |out, n| unsafe {
                    ct_calc_prefix(a, b, c, d, out, n)
                });
            }
            _ => {}
        }
    }
}

fn ask(arena: &[u8], addr: u64, read: &Read, words: &mut Words, seen: &mut Count) {
    let (p, len) = lent!(arena);
    match read {
        Read::Info => {
            out_of_every_length(words, seen, 9, |out, n| unsafe { ct_page(p, len, addr, out, n) })
        }
        Read::Hints => {
            for call in [ct_history_hints, ct_remote_hints] {
                out_of_every_length(words, seen, 2, |out, n| unsafe { call(p, len, addr, out, n) });
                let mut hints = [0; 2];
                if unsafe { call(p, len, addr, hints.as_mut_ptr(), 2) } == 0 {
                    let [at, count] = hints;
                    assert!(count > 0 || at == 0, "no hints are both 0");
                    for k in [0, count.saturating_sub(1), count, u64::MAX] {
                        out_of_every_length(words, seen, 1, |out, n| unsafe {
                            ct_hint(p, len, at, count, k, out, n)
                        });
                    }
                    let mut beyond = [1];
                    assert_eq!(
                        unsafe { ct_hint(p, len, at, count, count, beyond.as_mut_ptr(), 1) },
                        0
                    );
                    assert_eq!(beyond, [0], "a hint behind the last");
                    for (at, k) in [(u64::MAX, 0), (arena.len() as u64 - 7, 0), (8, u64::MAX - 1)] {
                        assert_eq!(
                            unsafe { ct_hint(p, len, at, u64::MAX, k, beyond.as_mut_ptr(), 1) },
                            0
                        );
                        assert_eq!(beyond, [0], "a hint outside the arena");
                    }
                }
            }
        }
        Read::Lower { key, txid, cmd } => {
            let (k, kl) = lent!(key);
            out_of_every_length(words, seen, 3, |out, n| unsafe {
                ct_lower_bound(p, len, addr, k, kl, *txid, *cmd, out, n)
            });
        }
        Read::Search { key } => {
            let (k, kl) = lent!(key);
            out_of_every_length(words, seen, 10, |out, n| unsafe {
                ct_search(p, len, addr, k, kl, out, n)
            });
            let mut out = [1; 10];
            if unsafe { ct_search(p, len, addr, k, kl, out.as_mut_ptr(), 10) } == 0 && out[0] == 0 {
                assert_eq!(out[..9], [0; 9], "none is all 0 but the keys read");
            }
        }
        Read::AsOf { key, txid, cmd } => {
            let (k, kl) = lent!(key);
            let call = |out, n| unsafe { ct_as_of(p, len, addr, k, kl, *txid, *cmd, out, n) };
            out_of_every_length(words, seen, 7, call);
            let mut out = [1; 7];
            if call(out.as_mut_ptr(), 7) == 0 && out[0] == 0 {
                assert_eq!(out[..6], [0; 6], "none is all 0 but the keys read");
            }
        }
        Read::Floor { key } => {
            let (k, kl) = lent!(key);
            out_of_every_length(words, seen, 4, |out, n| unsafe {
                ct_floor(p, len, addr, k, kl, out, n)
            });
            let mut out = [1; 4];
            if unsafe { ct_floor(p, len, addr, k, kl, out.as_mut_ptr(), 4) } == 0 && out[0] == 0 {
                assert_eq!(out, [0; 4], "a page without keys is all 0");
            }
        }
        Read::Overlay { delta: _, key } => {
            // the arena as its own second buffer: an overlay may be lent the same bytes twice
            let (k, kl) = lent!(key);
            out_of_every_length(words, seen, 3, |out, n| unsafe {
                ct_overlay(p, len, addr, p, len, 8, k, kl, out, n)
            });
        }
        Read::Delta => {
            for (call, count) in [
                (ct_delta_key as unsafe extern "C" fn(_, _, _, _, _) -> _, 4),
                (ct_delta_val, 2),
                (ct_delta_index_key, 2),
                (ct_delta_child, 1),
            ] {
                out_of_every_length(words, seen, count, |out, n| unsafe {
                    call(p, len, addr, out, n)
                });
            }
        }
        Read::Walk { begin, end } => {
            out_of_every_length(words, seen, WALK, |out, n| unsafe {
                ct_forward(p, len, addr, *begin, *end, out, n)
            });
            let mut walk = [0; WALK];
            if unsafe { ct_forward(p, len, addr, *begin, *end, walk.as_mut_ptr(), WALK) } == 0 {
                every_step(words, seen, arena, walk);
            }
        }
        Read::Back { start, end } => {
            out_of_every_length(words, seen, WALK, |out, n| unsafe {
                ct_backward(p, len, addr, *start, *end, out, n)
            });
            let mut walk = [0; WALK];
            if unsafe { ct_backward(p, len, addr, *start, *end, walk.as_mut_ptr(), WALK) } == 0 {
                every_step(words, seen, arena, walk);
            }
        }
        Read::Check | Read::Range { .. } => {}
    }
}

#[test]
fn words_as_the_header_says() {
    let (mut words, mut seen) = (Words::default(), Count::default());
    for n in 0..150 {
        let case = make::case(11, n);
        if case.kind != "large" {
            words_of(&case, &mut words, &mut seen);
        }
    }
    assert!(
        seen.answered > 2000 && seen.refused > 500,
        "{} answered, {} refused",
        seen.answered,
        seen.refused
    );
}

/// A walk whose words were changed, on an arena that was changed or cut: every step ends with 0 or 4 and touches nothing outside (the
/// arena stands between guard pages).
#[test]
fn walks_of_any_words() {
    let rows: Vec<Row> = (0..12)
        .map(|n| {
            sample::row(&[b'p', b'a' + n / 4], 100 - u64::from(n), 0, &vec![n; usize::from(n) * 3])
        })
        .collect();
    let mut built = Both::new(Arena::new(2048, 0));
    let bounds = Bounds { sibling: 0, lo: b"p", hi: b"pz" };
    let page = built.leaf(8, 20, 256, &Stamp::default(), &bounds, &sample::list_of(&rows)).unwrap();
    let mut rng = Prng::new(5);
    let mut arena = Guarded::default();
    let mut steps = [0; 2];
    for round in 0..50_000 {
        let whole = built.arena.bytes();
        let (p, len) = lent!(arena.lend(whole, round % 2 == 0));
        let mut walk = [0; WALK];
        let begun = unsafe {
            match rng.below(2) {
                0 => ct_forward(p, len, page.addr, 0, 3, walk.as_mut_ptr(), WALK),
                _ => ct_backward(p, len, page.addr, 2, 0, walk.as_mut_ptr(), WALK),
            }
        };
        assert_eq!(begun, 0);
        let mut out = [0; STEP];
        for _ in 0..rng.below(10) {
            assert_eq!(
                unsafe { ct_step(p, len, walk.as_mut_ptr(), WALK, out.as_mut_ptr(), STEP) },
                0
            );
        }
        for _ in 0..rng.below(4) {
            let word = &mut walk[rng.below(WALK)];
            *word = match rng.below(6) {
                0 => rng.number(),
                1 => rng.pick(&[0, u64::MAX, 1 << 63, (1 << 63) - 1, 1 << 32, u64::MAX - 7]),
                2 => rng.below(len + 9) as u64,
                _ => word.wrapping_add(rng.pick(&[1, 8, u64::MAX, u64::MAX - 7])),
            };
        }
        let mut bytes = whole.to_vec();
        if rng.once_in(3) {
            let at = rng.below(bytes.len());
            bytes[at] = rng.number() as u8;
        }
        bytes.truncate(if rng.once_in(3) { rng.below(len + 1) } else { len });
        let (p, len) = lent!(arena.lend(&bytes, round % 2 == 0));
        for _ in 0..5 {
            let status =
                unsafe { ct_step(p, len, walk.as_mut_ptr(), WALK, out.as_mut_ptr(), STEP) };
            assert!(status == 0 || status == 4, "a step is refused with {status}");
            steps[usize::from(status == 4)] += 1;
        }
    }
    assert!(steps.iter().all(|&n| n > 20_000), "answered, refused: {steps:?}");
}

//! A library that does not come back: a byte touched outside, a trap, or no end. The process then becomes one that makes the case small,
//! every attempt in a child of its own.

use std::ffi::{c_char, c_int};
use std::ptr::null;
use std::sync::atomic::{AtomicU64, Ordering::Relaxed};

// Linux on x86-64; std links libc already.
const STOPS: [c_int; 5] = [4, 7, 8, 11, 14]; // SIGILL, SIGBUS, SIGFPE, SIGSEGV, SIGALRM

unsafe extern "C" {
    fn signal(number: c_int, handler: usize) -> usize;
    fn alarm(seconds: u32) -> u32;
    fn write(fd: c_int, bytes: *const u8, len: usize) -> isize;
    fn execv(path: *const c_char, args: *const *const c_char) -> c_int;
    fn fork() -> c_int;
    fn waitpid(child: c_int, status: *mut c_int, options: c_int) -> c_int;
    fn _exit(status: c_int) -> !;
}

/// How long one case may take, in seconds; they take milliseconds.
const CASE_SECONDS: u32 = 60;
const ATTEMPT_SECONDS: u32 = 20;

static SEED: AtomicU64 = AtomicU64::new(0);
static CASE: AtomicU64 = AtomicU64::new(0);

/// Names the case that is about to run, and gives it its time.
pub fn name_case(seed: u64, case: u64) {
    SEED.store(seed, Relaxed);
    CASE.store(case, Relaxed);
    // SAFETY: sets a timer.
    unsafe { alarm(CASE_SECONDS) };
}

/// The case is over: no more time is counted.
pub fn rest() {
    // SAFETY: stops the timer.
    unsafe { alarm(0) };
}

/// From here on a library that stops has its case made small.
pub fn watch() {
    for number in STOPS {
        // SAFETY: the handler reads two atomics, writes and becomes another program: all allowed in a handler.
        unsafe { signal(number, stopped as extern "C" fn(c_int) as usize) };
    }
}

extern "C" fn stopped(_: c_int) {
    let (mut seed, mut case) = ([0; 21], [0; 21]);
    let (seed, case) =
        (digits(&mut seed, SEED.load(Relaxed)), digits(&mut case, CASE.load(Relaxed)));
    for text in [
        &b"\nDIFFERENCE: the library touched memory that it was not lent, trapped, or did not end: tools/compare --forked --seed "[..],
        &seed[..seed.len() - 1],
        b" --first ",
        &case[..case.len() - 1],
        b"\n",
    ] {
        // SAFETY: a live slice.
        unsafe { write(2, text.as_ptr(), text.len()) };
    }
    let words = [
        c"compare".as_ptr(),
        c"--forked".as_ptr(),
        c"--seed".as_ptr(),
        seed.as_ptr().cast(),
        c"--first".as_ptr(),
        case.as_ptr().cast(),
        null(),
    ];
    // SAFETY: strings that end with 0, a list that ends with null; if it fails, the process ends.
    unsafe {
        execv(c"/proc/self/exe".as_ptr(), words.as_ptr());
        _exit(1)
    }
}

/// A number as text that ends with 0.
fn digits(text: &mut [u8; 21], mut n: u64) -> &[u8] {
    let mut at = text.len() - 1;
    loop {
        at -= 1;
        text[at] = b'0' + (n % 10) as u8;
        n /= 10;
        if n == 0 {
            return &text[at..];
        }
    }
}

/// Whether something is true, asked in a child; one that stops or does not end counts as true.
pub fn forked(ask: impl FnOnce() -> bool) -> bool {
    // SAFETY: this process has one thread. The child asks and leaves, without running anything of ours at its exit.
    unsafe {
        let child = fork();
        assert!(child >= 0, "no child");
        if child == 0 {
            STOPS.iter().for_each(|&number| {
                signal(number, 0);
            });
            alarm(ATTEMPT_SECONDS);
            _exit(ask().into())
        }
        let mut status = 0;
        assert_eq!(waitpid(child, &mut status, 0), child);
        status != 0
    }
}

//! Memory between guard pages. A slice stands at the very end (or start) of its pages, and the page behind (or before) it may not be
//! touched: one byte read or written outside a lent slice stops the process (`stops` says what then happens).

use std::ffi::{c_int, c_void};
use std::ptr::null_mut;

const PAGE: usize = 4096;

// Linux on x86-64; std links libc already.
const PROT_NONE: c_int = 0;
const PROT_READ_WRITE: c_int = 3;
const MAP_PRIVATE_ANONYMOUS: c_int = 0x22;

unsafe extern "C" {
    fn mmap(
        at: *mut c_void,
        len: usize,
        prot: c_int,
        flags: c_int,
        fd: c_int,
        offset: i64,
    ) -> *mut c_void;
    fn mprotect(at: *mut c_void, len: usize, prot: c_int) -> c_int;
    fn munmap(at: *mut c_void, len: usize) -> c_int;
}

/// Bytes between guard pages.
pub struct Guarded {
    /// The first page that may be touched.
    start: *mut u8,
    pages: usize,
    len: usize,
    at_start: bool,
}

impl Default for Guarded {
    fn default() -> Self {
        Guarded { start: null_mut(), pages: 0, len: 0, at_start: false }
    }
}

impl Guarded {
    /// Room for a slice of this length, at the end of its pages or at their start. What it holds is left open.
    fn resize(&mut self, len: usize, at_start: bool) {
        let pages = len.div_ceil(PAGE).max(1);
        if pages > self.pages {
            self.free();
            let all = (pages + 2) * PAGE;
            // SAFETY: a fresh mapping of our own; its first and last page are closed.
            unsafe {
                let map = mmap(null_mut(), all, PROT_READ_WRITE, MAP_PRIVATE_ANONYMOUS, -1, 0);
                assert!(map as isize != -1, "no memory");
                let map = map.cast::<u8>();
                let closed = mprotect(map.cast(), PAGE, PROT_NONE)
                    | mprotect(map.add((pages + 1) * PAGE).cast(), PAGE, PROT_NONE);
                assert_eq!(closed, 0, "a guard page could not be closed");
                self.start = map.add(PAGE);
            }
            self.pages = pages;
        }
        self.len = len;
        self.at_start = at_start;
    }

    /// A slice of one byte value.
    pub fn fill(&mut self, len: usize, byte: u8, at_start: bool) -> &mut [u8] {
        self.resize(len, at_start);
        let bytes = self.bytes_mut();
        bytes.fill(byte);
        bytes
    }

    /// A copy of these bytes.
    pub fn lend(&mut self, bytes: &[u8], at_start: bool) -> &[u8] {
        self.resize(bytes.len(), at_start);
        self.bytes_mut().copy_from_slice(bytes);
        self.bytes()
    }

    fn first(&self) -> *mut u8 {
        if self.pages == 0 {
            return std::ptr::dangling_mut();
        }
        let at = if self.at_start { 0 } else { self.pages * PAGE - self.len };
        // SAFETY: inside the pages, or one behind them where the slice is empty.
        unsafe { self.start.add(at) }
    }

    pub fn bytes(&self) -> &[u8] {
        // SAFETY: `len` bytes of our pages.
        unsafe { std::slice::from_raw_parts(self.first(), self.len) }
    }

    pub fn bytes_mut(&mut self) -> &mut [u8] {
        // SAFETY: as above, borrowed alone.
        unsafe { std::slice::from_raw_parts_mut(self.first(), self.len) }
    }

    fn free(&mut self) {
        if self.pages > 0 {
            // SAFETY: the mapping of `resize`, whole; nothing borrows it.
            unsafe { munmap(self.start.sub(PAGE).cast(), (self.pages + 2) * PAGE) };
            self.pages = 0;
        }
    }
}

impl Drop for Guarded {
    fn drop(&mut self) {
        self.free();
    }
}

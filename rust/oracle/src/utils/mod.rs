//! Stand-ins for what base.rs, sst.rs and delta.rs take from upstream's `utils`.

pub(crate) mod data;
pub(crate) mod varint;

/// No frame's address (document 01: "0 is none").
pub(crate) const NULL_ADDR: u64 = 0;
/// No page id (document 01: "0 is also no page id").
pub(crate) const NULL_PID: u64 = 0;
/// Bytes of an address inside a value.
pub(crate) const ADDR_LEN: usize = size_of::<u64>();

/// Upstream's error code. The stand-in loader cannot fail, so nothing is in it.
#[derive(Debug)]
pub(crate) enum OpCode {}

pub(crate) fn raw_ptr_to_ref<'a, T>(p: *mut T) -> &'a T {
    // SAFETY: callers hand a header inside a living arena, aligned to 8.
    unsafe { &*p }
}

/// Who is told of each key that a search reads. `()` is nobody and costs nothing.
pub trait Reads {
    fn key(&mut self);
}

impl Reads for () {
    #[inline(always)]
    fn key(&mut self) {}
}

impl Reads for u32 {
    #[inline(always)]
    fn key(&mut self) {
        *self += 1;
    }
}

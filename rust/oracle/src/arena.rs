//! One bump arena: the bytes that every frame lives in, its allocator and its loader.

use crate::types::{
    header::{BoxHeader, NodeType, TagFlag, TagKind},
    refbox::BoxRef,
    traits::{IFrameAlloc, ILoader},
};
use crate::utils::data::Position;

const BOX: usize = size_of::<BoxHeader>();

/// "A frame takes 32 + payload bytes, rounded up to 8."
pub fn frame_size(payload: usize) -> usize {
    (BOX + payload).next_multiple_of(8)
}

/// Caller-sized bytes, filled with any byte beforehand. Kept as words, so that every
/// address that is a multiple of 8 is aligned for the headers.
#[derive(Clone)]
pub struct Arena {
    words: Vec<u64>,
    len: usize,
}

impl Arena {
    pub fn new(len: usize, fill: u8) -> Self {
        Self { words: vec![u64::from_le_bytes([fill; 8]); len.div_ceil(8)], len }
    }

    pub fn from_bytes(bytes: &[u8]) -> Self {
        let mut arena = Self::new(bytes.len(), 0);
        arena.bytes_mut().copy_from_slice(bytes);
        arena
    }

    pub fn bytes(&self) -> &[u8] {
        // SAFETY: the words hold at least `len` bytes.
        unsafe { std::slice::from_raw_parts(self.words.as_ptr().cast(), self.len) }
    }

    pub fn bytes_mut(&mut self) -> &mut [u8] {
        // SAFETY: as above, borrowed alone.
        unsafe { std::slice::from_raw_parts_mut(self.words.as_mut_ptr().cast(), self.len) }
    }

    pub(crate) fn loader(&self) -> Loader {
        Loader { start: self.words.as_ptr().cast_mut().cast(), len: self.len }
    }

    /// The allocator for one call, and a loader that sees what it writes.
    pub(crate) fn clerk(
        &mut self,
        next: u64,
        limit: usize,
        budget: usize,
        checkpoint: u64,
    ) -> Clerk {
        let arena = Loader { start: self.words.as_mut_ptr().cast(), len: self.len };
        Clerk { arena, next: next as usize, limit, budget, checkpoint }
    }
}

/// Finds frames by address. Valid while its arena lives and is not moved.
#[derive(Clone, Copy)]
pub(crate) struct Loader {
    start: *mut u8,
    len: usize,
}

impl Loader {
    pub(crate) fn at(&self, addr: u64) -> BoxRef {
        let at = addr as usize;
        assert!(at >= 8 && at.is_multiple_of(8) && at <= self.len && BOX <= self.len - at);
        // SAFETY: the header lies inside the arena and is aligned.
        BoxRef::new(unsafe { self.start.add(at) }.cast(), addr)
    }
}

impl ILoader for Loader {
    fn load_sibling(&self, addr: u64) -> BoxRef {
        self.at(addr)
    }

    fn load_blob(&self, addr: u64) -> BoxRef {
        self.at(addr)
    }
}

/// Hands out frames upward from the next free address.
pub(crate) struct Clerk {
    pub(crate) arena: Loader,
    pub(crate) next: usize,
    limit: usize,
    budget: usize,
    checkpoint: u64,
}

impl IFrameAlloc for Clerk {
    /// Every byte of the rounded frame is written: old bytes must not show through.
    /// The Rust has no refusals, so a frame that does not fit is a caller's mistake.
    fn alloc(&mut self, size: u32) -> BoxRef {
        let at = self.next;
        let total = frame_size(size as usize);
        assert!(at <= self.arena.len && total <= self.arena.len - at, "judge first: no room");
        self.next = at + total;
        // SAFETY: the frame lies inside the arena and nobody reads it yet.
        unsafe {
            let p = self.arena.start.add(at);
            p.write_bytes(0, total);
            p.cast::<BoxHeader>().write(BoxHeader {
                payload_size: size,
                kind: TagKind::Base,
                node_type: NodeType::Leaf,
                flag: TagFlag::Normal,
                group: 0,
                link: 0,
                txid: 0,
                lsn: 0,
            });
        }
        self.arena.at(at as u64)
    }

    fn inline_size(&self) -> usize {
        self.limit
    }

    fn hist_page_budget(&self) -> usize {
        self.budget
    }

    fn checkpoint_lsn(&self, _group: u8) -> Position {
        self.checkpoint
    }
}

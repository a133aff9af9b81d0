//! Stand-in traits: of upstream's traits.rs the part that the three files use.

use crate::types::{header::BoxHeader, refbox::BoxRef};
use crate::utils::data::Position;

pub(crate) trait ILoader {
    fn load_sibling(&self, addr: u64) -> BoxRef;

    fn load_blob(&self, addr: u64) -> BoxRef;
}

pub(crate) trait IBoxHeader {
    fn box_header(&self) -> &BoxHeader;

    fn box_header_mut(&mut self) -> &mut BoxHeader;
}

pub(crate) trait IHeader<T> {
    fn header(&self) -> &T;

    fn header_mut(&mut self) -> &mut T;
}

pub(crate) trait IFrameAlloc {
    fn alloc(&mut self, size: u32) -> BoxRef;

    fn inline_size(&self) -> usize;

    /// Ours: the budget of a history page, a constant upstream.
    fn hist_page_budget(&self) -> usize;

    fn checkpoint_lsn(&self, group: u8) -> Position;
}

pub(crate) trait IKey: Default + IKeyCodec + Ord {
    fn txid(&self) -> u64;
}

pub(crate) trait IDecode {
    fn decode_from(raw: &[u8]) -> Self;
}

pub(crate) trait ICodec: IDecode + Copy {
    fn packed_size(&self) -> usize;

    fn encode_to(&self, to: &mut [u8]);
}

pub(crate) trait IKeyCodec: ICodec {
    fn remove_prefix(&self, prefix_len: usize) -> Self;
}

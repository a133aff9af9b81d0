//! Stand-in for the part of upstream's node.rs (not at hand) that feeds `new_leaf`:
//! a source of records, each with a value from a list or from an older page.

use crate::types::{
    data::{LeafSeg, Record, Val},
    header::{NodeType, RemoteHeader, TagKind},
    traits::{IFrameAlloc, IHeader, ILoader},
};
use crate::utils::{NULL_ADDR, data::Position};

pub(crate) trait LeafCompactSource<'a> {
    /// The scratch is for upstream's folding of merge operands; nothing is folded here.
    fn next_compact(&mut self, scratch: &mut Vec<u8>) -> Option<(LeafSeg<'a>, CompactVal<'a>)>;
}

/// A value as it arrives: plain bytes of a list, or the value of an older page.
#[derive(Clone)]
pub(crate) enum CompactVal<'a> {
    Bytes(&'a [u8]),
    Page(Val<'a>),
}

impl CompactVal<'_> {
    pub(crate) fn is_remote(&self) -> bool {
        match self {
            Self::Bytes(_) => false,
            Self::Page(v) => v.is_remote(),
        }
    }

    pub(crate) fn data_size(&self) -> usize {
        match self {
            Self::Bytes(b) => b.len(),
            Self::Page(v) => v.data_size(),
        }
    }

    /// Upstream: the result of a fold. There are no folds.
    pub(crate) fn materialize_blob<A: IFrameAlloc>(
        &self,
        _a: &mut A,
        _group: u8,
        _lsn: Position,
    ) -> Option<(Record, u64)> {
        None
    }

    /// The bytes, and the address of their remote frame or 0 where they go inline.
    /// "A remote still at or above the limit keeps its address"; one below is copied inline.
    pub(crate) fn record_with_remote<A: IFrameAlloc, L: ILoader>(
        &self,
        a: &mut A,
        l: &L,
        group: u8,
        lsn: Position,
    ) -> (Record, u64) {
        let (record, kept) = match self {
            Self::Bytes(b) => (Record::new(b), NULL_ADDR),
            Self::Page(v) => (v.get_record(l), v.get_remote()),
        };
        if record.packed_size() < a.inline_size() {
            (record, NULL_ADDR)
        } else if kept != NULL_ADDR {
            (record, kept)
        } else {
            (record, new_remote(a, &record, group, lsn))
        }
    }
}

/// "A remote frame has txid 0, node_type 1."
fn new_remote<A: IFrameAlloc>(a: &mut A, v: &Record, group: u8, lsn: Position) -> u64 {
    let size = v.packed_size();
    let mut r = a.alloc((size_of::<RemoteHeader>() + size) as u32);
    let h = r.header_mut();
    h.kind = TagKind::Remote;
    h.node_type = NodeType::Leaf;
    h.group = group;
    h.lsn = lsn;
    let mut view = r.view().as_remote();
    view.header_mut().size = size;
    v.encode_to(view.raw_mut());
    r.addr()
}

/// Records of older pages, as they stand.
pub(crate) struct PlainValSource<I> {
    iter: I,
}

impl<I> PlainValSource<I> {
    pub(crate) fn new(iter: I) -> Self {
        Self { iter }
    }
}

impl<'a, I> LeafCompactSource<'a> for PlainValSource<I>
where
    I: Iterator<Item = (LeafSeg<'a>, Val<'a>)>,
{
    fn next_compact(&mut self, _scratch: &mut Vec<u8>) -> Option<(LeafSeg<'a>, CompactVal<'a>)> {
        self.iter.next().map(|(k, v)| (k, CompactVal::Page(v)))
    }
}

/// Records of a list.
pub(crate) struct ListSource<I> {
    iter: I,
}

impl<I> ListSource<I> {
    pub(crate) fn new(iter: I) -> Self {
        Self { iter }
    }
}

impl<'a, I> LeafCompactSource<'a> for ListSource<I>
where
    I: Iterator<Item = (LeafSeg<'a>, &'a [u8])>,
{
    fn next_compact(&mut self, _scratch: &mut Vec<u8>) -> Option<(LeafSeg<'a>, CompactVal<'a>)> {
        self.iter.next().map(|(k, v)| (k, CompactVal::Bytes(v)))
    }
}

//! Stand-in headers with document 01's fields, order and values, laid over the arena's bytes.

use crate::utils::data::Position;

#[cfg(not(target_endian = "little"))]
compile_error!("document 01's layouts are little-endian and these headers lie on the bytes");

#[derive(Copy, Clone, PartialEq, Debug)]
#[repr(u8)]
pub(crate) enum TagKind {
    Base = 1,
    Delta = 2,
    Remote = 3,
}

#[derive(Copy, Clone, PartialEq, Debug)]
#[repr(u8)]
pub(crate) enum NodeType {
    Leaf = 1,
    Intl = 2,
}

#[derive(Copy, Clone, PartialEq, Debug)]
#[repr(u8)]
pub(crate) enum TagFlag {
    Normal = 0,
    Sibling = 1,
}

/// "Box header, 32: payload_size u32; kind u8; node_type u8; flag u8; group u8; link, txid, lsn u64."
#[derive(Debug)]
#[repr(C, align(8))]
pub(crate) struct BoxHeader {
    pub(crate) payload_size: u32,
    pub(crate) kind: TagKind,
    pub(crate) node_type: NodeType,
    pub(crate) flag: TagFlag,
    pub(crate) group: u8,
    pub(crate) link: u64,
    pub(crate) txid: u64,
    pub(crate) lsn: Position,
}

/// "Base header, 40: size u32; elems, split_elems u16; right_sibling, merging_child u64;
/// lo_len, hi_len, prefix_len u32; merging, is_index, has_multiple_versions, padding u8."
#[derive(Debug, Copy, Clone)]
#[repr(C, align(8))]
pub(crate) struct BaseHeader {
    pub(crate) size: u32,
    pub(crate) elems: u16,
    pub(crate) split_elems: u16,
    pub(crate) right_sibling: u64,
    pub(crate) merging_child: u64,
    pub(crate) lo_len: u32,
    pub(crate) hi_len: u32,
    pub(crate) prefix_len: u32,
    pub(crate) merging: bool,
    pub(crate) is_index: bool,
    pub(crate) has_multiple_versions: bool,
    pub(crate) padding: u8,
}

/// "Delta payload: klen u32, vlen u32, key, value."
#[derive(Debug)]
#[repr(C, align(8))]
pub(crate) struct DeltaHeader {
    pub(crate) klen: u32,
    pub(crate) vlen: u32,
}

/// "Remote frame payload: size u64, bytes."
#[repr(C, align(8))]
pub(crate) struct RemoteHeader {
    pub(crate) size: usize,
}

const _: () = assert!(size_of::<BoxHeader>() == 32);
const _: () = assert!(size_of::<BaseHeader>() == 40);
const _: () = assert!(size_of::<DeltaHeader>() == 8);
const _: () = assert!(size_of::<RemoteHeader>() == 8);

pub(crate) type SlotType = u32;
pub(crate) const SLOT_LEN: usize = size_of::<SlotType>();

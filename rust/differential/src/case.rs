//! A case as data: one arena, what is built and damaged in it, and what is asked. Addresses are named by the build that gives them,
//! so that a case stays meaningful while it is made smaller.

use oracle::answer::Stamp;
use oracle::sample::{Row, index_list_of, list_of};

/// The address of a frame.
#[derive(Clone, Copy, Debug, PartialEq, Eq)]
pub enum At {
    Raw(u64),
    /// What the build of this name gave, 0 where it was refused or is not there.
    Built(usize),
    /// The delta in the second buffer.
    Laid,
}

/// The next free address that a build is handed.
#[derive(Clone, Copy, Debug, PartialEq, Eq)]
pub enum Next {
    /// What the last build handed back, 8 at first.
    Free,
    Raw(u64),
}

/// A list as entries, or as bytes that may be none.
#[derive(Clone, Debug, PartialEq, Eq)]
pub enum List {
    Rows(Vec<Row>),
    Children(Vec<(Vec<u8>, u64)>),
    Bytes(Vec<u8>),
}

impl List {
    pub fn bytes(&self) -> Vec<u8> {
        match self {
            List::Rows(rows) => list_of(rows),
            List::Children(children) => index_list_of(children),
            List::Bytes(bytes) => bytes.clone(),
        }
    }
}

/// A page's place in the tree.
#[derive(Clone, Debug, Default, PartialEq, Eq)]
pub struct Place {
    pub sibling: u64,
    pub lo: Vec<u8>,
    pub hi: Vec<u8>,
}

/// How large values and old versions are stored.
#[derive(Clone, Copy, Debug, PartialEq, Eq)]
pub struct Sizes {
    pub limit: u64,
    pub budget: u64,
}

/// A question to the frame at an address.
#[derive(Clone, Debug, PartialEq, Eq)]
pub enum Read {
    Check,
    /// kind, number of keys, boundaries, prefix, sibling
    Info,
    Hints,
    Lower {
        key: Vec<u8>,
        txid: u64,
        cmd: u32,
    },
    Floor {
        key: Vec<u8>,
    },
    Search {
        key: Vec<u8>,
    },
    AsOf {
        key: Vec<u8>,
        txid: u64,
        cmd: u32,
    },
    Walk {
        begin: u64,
        end: u64,
    },
    Back {
        start: i64,
        end: i64,
    },
    Range {
        from: Option<Vec<u8>>,
        to: Option<Vec<u8>>,
    },
    /// the four readers of deltas
    Delta,
    Overlay {
        delta: At,
        key: Vec<u8>,
    },
}

#[derive(Clone, Debug, PartialEq, Eq)]
pub enum Op {
    /// Stores bytes into the arena: damage, or a page put together by hand. Outside the arena nothing happens.
    Put {
        at: usize,
        bytes: Vec<u8>,
    },
    /// Adds to a byte: lengths, slots and addresses that are nearly right.
    Add {
        at: usize,
        by: u8,
    },
    /// Copies a stretch of the arena to another place: references that lead elsewhere.
    Copy {
        from: usize,
        to: usize,
        len: usize,
    },
    /// Stores bytes at a distance from a frame's begin, or from the begin of the record that its slot names.
    Strike {
        frame: At,
        slot: Option<usize>,
        by: usize,
        bytes: Vec<u8>,
    },
    /// From here on the arena is its first bytes only.
    Cut {
        len: usize,
    },
    /// The second buffer is these bytes.
    Buffer {
        bytes: Vec<u8>,
    },
    /// The second buffer is a leaf delta, built at 8 in an arena that it just fills.
    Lay {
        limit: u64,
        stamp: Stamp,
        row: Row,
    },
    BufferPut {
        at: usize,
        bytes: Vec<u8>,
    },
    BufferCut {
        len: usize,
    },
    Leaf {
        name: usize,
        next: Next,
        sizes: Sizes,
        stamp: Stamp,
        place: Place,
        list: List,
    },
    Index {
        name: usize,
        next: Next,
        stamp: Stamp,
        place: Place,
        list: List,
    },
    Merge {
        name: usize,
        next: Next,
        sizes: Sizes,
        stamp: Stamp,
        left: At,
        right: At,
    },
    LeafDelta {
        name: usize,
        next: Next,
        limit: u64,
        stamp: Stamp,
        row: Row,
    },
    IndexDelta {
        name: usize,
        next: Next,
        stamp: Stamp,
        key: Vec<u8>,
        pid: u64,
    },
    Ask {
        at: At,
        read: Read,
    },
    Common {
        lo: Vec<u8>,
        hi: Vec<u8>,
    },
}

impl Op {
    /// Whether it is a build, merge or delta.
    pub fn writes(&self) -> bool {
        matches!(
            self,
            Op::Lay { .. }
                | Op::Leaf { .. }
                | Op::Index { .. }
                | Op::Merge { .. }
                | Op::LeafDelta { .. }
                | Op::IndexDelta { .. }
        )
    }

    /// What it is called, for the count of what was compared.
    pub fn call(&self) -> &'static str {
        match self {
            Op::Put { .. } | Op::Add { .. } | Op::Copy { .. } | Op::Strike { .. } => "",
            Op::Cut { .. } => "",
            Op::Buffer { .. } | Op::BufferPut { .. } | Op::BufferCut { .. } => "",
            Op::Lay { .. } | Op::LeafDelta { .. } => "leaf delta",
            Op::Leaf { .. } => "leaf",
            Op::Index { .. } => "index",
            Op::Merge { .. } => "merge",
            Op::IndexDelta { .. } => "index delta",
            Op::Common { .. } => "prefix",
            Op::Ask { read, .. } => match read {
                Read::Check => "check",
                Read::Info => "page",
                Read::Hints => "hints",
                Read::Lower { .. } => "lower bound",
                Read::Floor { .. } => "floor",
                Read::Search { .. } => "search",
                Read::AsOf { .. } => "as of",
                Read::Walk { .. } => "walk",
                Read::Back { .. } => "walk back",
                Read::Range { .. } => "range",
                Read::Delta => "delta readers",
                Read::Overlay { .. } => "overlay",
            },
        }
    }
}

/// Damage of an arena as the bytes that it stores and where; nothing where they would lie outside.
pub fn damage(op: &Op, arena: &[u8], names: &Names) -> Option<(usize, Vec<u8>)> {
    let (at, bytes) = match op {
        Op::Put { at, bytes } => (*at, bytes.clone()),
        Op::Add { at, by } => (*at, vec![arena.get(*at)?.wrapping_add(*by)]),
        Op::Copy { from, to, len } => (*to, arena.get(*from..from.checked_add(*len)?)?.to_vec()),
        Op::Strike { frame, slot, by, bytes } => {
            let mut begin = names.at(*frame) as usize;
            if let Some(slot) = slot {
                // behind the two headers; a slot counts from the second
                let entry = begin.checked_add(32 + 40 + 4 * slot)?;
                let offset = arena.get(entry..entry.checked_add(4)?)?;
                begin += 32 + u32::from_le_bytes(offset.try_into().ok()?) as usize;
            }
            (begin.checked_add(*by)?, bytes.clone())
        }
        _ => return None,
    };
    (at.checked_add(bytes.len())? <= arena.len()).then_some((at, bytes))
}

/// One arena from its first byte on.
#[derive(Clone, Debug, PartialEq, Eq)]
pub struct Case {
    pub kind: &'static str,
    pub len: usize,
    pub fill: u8,
    /// Whether our arena and all that is lent stands at the start of its pages, to find reads before it.
    pub at_start: bool,
    pub ops: Vec<Op>,
}

/// What the names of a running case stand for.
#[derive(Clone, Debug, Default)]
pub struct Names {
    pub built: Vec<(usize, u64)>,
    pub free: u64,
    pub laid: u64,
}

impl Names {
    pub fn at(&self, at: At) -> u64 {
        match at {
            At::Raw(addr) => addr,
            At::Built(name) => {
                self.built.iter().rev().find(|(n, _)| *n == name).map_or(0, |(_, addr)| *addr)
            }
            At::Laid => self.laid,
        }
    }

    pub fn next(&self, next: Next) -> u64 {
        match next {
            Next::Free => self.free,
            Next::Raw(next) => next,
        }
    }
}

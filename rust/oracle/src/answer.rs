//! The plain answers that the Rust and the model both give, so that they can be compared.

/// A call's numbers that every frame carries.
#[derive(Clone, Copy, Debug, Default, PartialEq, Eq)]
pub struct Stamp {
    pub txid: u64,
    pub group: u8,
    pub lsn: u64,
    pub checkpoint: u64,
}

/// What a page is told of its place in the tree. An empty `hi` is none.
#[derive(Clone, Copy, Debug, Default, PartialEq, Eq)]
pub struct Bounds<'a> {
    pub sibling: u64,
    pub lo: &'a [u8],
    pub hi: &'a [u8],
}

impl Bounds<'_> {
    /// "below a nonempty hi": an empty hi is none, and all bytes are below none.
    fn below_hi(&self, bytes: &[u8]) -> bool {
        self.hi.is_empty() || bytes < self.hi
    }

    /// Order 4, of the boundaries alone: not "a lo not below a nonempty hi".
    pub fn rise(&self) -> bool {
        self.below_hi(self.lo)
    }

    /// Order 4, of a whole key: neither "below lo" nor "not below a nonempty hi".
    pub fn hold(&self, key: &[u8]) -> bool {
        self.lo <= key && self.below_hi(key)
    }
}

/// A build, merge or delta that was done: the frame and the new next free address.
#[derive(Clone, Copy, Debug, PartialEq, Eq)]
pub struct Built {
    pub addr: u64,
    pub next: u64,
}

/// A search's head, or the row as of a version with its key's position.
#[derive(Clone, Copy, Debug, PartialEq, Eq)]
pub struct Found<'a> {
    pub pos: usize,
    pub txid: u64,
    pub cmd: u32,
    pub value: &'a [u8],
}

/// One record of a walk: the key without the prefix, and the history page just entered or 0.
#[derive(Clone, Copy, Debug, PartialEq, Eq)]
pub struct Step<'a> {
    pub rest: &'a [u8],
    pub what: What<'a>,
    pub entered: u64,
}

#[derive(Clone, Copy, Debug, PartialEq, Eq)]
pub enum What<'a> {
    Leaf { txid: u64, cmd: u32, value: &'a [u8] },
    Index { pid: u64 },
}

//! An arena that is written: builds, merges and deltas, each from the next free address on.

use crate::ffi;
use crate::names::{Addr, PageId, Ver};
use crate::page::View;
use crate::refusal::Refusal;
use crate::sys;

/// How many leading bytes `lo` and `hi` share, the prefix that a page with these boundaries drops from its keys; 0 without `hi`.
///
/// ```
/// use cresttrestle::calc_prefix;
///
/// assert_eq!(calc_prefix(b"ab", Some(b"ad")), 1);
/// assert_eq!(calc_prefix(b"ab", None), 0);
/// ```
pub fn calc_prefix(lo: &[u8], hi: Option<&[u8]>) -> usize {
    ffi::calc_prefix(lo, hi.unwrap_or_default()).map_or(0, |[count]| count as usize)
}

/// What every frame of a build carries, and how values and old versions are stored.
///
/// ```
/// use cresttrestle::Build;
///
/// let build = Build { limit: 512, txid: 7, ..Build::default() };
/// assert_eq!(build.budget, Build::HIST_PAGE_BUDGET);
/// ```
#[derive(Clone, Copy, Debug, PartialEq, Eq)]
pub struct Build {
    /// The inline limit, 1 to 65,536: a value of this size or more gets a frame of its own. Default 64.
    pub limit: u64,
    /// The most bytes of a history page, 256 to 131,072. Default [`HIST_PAGE_BUDGET`](Build::HIST_PAGE_BUDGET).
    pub budget: u64,
    /// The log group.
    pub group: u8,
    /// The transaction that writes. A leaf delta carries its row's transaction instead.
    pub txid: u64,
    /// The log position. Frames carry the larger of it and `checkpoint`.
    pub lsn: u64,
    /// The log position of the last checkpoint.
    pub checkpoint: u64,
}

impl Build {
    /// The default budget of a history page: small, since whoever wants one old row reads its whole page.
    pub const HIST_PAGE_BUDGET: u64 = sys::CT_HIST_PAGE_BUDGET;
    /// The budget of the Rust that this library comes from, four times as large, for whoever wants its pages.
    pub const RUST_HIST_PAGE_BUDGET: u64 = sys::CT_RUST_HIST_PAGE_BUDGET;
}

impl Default for Build {
    fn default() -> Self {
        Build {
            limit: 64,
            budget: Self::HIST_PAGE_BUDGET,
            group: 0,
            txid: 0,
            lsn: 0,
            checkpoint: 0,
        }
    }
}

/// A page's place in the tree. Its keys lie between: each is `lo` or above it, and below `hi`. The bytes that `lo` and `hi` share are dropped
/// from them.
///
/// ```
/// use cresttrestle::{Bounds, PageId};
///
/// let bounds = Bounds { lo: b"ab", hi: Some(b"ad"), sibling: PageId::new(7) };
/// assert_eq!(Bounds::default(), Bounds { lo: b"", hi: None, sibling: None });
/// # let _ = bounds;
/// ```
#[derive(Clone, Copy, Debug, Default, PartialEq, Eq)]
pub struct Bounds<'b> {
    /// The lower boundary, at most 4,096 bytes.
    pub lo: &'b [u8],
    /// The upper boundary, above `lo`, at most 4,096 bytes. An empty one is none.
    pub hi: Option<&'b [u8]>,
    /// The page to the right.
    pub sibling: Option<PageId>,
}

/// An arena that is written: lent bytes and the next free address. What lies below that address never changes.
///
/// Every build hands back the new frame's address and moves the next free address on; a refused one changes nothing.
///
/// ```
/// use cresttrestle::{Addr, Arena, Bounds, Build, RowList, Ver};
///
/// let mut list_bytes = [0; 64];
/// let mut list = RowList::lent(&mut list_bytes)?;
/// list.push(b"a", Ver::new(5, 0), b"xy")?;
///
/// let mut bytes = [0; 112];
/// let mut arena = Arena::new(&mut bytes);
/// let leaf = arena.new_leaf(list.bytes(), Bounds::default(), Build::default())?;
/// assert_eq!(arena.next(), Addr::new(112));
///
/// let found = arena.page(leaf).search(b"a")?.expect("it is there");
/// assert_eq!((found.ver, found.value), (Ver::new(5, 0), &b"xy"[..]));
/// # Ok::<(), Box<dyn std::error::Error>>(())
/// ```
#[derive(Debug)]
pub struct Arena<'a> {
    bytes: &'a mut [u8],
    next: Addr,
}

impl<'a> Arena<'a> {
    /// A new arena in lent bytes, whatever they hold.
    pub fn new(bytes: &'a mut [u8]) -> Self {
        Self::resume(bytes, Addr::FIRST)
    }

    /// An arena whose bytes were kept, with the next free address of then. Builds refuse an address that cannot be one
    /// ([`BadArena`](Refusal::BadArena)).
    ///
    /// ```
    /// # use cresttrestle::{Arena, Addr, Build, Refusal, Ver};
    /// let mut bytes = [0; 200];
    /// let mut arena = Arena::new(&mut bytes);
    /// arena.delta_leaf(b"a", Ver::new(1, 0), b"x", Build::default())?;
    /// let next = arena.next();
    ///
    /// let mut arena = Arena::resume(&mut bytes, next);
    /// let delta = arena.delta_leaf(b"b", Ver::new(2, 0), b"y", Build::default())?;
    /// assert_eq!(delta, next);
    ///
    /// let mut arena = Arena::resume(&mut bytes, Addr::new(9));
    /// assert_eq!(arena.delta_leaf(b"c", Ver::new(3, 0), b"z", Build::default()), Err(Refusal::BadArena));
    /// # Ok::<(), Refusal>(())
    /// ```
    pub fn resume(bytes: &'a mut [u8], next: Addr) -> Self {
        Arena { bytes, next }
    }

    /// The next free address.
    pub fn next(&self) -> Addr {
        self.next
    }

    /// All bytes, behind the next free address too.
    pub fn bytes(&self) -> &[u8] {
        self.bytes
    }

    /// The arena to be read.
    pub fn view(&self) -> View<'_> {
        View::new(self.bytes)
    }

    /// The page at an address, to be read: `self.view().page(addr)`.
    pub fn page(&self, addr: Addr) -> crate::Page<'_> {
        self.view().page(addr)
    }

    /// Moves on behind what was built.
    fn built(&mut self, [addr, next]: [u64; 2]) -> Addr {
        self.next = Addr::new(next);
        Addr::new(addr)
    }

    /// Builds a leaf page of a record list ([`RowList`](crate::RowList)): keys rising, the newest version of a key first.
    ///
    /// ```
    /// # use cresttrestle::{Arena, Bounds, Build, RowList, Ver, Refusal};
    /// # let mut bytes = [0; 512];
    /// # let mut arena = Arena::new(&mut bytes);
    /// # let mut buffer = [0; 128];
    /// let mut list = RowList::lent(&mut buffer)?;
    /// list.push(b"ab1", Ver::new(5, 0), b"new")?;
    /// list.push(b"ab1", Ver::new(3, 0), b"old")?;
    /// list.push(b"ab2", Ver::new(4, 0), b"two")?;
    /// let bounds = Bounds { lo: b"ab", hi: Some(b"ac"), ..Bounds::default() };
    /// let leaf = arena.new_leaf(list.bytes(), bounds, Build { txid: 5, ..Build::default() })?;
    /// assert_eq!(arena.page(leaf).info()?.prefix, b"a");
    ///
    /// list.push(b"ab2", Ver::new(9, 0), b"newer, but behind")?;
    /// assert_eq!(arena.new_leaf(list.bytes(), bounds, Build::default()), Err(Refusal::OutOfOrder));
    ///
    /// // the key that the next page begins with is not this page's
    /// let mut list = RowList::lent(&mut buffer)?;
    /// list.push(b"ac", Ver::new(5, 0), b"next")?;
    /// assert_eq!(arena.new_leaf(list.bytes(), bounds, Build::default()), Err(Refusal::Outside));
    /// # Ok::<(), Box<dyn std::error::Error>>(())
    /// ```
    pub fn new_leaf(
        &mut self,
        list: &[u8],
        bounds: Bounds<'_>,
        build: Build,
    ) -> Result<Addr, Refusal> {
        let Build { limit, budget, group, txid, lsn, checkpoint } = build;
        let (lo, hi, sibling) = parts(bounds);
        let next = self.next.get();
        ffi::new_leaf(
            self.bytes, next, list, lo, hi, sibling, limit, budget, group, txid, lsn, checkpoint,
        )
        .map(|built| self.built(built))
    }

    /// Builds an index page of an index list ([`IndexList`](crate::IndexList)). Limit and budget are not used.
    ///
    /// ```
    /// # use cresttrestle::{Arena, Bounds, Build, IndexList, PageId};
    /// # let mut bytes = [0; 512];
    /// # let mut arena = Arena::new(&mut bytes);
    /// # let mut buffer = [0; 128];
    /// let mut list = IndexList::lent(&mut buffer)?;
    /// list.push(b"b", PageId::new(1))?;
    /// list.push(b"d", PageId::new(2))?;
    /// let index = arena.new_intl(list.bytes(), Bounds::default(), Build::default())?;
    /// assert_eq!(arena.page(index).floor(b"c")?.unwrap().page, PageId::new(1));
    /// # Ok::<(), Box<dyn std::error::Error>>(())
    /// ```
    pub fn new_intl(
        &mut self,
        list: &[u8],
        bounds: Bounds<'_>,
        build: Build,
    ) -> Result<Addr, Refusal> {
        let Build { group, txid, lsn, checkpoint, .. } = build;
        let (lo, hi, sibling) = parts(bounds);
        let next = self.next.get();
        ffi::new_intl(self.bytes, next, list, lo, hi, sibling, group, txid, lsn, checkpoint)
            .map(|built| self.built(built))
    }

    /// Builds one page of two: every record of the left, then of the right, with the left's `lo` and the right's `hi` and sibling.
    /// The two are neighbours: the left has a `hi`, and it is the right's `lo` ([`Outside`](Refusal::Outside) otherwise).
    /// Both pages stay. A value in a frame of its own that is still at or above the limit keeps that frame.
    ///
    /// ```
    /// # use cresttrestle::{Arena, Bounds, Build, Refusal, RowList, Ver};
    /// # let mut bytes = [0; 1024];
    /// # let mut arena = Arena::new(&mut bytes);
    /// # let (mut a, mut b) = ([0; 64], [0; 64]);
    /// let mut left = RowList::lent(&mut a)?;
    /// left.push(b"a", Ver::new(5, 0), b"left")?;
    /// let mut right = RowList::lent(&mut b)?;
    /// right.push(b"b", Ver::new(5, 0), b"right")?;
    /// let below_b = Bounds { hi: Some(b"b"), ..Bounds::default() };
    /// let from_b = Bounds { lo: b"b", ..Bounds::default() };
    /// let left = arena.new_leaf(left.bytes(), below_b, Build::default())?;
    /// let right = arena.new_leaf(right.bytes(), from_b, Build::default())?;
    /// let both = arena.merge(left, right, Build::default())?;
    /// assert_eq!(arena.page(both).walk(..)?.count(), 2);
    ///
    /// // the merged page has no `hi`: nothing is to its right
    /// let empty = RowList::lent(&mut a)?;
    /// let apart = arena.new_leaf(empty.bytes(), Bounds::default(), Build::default())?;
    /// assert_eq!(arena.merge(both, apart, Build::default()), Err(Refusal::Outside));
    /// # Ok::<(), Box<dyn std::error::Error>>(())
    /// ```
    pub fn merge(&mut self, left: Addr, right: Addr, build: Build) -> Result<Addr, Refusal> {
        let Build { limit, budget, group, txid, lsn, checkpoint } = build;
        let (next, left, right) = (self.next.get(), left.get(), right.get());
        ffi::merge(self.bytes, next, left, right, limit, budget, group, txid, lsn, checkpoint)
            .map(|built| self.built(built))
    }

    /// Writes a leaf delta: one row that is to lie over a page. The build's budget and transaction are not used.
    ///
    /// ```
    /// # use cresttrestle::{Arena, Build, Ver};
    /// # let mut bytes = [0; 128];
    /// # let mut arena = Arena::new(&mut bytes);
    /// let delta = arena.delta_leaf(b"a", Ver::new(9, 0), b"fresh", Build::default())?;
    /// assert_eq!(arena.view().delta(delta).key()?, (&b"a"[..], Ver::new(9, 0)));
    /// # Ok::<(), cresttrestle::Refusal>(())
    /// ```
    pub fn delta_leaf(
        &mut self,
        key: &[u8],
        ver: Ver,
        value: &[u8],
        build: Build,
    ) -> Result<Addr, Refusal> {
        let Build { limit, group, lsn, checkpoint, .. } = build;
        let next = self.next.get();
        ffi::delta_leaf(
            self.bytes, next, limit, group, lsn, checkpoint, ver.txid, ver.cmd, key, value,
        )
        .map(|built| self.built(built))
    }

    /// Writes an index delta: a key and the page that it leads to. The build's limit and budget are not used.
    ///
    /// ```
    /// # use cresttrestle::{Arena, Build, PageId};
    /// # let mut bytes = [0; 128];
    /// # let mut arena = Arena::new(&mut bytes);
    /// let delta = arena.delta_index(b"k", PageId::new(3), Build::default())?;
    /// assert_eq!(arena.view().delta(delta).child()?, PageId::new(3));
    /// # Ok::<(), cresttrestle::Refusal>(())
    /// ```
    pub fn delta_index(
        &mut self,
        key: &[u8],
        page: Option<PageId>,
        build: Build,
    ) -> Result<Addr, Refusal> {
        let Build { group, txid, lsn, checkpoint, .. } = build;
        let next = self.next.get();
        ffi::delta_index(self.bytes, next, group, txid, lsn, checkpoint, key, PageId::number(page))
            .map(|built| self.built(built))
    }
}

/// As the library takes them: an empty hi and page id 0 are none.
fn parts(bounds: Bounds<'_>) -> (&[u8], &[u8], u64) {
    (bounds.lo, bounds.hi.unwrap_or_default(), PageId::number(bounds.sibling))
}

//! An arena that is read: a page's boundaries, hints and searches.

use core::iter::FusedIterator;
use core::ops::{Bound as End, RangeBounds};

use crate::delta::{Delta, Laid};
use crate::ffi;
use crate::names::{Addr, PageId, Ver};
use crate::refusal::Refusal;
use crate::walk::Walk;

/// The part of an arena at a place that the library named.
#[inline]
pub(crate) fn part(bytes: &[u8], at: u64, len: u64) -> &[u8] {
    place(bytes, at, len).unwrap_or_default()
}

/// The same, none where there is no such place.
#[inline]
pub(crate) fn place(bytes: &[u8], at: u64, len: u64) -> Option<&[u8]> {
    // a length too large wraps round to an end below the begin, which is refused too
    let part = bytes.get(at as usize..at.wrapping_add(len) as usize);
    if part.is_none() {
        unlikely();
    }
    part
}

/// Tells the compiler that this way is hardly ever taken: it then judges by jumps, which walks are faster with.
#[inline]
#[cold]
fn unlikely() {}

/// An arena that is read. Nothing is trusted: every call judges the bytes that it needs.
///
/// ```
/// use cresttrestle::{Addr, Refusal, View};
///
/// let file = [0xff; 100];
/// assert_eq!(View::new(&file).page(Addr::new(8)).search(b"a"), Err(Refusal::BadFrame));
/// ```
#[derive(Clone, Copy, Debug)]
pub struct View<'a> {
    bytes: &'a [u8],
}

impl<'a> View<'a> {
    /// The arena in these bytes.
    pub fn new(bytes: &'a [u8]) -> Self {
        View { bytes }
    }

    /// All its bytes.
    pub fn bytes(self) -> &'a [u8] {
        self.bytes
    }

    /// The leaf or index page at an address. Nothing is read yet: each of the page's calls judges what it reads.
    pub fn page(self, addr: Addr) -> Page<'a> {
        Page { bytes: self.bytes, addr }
    }

    /// The delta at an address, likewise.
    pub fn delta(self, addr: Addr) -> Delta<'a> {
        Delta { bytes: self.bytes, addr }
    }
}

/// A leaf holds rows, an index page leads to pages.
#[derive(Clone, Copy, Debug, PartialEq, Eq, Hash)]
pub enum Kind {
    /// Rows: key, version, value, older versions.
    Leaf,
    /// Keys, each with a page id.
    Index,
}

/// What a page's headers say.
#[derive(Clone, Copy, Debug, PartialEq, Eq)]
pub struct Info<'a> {
    /// Leaf or index.
    pub kind: Kind,
    /// How many keys it has, older versions not counted.
    pub len: usize,
    /// The lower boundary.
    pub lo: &'a [u8],
    /// The upper boundary.
    pub hi: Option<&'a [u8]>,
    /// What every key begins with; walks hand keys back in two parts, this and the rest.
    pub prefix: &'a [u8],
    /// The page to the right.
    pub sibling: Option<PageId>,
}

/// Where a row's older versions stand. A walk reads them, [`Page::as_of`] looks one up; a search only names them.
#[derive(Clone, Copy, Debug, PartialEq, Eq)]
pub struct History {
    /// The first history page.
    pub page: Addr,
    /// The slot of the newest of them there.
    pub slot: u16,
    /// How many there are, over linked pages.
    pub count: u32,
}

/// The newest row of a key.
#[derive(Clone, Copy, Debug, PartialEq, Eq)]
pub struct Found<'a> {
    /// Its position in the page.
    pub slot: usize,
    /// Its version.
    pub ver: Ver,
    /// Its value, in the page or in a frame of its own.
    pub value: &'a [u8],
    /// Its older versions.
    pub history: Option<History>,
}

/// The row of a key as of a version: its newest that is no newer.
#[derive(Clone, Copy, Debug, PartialEq, Eq)]
pub struct AsOf<'a> {
    /// The key's position in the page.
    pub slot: usize,
    /// The row's own version, at most the one that was asked for.
    pub ver: Ver,
    /// Its value, in its page or in a frame of its own.
    pub value: &'a [u8],
}

/// Where a lower bound stands.
#[derive(Clone, Copy, Debug, PartialEq, Eq)]
pub struct Bound {
    /// The first position whose key and version do not come before the probe's; the page's `len` past the end.
    pub position: usize,
    /// Whether there is a key at the position.
    pub at_key: bool,
}

/// The key that a floor found.
#[derive(Clone, Copy, Debug, PartialEq, Eq)]
pub struct Floor {
    /// Its position in the page.
    pub slot: usize,
    /// The page that it leads to.
    pub page: Option<PageId>,
}

/// A leaf or index page of an arena that is read. Made by [`View::page`] or [`Arena::page`](crate::Arena::page).
///
/// ```
/// # use cresttrestle::{Arena, Bounds, Build, Kind, RowList, Ver};
/// # let (mut bytes, mut buffer) = ([0; 512], [0; 128]);
/// # let mut arena = Arena::new(&mut bytes);
/// # let mut list = RowList::lent(&mut buffer)?;
/// # list.push(b"a", Ver::new(5, 0), b"xy")?;
/// # list.push(b"a", Ver::new(3, 0), b"z")?;
/// # let leaf = arena.new_leaf(list.bytes(), Bounds::default(), Build::default())?;
/// let page = arena.page(leaf);
/// page.check()?;
/// let info = page.info()?;
/// assert_eq!((info.kind, info.len, info.hi), (Kind::Leaf, 1, None));
/// let found = page.search(b"a")?.expect("it is there");
/// assert_eq!(found.value, b"xy");
/// assert_eq!(found.history.map(|h| h.count), Some(1));
/// assert_eq!(page.search(b"b")?, None);
/// # Ok::<(), Box<dyn std::error::Error>>(())
/// ```
#[derive(Clone, Copy, Debug)]
pub struct Page<'a> {
    pub(crate) bytes: &'a [u8],
    pub(crate) addr: Addr,
}

impl<'a> Page<'a> {
    /// Where it stands.
    pub fn addr(self) -> Addr {
        self.addr
    }

    /// Judges the page as a whole, with its history pages and values: sound, or [`BadFrame`](Refusal::BadFrame). The other calls
    /// judge only what they read and need no check before them.
    pub fn check(self) -> Result<(), Refusal> {
        ffi::check(self.bytes, self.addr.get())
    }

    /// Kind, number of keys, boundaries, prefix and sibling.
    pub fn info(self) -> Result<Info<'a>, Refusal> {
        let [kind, len, lo, lo_len, hi, hi_len, prefix, prefix_len, sibling] =
            ffi::page(self.bytes, self.addr.get())?;
        Ok(Info {
            kind: if kind == 0 { Kind::Leaf } else { Kind::Index },
            len: len as usize,
            lo: part(self.bytes, lo, lo_len),
            hi: (hi_len > 0).then(|| part(self.bytes, hi, hi_len)),
            prefix: part(self.bytes, prefix, prefix_len),
            sibling: PageId::new(sibling),
        })
    }

    /// The addresses of a leaf's history pages, in order. The page does not vouch for them.
    ///
    /// ```
    /// # use cresttrestle::{Addr, Arena, Bounds, Build, RowList, Ver};
    /// # let (mut bytes, mut buffer) = ([0; 512], [0; 128]);
    /// # let mut arena = Arena::new(&mut bytes);
    /// # let mut list = RowList::lent(&mut buffer)?;
    /// # list.push(b"a", Ver::new(5, 0), b"xy")?;
    /// # list.push(b"a", Ver::new(3, 0), b"z")?;
    /// # let leaf = arena.new_leaf(list.bytes(), Bounds::default(), Build::default())?;
    /// assert!(arena.page(leaf).history_hints()?.eq([Addr::new(8)]));
    /// assert_eq!(arena.page(leaf).remote_hints()?.len(), 0);
    /// # Ok::<(), Box<dyn std::error::Error>>(())
    /// ```
    pub fn history_hints(self) -> Result<Hints<'a>, Refusal> {
        ffi::history_hints(self.bytes, self.addr.get()).map(|words| Hints::new(self.bytes, words))
    }

    /// The addresses of the frames that hold a leaf's large values, the history pages' first.
    pub fn remote_hints(self) -> Result<Hints<'a>, Refusal> {
        ffi::remote_hints(self.bytes, self.addr.get()).map(|words| Hints::new(self.bytes, words))
    }

    /// The newest row of a key in a leaf. Any key may be asked for; one that does not begin with the page's prefix is not there, like
    /// any other. This and the other lookups are refused with [`BadFrame`](Refusal::BadFrame) alone.
    ///
    /// ```
    /// # use cresttrestle::{Arena, Bounds, Build, RowList, Ver};
    /// # let (mut bytes, mut buffer) = ([0; 512], [0; 128]);
    /// # let mut arena = Arena::new(&mut bytes);
    /// # let mut list = RowList::lent(&mut buffer)?;
    /// # list.push(b"ab1", Ver::new(5, 0), b"row")?;
    /// # let bounds = Bounds { lo: b"ab", hi: Some(b"ac"), ..Bounds::default() };
    /// # let leaf = arena.new_leaf(list.bytes(), bounds, Build::default())?;
    /// let page = arena.page(leaf); // prefix a, key ab1
    /// assert_eq!(page.search(b"ab1")?.unwrap().value, b"row");
    /// assert_eq!(page.search(b"xb1")?, None); // from elsewhere
    /// # Ok::<(), Box<dyn std::error::Error>>(())
    /// ```
    pub fn search(self, key: &[u8]) -> Result<Option<Found<'a>>, Refusal> {
        self.search_counted(key).map(|(found, _)| found)
    }

    /// The same, with the number of keys read.
    #[inline]
    pub fn search_counted(self, key: &[u8]) -> Result<(Option<Found<'a>>, u32), Refusal> {
        let [found, slot, txid, cmd, value, value_len, page, at, count, reads] =
            ffi::search(self.bytes, self.addr.get(), key)?;
        let found = (found == 1).then(|| Found {
            slot: slot as usize,
            ver: Ver::new(txid, cmd as u32),
            value: part(self.bytes, value, value_len),
            history: (count > 0).then(|| History {
                page: Addr::new(page),
                slot: at as u16,
                count: count as u32,
            }),
        });
        Ok((found, reads as u32))
    }

    /// The row of a key in a leaf as of a version: its newest row that is no newer, whether it is the key's newest or stands in its
    /// history; none where all are newer or the key is absent. What is refused is as for [`search`](Page::search).
    ///
    /// Last season's flights were reduced with the correction of transaction 7; two newer ones have been written since:
    ///
    /// ```
    /// # use cresttrestle::{Arena, AsOf, Bounds, Build, RowList, Ver};
    /// # let (mut bytes, mut buffer) = ([0; 512], [0; 128]);
    /// # let mut arena = Arena::new(&mut bytes);
    /// # let mut list = RowList::lent(&mut buffer)?;
    /// # list.push(b"7 -30.0", Ver::new(12, 0), b"-1840 cm")?;
    /// # list.push(b"7 -30.0", Ver::new(9, 0), b"-1790 cm")?;
    /// # list.push(b"7 -30.0", Ver::new(6, 2), b"-1755 cm")?;
    /// # let leaf = arena.new_leaf(list.bytes(), Bounds::default(), Build::default())?;
    /// let page = arena.page(leaf); // versions (12, 0), (9, 0), (6, 2)
    /// let then = page.as_of(b"7 -30.0", Ver::of_txid(7))?.expect("a row");
    /// assert_eq!((then.ver, then.value), (Ver::new(6, 2), &b"-1755 cm"[..]));
    /// assert_eq!(page.as_of(b"7 -30.0", Ver::new(9, 0))?.unwrap().value, b"-1790 cm"); // no newer: itself too
    /// assert_eq!(page.as_of(b"7 -30.0", Ver::of_txid(5))?, None); // all are newer
    /// # let newest = page.as_of(b"7 -30.0", Ver::NEWEST)?.unwrap();
    /// # assert_eq!(newest, AsOf { slot: 0, ver: Ver::new(12, 0), value: b"-1840 cm" });
    /// # assert_eq!(page.as_of(b"8 -30.0", Ver::NEWEST)?, None);
    /// # Ok::<(), Box<dyn std::error::Error>>(())
    /// ```
    pub fn as_of(self, key: &[u8], ver: Ver) -> Result<Option<AsOf<'a>>, Refusal> {
        self.as_of_counted(key, ver).map(|(row, _)| row)
    }

    /// The same, with the number of keys read in this page; versions skipped in the history are not counted.
    #[inline]
    pub fn as_of_counted(self, key: &[u8], ver: Ver) -> Result<(Option<AsOf<'a>>, u32), Refusal> {
        let [found, slot, txid, cmd, value, value_len, reads] =
            ffi::as_of(self.bytes, self.addr.get(), key, ver.txid, ver.cmd)?;
        let row = (found == 1).then(|| AsOf {
            slot: slot as usize,
            ver: Ver::new(txid, cmd as u32),
            value: part(self.bytes, value, value_len),
        });
        Ok((row, reads as u32))
    }

    /// The first position whose key and version do not come before these, of a leaf or index page (which ignores the version).
    /// A key's newer version comes first, so [`Ver::NEWEST`] stands before all rows of the key.
    ///
    /// ```
    /// # use cresttrestle::{Arena, Bound, Bounds, Build, IndexList, PageId, Ver};
    /// # let (mut bytes, mut buffer) = ([0; 512], [0; 128]);
    /// # let mut arena = Arena::new(&mut bytes);
    /// # let mut list = IndexList::lent(&mut buffer)?;
    /// # list.push(b"b", PageId::new(1))?;
    /// # list.push(b"d", PageId::new(2))?;
    /// # let index = arena.new_intl(list.bytes(), Bounds::default(), Build::default())?;
    /// let page = arena.page(index); // keys b, d
    /// assert_eq!(page.lower_bound(b"c", Ver::NEWEST)?, Bound { position: 1, at_key: true });
    /// assert_eq!(page.lower_bound(b"e", Ver::NEWEST)?, Bound { position: 2, at_key: false });
    /// # Ok::<(), Box<dyn std::error::Error>>(())
    /// ```
    pub fn lower_bound(self, key: &[u8], ver: Ver) -> Result<Bound, Refusal> {
        self.lower_bound_counted(key, ver).map(|(bound, _)| bound)
    }

    /// The same, with the number of keys read.
    #[inline]
    pub fn lower_bound_counted(self, key: &[u8], ver: Ver) -> Result<(Bound, u32), Refusal> {
        let [at_key, position, reads] =
            ffi::lower_bound(self.bytes, self.addr.get(), key, ver.txid, ver.cmd)?;
        Ok((Bound { position: position as usize, at_key: at_key == 1 }, reads as u32))
    }

    /// The greatest key not above this one in an index page, the first key where all are above; none in a page without keys.
    ///
    /// ```
    /// # use cresttrestle::{Arena, Bounds, Build, IndexList, PageId};
    /// # let (mut bytes, mut buffer) = ([0; 512], [0; 128]);
    /// # let mut arena = Arena::new(&mut bytes);
    /// # let mut list = IndexList::lent(&mut buffer)?;
    /// # list.push(b"b", PageId::new(1))?;
    /// # list.push(b"d", PageId::new(2))?;
    /// # let index = arena.new_intl(list.bytes(), Bounds::default(), Build::default())?;
    /// let page = arena.page(index); // keys b, d
    /// for (probe, slot) in [(b"a", 0), (b"c", 0), (b"d", 1), (b"e", 1)] {
    ///     assert_eq!(page.floor(probe)?.unwrap().slot, slot);
    /// }
    /// # Ok::<(), Box<dyn std::error::Error>>(())
    /// ```
    pub fn floor(self, key: &[u8]) -> Result<Option<Floor>, Refusal> {
        self.floor_counted(key).map(|(floor, _)| floor)
    }

    /// The same, with the number of keys read.
    #[inline]
    pub fn floor_counted(self, key: &[u8]) -> Result<(Option<Floor>, u32), Refusal> {
        let [found, slot, page, reads] = ffi::floor(self.bytes, self.addr.get(), key)?;
        let floor = (found == 1).then(|| Floor { slot: slot as usize, page: PageId::new(page) });
        Ok((floor, reads as u32))
    }

    /// Walks positions in order, each key's newest row first, then its older ones. An end above the page's `len` is
    /// [`BadFrame`](Refusal::BadFrame); a begin above the end lists nothing.
    ///
    /// ```
    /// # use cresttrestle::{Arena, Bounds, Build, RowList, Ver};
    /// # let (mut bytes, mut buffer) = ([0; 512], [0; 128]);
    /// # let mut arena = Arena::new(&mut bytes);
    /// # let mut list = RowList::lent(&mut buffer)?;
    /// # list.push(b"a", Ver::new(5, 0), b"xy")?;
    /// # list.push(b"a", Ver::new(3, 0), b"z")?;
    /// # list.push(b"b", Ver::new(4, 0), b"w")?;
    /// # let leaf = arena.new_leaf(list.bytes(), Bounds::default(), Build::default())?;
    /// for row in arena.page(leaf).walk(..)?.rows() {
    ///     let row = row?;
    ///     println!("{:?} {} {:?}", row.key, row.ver.txid, row.value);
    /// }
    /// # let values: Vec<_> = arena.page(leaf).walk(..)?.rows().map(|r| r.unwrap().value).collect();
    /// # assert_eq!(values, [&b"xy"[..], b"z", b"w"]);
    /// assert_eq!(arena.page(leaf).walk(1..)?.count(), 1);
    /// # Ok::<(), Box<dyn std::error::Error>>(())
    /// ```
    pub fn walk(self, positions: impl RangeBounds<usize>) -> Result<Walk<'a>, Refusal> {
        let info = self.info()?;
        let begin = match positions.start_bound() {
            End::Included(&at) => at,
            End::Excluded(&at) => at.saturating_add(1),
            End::Unbounded => 0,
        };
        let end = match positions.end_bound() {
            End::Included(&at) => at.saturating_add(1),
            End::Excluded(&at) => at,
            End::Unbounded => info.len,
        };
        let words = ffi::forward(self.bytes, self.addr.get(), begin as u64, end as u64)?;
        Ok(Walk::new(self.bytes, info.prefix, words))
    }

    /// Walks a leaf's positions from `start` down to `end`, both included; a key's rows still come newest first. A start below the
    /// end lists nothing; otherwise an end below 0 or a start outside the page is [`BadFrame`](Refusal::BadFrame).
    ///
    /// ```
    /// # use cresttrestle::{Arena, Bounds, Build, RowList, Ver};
    /// # let (mut bytes, mut buffer) = ([0; 512], [0; 128]);
    /// # let mut arena = Arena::new(&mut bytes);
    /// # let mut list = RowList::lent(&mut buffer)?;
    /// # list.push(b"a", Ver::new(5, 0), b"xy")?;
    /// # list.push(b"a", Ver::new(3, 0), b"z")?;
    /// # list.push(b"b", Ver::new(4, 0), b"w")?;
    /// # let leaf = arena.new_leaf(list.bytes(), Bounds::default(), Build::default())?;
    /// let page = arena.page(leaf); // keys a (two versions), b
    /// let last = page.info()?.len as i64 - 1;
    /// let values: Vec<_> = page.walk_back(last, 0)?.rows().map(|row| row.unwrap().value).collect();
    /// assert_eq!(values, [&b"w"[..], b"xy", b"z"]);
    /// # Ok::<(), Box<dyn std::error::Error>>(())
    /// ```
    pub fn walk_back(self, start: i64, end: i64) -> Result<Walk<'a>, Refusal> {
        let words = ffi::backward(self.bytes, self.addr.get(), start, end)?;
        Ok(Walk::new(self.bytes, self.info()?.prefix, words))
    }

    /// Walks the keys from `from` (or the first) up to below `to` (or the end), between two lower bounds with [`Ver::NEWEST`].
    ///
    /// ```
    /// # use cresttrestle::{Arena, Bounds, Build, RowList, Ver};
    /// # let (mut bytes, mut buffer) = ([0; 512], [0; 128]);
    /// # let mut arena = Arena::new(&mut bytes);
    /// # let mut list = RowList::lent(&mut buffer)?;
    /// # list.push(b"a", Ver::new(5, 0), b"1")?;
    /// # list.push(b"b", Ver::new(3, 0), b"2")?;
    /// # list.push(b"c", Ver::new(4, 0), b"3")?;
    /// # let leaf = arena.new_leaf(list.bytes(), Bounds::default(), Build::default())?;
    /// let page = arena.page(leaf); // keys a, b, c
    /// assert_eq!(page.range(Some(b"a"), Some(b"c"))?.count(), 2);
    /// assert_eq!(page.range(Some(b"bb"), None)?.count(), 1);
    /// # Ok::<(), Box<dyn std::error::Error>>(())
    /// ```
    pub fn range(self, from: Option<&[u8]>, to: Option<&[u8]>) -> Result<Walk<'a>, Refusal> {
        let bound = |key: &[u8]| self.lower_bound(key, Ver::NEWEST).map(|bound| bound.position);
        let begin = from.map_or(Ok(0), bound)?;
        match to {
            Some(to) => self.walk(begin..bound(to)?),
            None => self.walk(begin..),
        }
    }

    /// The row of a key where a leaf delta in a buffer of its own lies over this leaf: the delta's where its key is the probe and it
    /// is no older than the page's newest, else the page's.
    ///
    /// ```
    /// # use cresttrestle::{Arena, Bounds, Build, Laid, RowList, Ver};
    /// # let (mut bytes, mut fresh_bytes, mut buffer) = ([0; 512], [0; 128], [0; 128]);
    /// # let mut arena = Arena::new(&mut bytes);
    /// # let mut list = RowList::lent(&mut buffer)?;
    /// # list.push(b"a", Ver::new(5, 0), b"page")?;
    /// # list.push(b"b", Ver::new(5, 0), b"page")?;
    /// # let leaf = arena.new_leaf(list.bytes(), Bounds::default(), Build::default())?;
    /// let mut fresh = Arena::new(&mut fresh_bytes);
    /// let delta = fresh.delta_leaf(b"a", Ver::new(9, 0), b"fresh", Build::default())?;
    /// let (page, delta) = (arena.page(leaf), fresh.view().delta(delta));
    /// assert_eq!(page.overlay(delta, b"a")?, Some(Laid::Delta(b"fresh")));
    /// assert_eq!(page.overlay(delta, b"b")?, Some(Laid::Page(b"page")));
    /// assert_eq!(page.overlay(delta, b"c")?, None);
    /// # Ok::<(), Box<dyn std::error::Error>>(())
    /// ```
    pub fn overlay<'d>(
        self,
        delta: Delta<'d>,
        key: &[u8],
    ) -> Result<Option<Laid<'a, 'd>>, Refusal> {
        let [place, at, len] =
            ffi::overlay(self.bytes, self.addr.get(), delta.bytes, delta.addr.get(), key)?;
        Ok(match place {
            1 => Some(Laid::Delta(part(delta.bytes, at, len))),
            2 => Some(Laid::Page(part(self.bytes, at, len))),
            _ => None,
        })
    }
}

/// The addresses that a leaf keeps of its frames, in order.
#[derive(Clone, Debug)]
pub struct Hints<'a> {
    bytes: &'a [u8],
    at: u64,
    count: u64,
    k: u64,
}

impl<'a> Hints<'a> {
    fn new(bytes: &'a [u8], [at, count]: [u64; 2]) -> Self {
        Hints { bytes, at, count, k: 0 }
    }
}

impl Iterator for Hints<'_> {
    type Item = Addr;

    fn next(&mut self) -> Option<Addr> {
        if self.k == self.count {
            return None;
        }
        let [addr] = ffi::hint(self.bytes, self.at, self.count, self.k).ok()?;
        self.k += 1;
        Some(Addr::new(addr))
    }

    fn size_hint(&self) -> (usize, Option<usize>) {
        let left = (self.count - self.k) as usize;
        (left, Some(left))
    }
}

impl ExactSizeIterator for Hints<'_> {}
impl FusedIterator for Hints<'_> {}

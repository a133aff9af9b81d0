//! The names of things: a frame's address, a page's id, a row's version.

use core::fmt;
use core::num::NonZeroU64;

/// Where a frame stands in an arena: a multiple of 8, at least 8. Any number may be asked about; a call judges it and refuses with
/// [`BadFrame`](crate::Refusal::BadFrame) where no such frame stands. An address is no [`PageId`].
///
/// ```
/// use cresttrestle::Addr;
///
/// assert_eq!(Addr::new(104).get(), 104);
/// assert_eq!(Addr::FIRST, Addr::new(8));
/// ```
#[derive(Clone, Copy, Debug, PartialEq, Eq, PartialOrd, Ord, Hash)]
pub struct Addr(u64);

impl Addr {
    /// The first address of every arena.
    pub const FIRST: Addr = Addr(8);

    /// The address of this number.
    pub const fn new(number: u64) -> Addr {
        Addr(number)
    }

    /// Its number.
    pub const fn get(self) -> u64 {
        self.0
    }

    /// 0 is none.
    pub(crate) fn some(number: u64) -> Option<Addr> {
        (number != 0).then_some(Addr(number))
    }
}

impl fmt::Display for Addr {
    fn fmt(&self, f: &mut fmt::Formatter<'_>) -> fmt::Result {
        self.0.fmt(f)
    }
}

/// The name of a page in the caller's tree, which outlives the page's frames. 0 is none, so a place for a page id is an `Option`.
///
/// ```
/// use cresttrestle::PageId;
///
/// assert_eq!(PageId::new(7).map(PageId::get), Some(7));
/// assert_eq!(PageId::new(0), None);
/// ```
#[derive(Clone, Copy, Debug, PartialEq, Eq, PartialOrd, Ord, Hash)]
pub struct PageId(NonZeroU64);

impl PageId {
    /// The page id of this number, none for 0.
    pub const fn new(number: u64) -> Option<PageId> {
        match NonZeroU64::new(number) {
            Some(number) => Some(PageId(number)),
            None => None,
        }
    }

    /// Its number.
    pub const fn get(self) -> u64 {
        self.0.get()
    }

    /// As the library takes it: 0 is none.
    pub(crate) fn number(page: Option<PageId>) -> u64 {
        page.map_or(0, PageId::get)
    }
}

impl fmt::Display for PageId {
    fn fmt(&self, f: &mut fmt::Formatter<'_>) -> fmt::Result {
        self.0.fmt(f)
    }
}

/// A row's version: the writing transaction and its command. The greater of two is the newer.
///
/// ```
/// use cresttrestle::Ver;
///
/// assert!(Ver::new(5, 0) > Ver::new(3, 9));
/// assert!(Ver::new(5, 1) > Ver::new(5, 0));
/// assert!(Ver::NEWEST >= Ver::new(u64::MAX, 7));
/// ```
#[derive(Clone, Copy, Debug, Default, PartialEq, Eq, PartialOrd, Ord, Hash)]
pub struct Ver {
    /// The transaction.
    pub txid: u64,
    /// Its command.
    pub cmd: u32,
}

impl Ver {
    /// The largest version. A key's newer version comes first, so a lower bound with it stands before every row of the key.
    pub const NEWEST: Ver = Ver::new(u64::MAX, u32::MAX);

    /// The version of a transaction and its command.
    pub const fn new(txid: u64, cmd: u32) -> Ver {
        Ver { txid, cmd }
    }

    /// The largest version of a transaction: as of it, all that the transaction wrote is there.
    ///
    /// ```
    /// # use cresttrestle::Ver;
    /// assert!(Ver::of_txid(7) >= Ver::new(7, 3) && Ver::of_txid(7) < Ver::new(8, 0));
    /// ```
    pub const fn of_txid(txid: u64) -> Ver {
        Ver { txid, cmd: u32::MAX }
    }
}

//! Lists in the house form, which builds take: a version byte, a byte count, then the entries, all big-endian.

use core::fmt;

#[cfg(feature = "alloc")]
use alloc::vec::Vec;

use crate::names::{PageId, Ver};

/// An entry does not fit: the lent buffer is full, or a key, value or the whole list is over its length field.
#[derive(Clone, Copy, Debug, PartialEq, Eq)]
pub struct ListFull;

impl fmt::Display for ListFull {
    fn fmt(&self, f: &mut fmt::Formatter<'_>) -> fmt::Result {
        f.write_str("the entry does not fit the list")
    }
}

impl core::error::Error for ListFull {}

/// Bytes that a list grows in: a [`Lent`] buffer, or with feature `alloc` a `Vec<u8>`.
pub trait Room: sealed::Room {}

mod sealed {
    pub trait Room {
        fn bytes(&self) -> &[u8];
        fn bytes_mut(&mut self) -> &mut [u8];
        /// All of the parts behind the bytes, or nothing and false.
        fn append(&mut self, parts: &[&[u8]]) -> bool;
    }
}

/// A lent buffer and how much of it is taken.
#[derive(Debug)]
pub struct Lent<'b> {
    buffer: &'b mut [u8],
    taken: usize,
}

impl Room for Lent<'_> {}

impl sealed::Room for Lent<'_> {
    fn bytes(&self) -> &[u8] {
        &self.buffer[..self.taken]
    }

    fn bytes_mut(&mut self) -> &mut [u8] {
        &mut self.buffer[..self.taken]
    }

    fn append(&mut self, parts: &[&[u8]]) -> bool {
        let all: usize = parts.iter().map(|p| p.len()).sum();
        if all > self.buffer.len() - self.taken {
            return false;
        }
        for part in parts {
            self.buffer[self.taken..self.taken + part.len()].copy_from_slice(part);
            self.taken += part.len();
        }
        true
    }
}

#[cfg(feature = "alloc")]
impl Room for Vec<u8> {}

#[cfg(feature = "alloc")]
impl sealed::Room for Vec<u8> {
    fn bytes(&self) -> &[u8] {
        self
    }

    fn bytes_mut(&mut self) -> &mut [u8] {
        self
    }

    fn append(&mut self, parts: &[&[u8]]) -> bool {
        parts.iter().for_each(|part| self.extend_from_slice(part));
        true
    }
}

/// The version byte and the byte count of an empty list.
const HEADER: [u8; 5] = [1, 0, 0, 0, 0];

/// What both kinds of list share: the header, kept right after every entry.
#[derive(Debug)]
struct List<R>(R);

impl<R: Room> List<R> {
    fn begin(mut room: R) -> Result<Self, ListFull> {
        if room.append(&[&HEADER]) { Ok(List(room)) } else { Err(ListFull) }
    }

    /// Appends an entry of these parts; `key` is the one with a u16 before it.
    fn push(&mut self, key: &[u8], rest: [&[u8]; 4]) -> Result<(), ListFull> {
        let key_len = u16::try_from(key.len()).map_err(|_| ListFull)?;
        let entry: usize = 2 + key.len() + rest.iter().map(|part| part.len()).sum::<usize>();
        let count = self.0.bytes().len() - HEADER.len() + entry;
        let count = u32::try_from(count).map_err(|_| ListFull)?;
        let [a, b, c, d] = rest;
        if !self.0.append(&[&key_len.to_be_bytes(), key, a, b, c, d]) {
            return Err(ListFull);
        }
        self.0.bytes_mut()[1..5].copy_from_slice(&count.to_be_bytes());
        Ok(())
    }
}

/// A record list, from which a leaf page is built: keys rising, the newest version of a key first. The list takes entries in any
/// order; the build judges them.
///
/// ```
/// use cresttrestle::{RowList, Ver};
///
/// let mut buffer = [0; 64];
/// let mut list = RowList::lent(&mut buffer)?;
/// list.push(b"a", Ver::new(5, 0), b"xy")?;
/// list.push(b"a", Ver::new(3, 0), b"z")?;
/// assert_eq!(list.bytes().len(), 46);
/// # Ok::<(), cresttrestle::ListFull>(())
/// ```
#[derive(Debug)]
pub struct RowList<R>(List<R>);

impl<'b> RowList<Lent<'b>> {
    /// An empty list in a lent buffer of at least five bytes.
    pub fn lent(buffer: &'b mut [u8]) -> Result<Self, ListFull> {
        List::begin(Lent { buffer, taken: 0 }).map(RowList)
    }
}

#[cfg(feature = "alloc")]
impl RowList<Vec<u8>> {
    /// An empty list that owns its bytes.
    pub fn new() -> Self {
        RowList(List(HEADER.to_vec()))
    }
}

#[cfg(feature = "alloc")]
impl Default for RowList<Vec<u8>> {
    fn default() -> Self {
        Self::new()
    }
}

impl<R: Room> RowList<R> {
    /// Appends a row. Where it does not fit, the list stays as it was.
    pub fn push(&mut self, key: &[u8], ver: Ver, value: &[u8]) -> Result<(), ListFull> {
        let value_len = u32::try_from(value.len()).map_err(|_| ListFull)?;
        self.0.push(
            key,
            [&ver.txid.to_be_bytes(), &ver.cmd.to_be_bytes(), &value_len.to_be_bytes(), value],
        )
    }

    /// The list, to be handed to a build.
    pub fn bytes(&self) -> &[u8] {
        self.0.0.bytes()
    }
}

/// An index list, from which an index page is built: keys rising, each with the page that it leads to.
///
/// ```
/// use cresttrestle::{IndexList, PageId};
///
/// let mut buffer = [0; 64];
/// let mut list = IndexList::lent(&mut buffer)?;
/// list.push(b"b", PageId::new(1))?;
/// list.push(b"d", PageId::new(2))?;
/// assert_eq!(list.bytes().len(), 27);
/// # Ok::<(), cresttrestle::ListFull>(())
/// ```
#[derive(Debug)]
pub struct IndexList<R>(List<R>);

impl<'b> IndexList<Lent<'b>> {
    /// An empty list in a lent buffer of at least five bytes.
    pub fn lent(buffer: &'b mut [u8]) -> Result<Self, ListFull> {
        List::begin(Lent { buffer, taken: 0 }).map(IndexList)
    }
}

#[cfg(feature = "alloc")]
impl IndexList<Vec<u8>> {
    /// An empty list that owns its bytes.
    pub fn new() -> Self {
        IndexList(List(HEADER.to_vec()))
    }
}

#[cfg(feature = "alloc")]
impl Default for IndexList<Vec<u8>> {
    fn default() -> Self {
        Self::new()
    }
}

impl<R: Room> IndexList<R> {
    /// Appends a key and its page. Where it does not fit, the list stays as it was.
    pub fn push(&mut self, key: &[u8], page: Option<PageId>) -> Result<(), ListFull> {
        self.0.push(key, [&PageId::number(page).to_be_bytes(), &[], &[], &[]])
    }

    /// The list, to be handed to a build.
    pub fn bytes(&self) -> &[u8] {
        self.0.0.bytes()
    }
}

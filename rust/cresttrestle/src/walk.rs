//! Walks: the records of a page one after another, borrowed from the arena.

use core::cmp::Ordering;
use core::fmt;
use core::iter::FusedIterator;
use core::marker::PhantomData;

#[cfg(feature = "alloc")]
use alloc::vec::Vec;

use crate::ffi::{self, Steps};
use crate::names::{Addr, PageId, Ver};
use crate::page::place;
use crate::refusal::Refusal;
use crate::sys::{CT_STEP_WORDS, CT_WALK_WORDS};

/// A key as a page holds it: the page's prefix, then the rest. It is equal to, and compares with, the whole bytes.
///
/// ```
/// use cresttrestle::Key;
///
/// let key = Key { prefix: b"ab", rest: b"c" };
/// assert!(key == b"abc"[..]);
/// assert!(key < b"abd"[..]);
/// let mut buffer = [0; 8];
/// assert_eq!(key.write_to(&mut buffer), Some(&b"abc"[..]));
/// assert_eq!(format!("{key:?}"), "\"abc\"");
/// ```
#[derive(Clone, Copy)]
pub struct Key<'a> {
    /// What all keys of the page begin with.
    pub prefix: &'a [u8],
    /// What follows.
    pub rest: &'a [u8],
}

impl Key<'_> {
    /// How many bytes the whole key has.
    pub fn len(&self) -> usize {
        self.prefix.len() + self.rest.len()
    }

    /// Whether it has none.
    pub fn is_empty(&self) -> bool {
        self.len() == 0
    }

    /// The bytes of the whole key.
    pub fn bytes(&self) -> impl Iterator<Item = u8> + Clone {
        self.prefix.iter().chain(self.rest).copied()
    }

    /// Writes the whole key to the front of a buffer and lends it; none where the buffer is too short.
    pub fn write_to<'b>(&self, buffer: &'b mut [u8]) -> Option<&'b [u8]> {
        let whole = buffer.get_mut(..self.len())?;
        let (prefix, rest) = whole.split_at_mut(self.prefix.len());
        prefix.copy_from_slice(self.prefix);
        rest.copy_from_slice(self.rest);
        Some(whole)
    }

    /// The whole key in bytes of its own.
    #[cfg(feature = "alloc")]
    pub fn to_vec(&self) -> Vec<u8> {
        [self.prefix, self.rest].concat()
    }
}

impl PartialEq<[u8]> for Key<'_> {
    fn eq(&self, whole: &[u8]) -> bool {
        whole.strip_prefix(self.prefix) == Some(self.rest)
    }
}

impl PartialOrd<[u8]> for Key<'_> {
    fn partial_cmp(&self, whole: &[u8]) -> Option<Ordering> {
        Some(self.bytes().cmp(whole.iter().copied()))
    }
}

impl PartialEq for Key<'_> {
    fn eq(&self, other: &Key<'_>) -> bool {
        self.cmp(other).is_eq()
    }
}

impl Eq for Key<'_> {}

impl PartialOrd for Key<'_> {
    fn partial_cmp(&self, other: &Key<'_>) -> Option<Ordering> {
        Some(self.cmp(other))
    }
}

impl Ord for Key<'_> {
    fn cmp(&self, other: &Key<'_>) -> Ordering {
        self.bytes().cmp(other.bytes())
    }
}

impl fmt::Debug for Key<'_> {
    fn fmt(&self, f: &mut fmt::Formatter<'_>) -> fmt::Result {
        write!(f, "\"{}{}\"", self.prefix.escape_ascii(), self.rest.escape_ascii())
    }
}

/// A row of a leaf.
#[derive(Clone, Copy, Debug, PartialEq, Eq)]
pub struct Row<'a> {
    /// Its key.
    pub key: Key<'a>,
    /// Its version.
    pub ver: Ver,
    /// Its value, in the page or in a frame of its own.
    pub value: &'a [u8],
    /// That frame.
    pub remote: Option<Addr>,
    /// The history page that this step entered.
    pub entered: Option<Addr>,
}

/// A key of an index page.
#[derive(Clone, Copy, Debug, PartialEq, Eq)]
pub struct Child<'a> {
    /// The key.
    pub key: Key<'a>,
    /// The page that it leads to.
    pub page: Option<PageId>,
}

/// What a walk lists.
#[derive(Clone, Copy, Debug, PartialEq, Eq)]
pub enum Record<'a> {
    /// On a leaf.
    Row(Row<'a>),
    /// On an index page.
    Child(Child<'a>),
}

impl<'a> Record<'a> {
    /// The key of either.
    pub fn key(&self) -> Key<'a> {
        match self {
            Record::Row(row) => row.key,
            Record::Child(child) => child.key,
        }
    }

    /// The row of a leaf.
    pub fn row(self) -> Option<Row<'a>> {
        match self {
            Record::Row(row) => Some(row),
            Record::Child(_) => None,
        }
    }

    /// The key and page of an index page.
    pub fn child(self) -> Option<Child<'a>> {
        match self {
            Record::Child(child) => Some(child),
            Record::Row(_) => None,
        }
    }
}

/// How many records a walk reads in one call of the library. More make walks faster, as a call costs as much as five or six records, and
/// a walk larger, as they stand in it.
const AHEAD: usize = 31;
const _: () = assert!(size_of::<Walk<'_>>() < 4096, "a walk is moved and stands on stacks");

/// A walk: the records of a page in order, until the end or the first that is refused. Made by [`Page::walk`](crate::Page::walk),
/// [`walk_back`](crate::Page::walk_back) and [`range`](crate::Page::range). It allocates nothing; a copy goes on from where it stands.
#[derive(Clone, Debug)]
pub struct Walk<'a> {
    bytes: &'a [u8],
    prefix: &'a [u8],
    words: [u64; CT_WALK_WORDS],
    /// The records read ahead, and how many of them are taken.
    read: Steps<AHEAD>,
    taken: usize,
    ended: bool,
}

impl<'a> Walk<'a> {
    pub(crate) fn new(bytes: &'a [u8], prefix: &'a [u8], words: [u64; CT_WALK_WORDS]) -> Self {
        Walk { bytes, prefix, words, read: Steps::NONE, taken: 0, ended: false }
    }

    /// The rows alone: all records of a leaf, none of an index page.
    pub fn rows(self) -> impl Iterator<Item = Result<Row<'a>, Refusal>> + Clone {
        Only { walk: self, kind: PhantomData }
    }

    /// The keys with their pages alone: all records of an index page, none of a leaf.
    pub fn children(self) -> impl Iterator<Item = Result<Child<'a>, Refusal>> + Clone {
        Only { walk: self, kind: PhantomData }
    }

    /// Reads the next records; none at the end. A refused step is told behind the records before it.
    #[cold] // once a batch
    fn refill(&mut self) -> Option<Result<(), Refusal>> {
        if self.ended {
            return None;
        }
        let told = ffi::steps(self.bytes, &mut self.words, &mut self.read);
        self.taken = 0;
        // a refused step would be refused again for ever
        self.ended = self.read.count == 0;
        (!self.ended || told.is_err()).then_some(told)
    }

    /// The next record of a kind.
    #[inline]
    fn next_of<T: Listed<'a>>(&mut self) -> Option<Result<T, Refusal>> {
        loop {
            if self.taken as u64 == self.read.count {
                if let Err(refusal) = self.refill()? {
                    return Some(Err(refusal));
                }
            }
            let words = self.read.records.get(self.taken)?;
            self.taken += 1;
            if let Some(item) = T::made(self.bytes, self.prefix, words) {
                return Some(Ok(item));
            }
        }
    }

    /// All records of a kind that are still to come. Within a batch the walk itself is left alone, which `next` must move in memory.
    #[inline]
    fn fold_of<T: Listed<'a>, B>(
        &mut self,
        mut sum: B,
        mut f: impl FnMut(B, Result<T, Refusal>) -> B,
    ) -> B {
        loop {
            for words in
                self.read.records.get(self.taken..self.read.count as usize).unwrap_or_default()
            {
                if let Some(item) = T::made(self.bytes, self.prefix, words) {
                    sum = f(sum, Ok(item));
                }
            }
            match self.refill() {
                None => return sum,
                Some(Ok(())) => {}
                Some(Err(refusal)) => sum = f(sum, Err(refusal)),
            }
        }
    }
}

impl<'a> Iterator for Walk<'a> {
    type Item = Result<Record<'a>, Refusal>;

    #[inline]
    fn next(&mut self) -> Option<Self::Item> {
        self.next_of()
    }

    #[inline]
    fn fold<B, F: FnMut(B, Self::Item) -> B>(mut self, sum: B, f: F) -> B {
        self.fold_of(sum, f)
    }
}

impl FusedIterator for Walk<'_> {}

/// The records of one kind, made as such and never as a [`Record`].
#[derive(Clone)]
struct Only<'a, T> {
    walk: Walk<'a>,
    kind: PhantomData<T>,
}

impl<'a, T: Listed<'a>> Iterator for Only<'a, T> {
    type Item = Result<T, Refusal>;

    #[inline]
    fn next(&mut self) -> Option<Self::Item> {
        self.walk.next_of()
    }

    #[inline]
    fn fold<B, F: FnMut(B, Self::Item) -> B>(mut self, sum: B, f: F) -> B {
        self.walk.fold_of(sum, f)
    }
}

/// What a record's words say; none of a record of another kind, or of a place outside the arena, which the library never names.
trait Listed<'a>: Sized {
    fn made(bytes: &'a [u8], prefix: &'a [u8], words: &[u64; CT_STEP_WORDS]) -> Option<Self>;
}

impl<'a> Listed<'a> for Row<'a> {
    #[inline]
    fn made(bytes: &'a [u8], prefix: &'a [u8], words: &[u64; CT_STEP_WORDS]) -> Option<Self> {
        let [1, rest, rest_len, txid, cmd, value, value_len, remote, entered] = *words else {
            return None;
        };
        Some(Row {
            key: Key { prefix, rest: place(bytes, rest, rest_len)? },
            ver: Ver::new(txid, cmd as u32),
            value: place(bytes, value, value_len)?,
            remote: Addr::some(remote),
            entered: Addr::some(entered),
        })
    }
}

impl<'a> Listed<'a> for Child<'a> {
    #[inline]
    fn made(bytes: &'a [u8], prefix: &'a [u8], words: &[u64; CT_STEP_WORDS]) -> Option<Self> {
        let [2, rest, rest_len, page, ..] = *words else {
            return None;
        };
        let key = Key { prefix, rest: place(bytes, rest, rest_len)? };
        Some(Child { key, page: PageId::new(page) })
    }
}

impl<'a> Listed<'a> for Record<'a> {
    #[inline]
    fn made(bytes: &'a [u8], prefix: &'a [u8], words: &[u64; CT_STEP_WORDS]) -> Option<Self> {
        match words[0] {
            1 => Row::made(bytes, prefix, words).map(Record::Row),
            _ => Child::made(bytes, prefix, words).map(Record::Child),
        }
    }
}

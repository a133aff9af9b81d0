//! Deltas: one row, or one key of an index page, that lies over a page.

use crate::ffi;
use crate::names::{Addr, PageId, Ver};
use crate::page::part;
use crate::refusal::Refusal;

/// A delta of an arena that is read. Made by [`View::delta`](crate::View::delta). A leaf delta has `key` and `value`, an index delta
/// `index_key` and `child`; the other two are [`BadFrame`](Refusal::BadFrame).
///
/// ```
/// # use cresttrestle::{Arena, Build, PageId, Refusal, Ver};
/// let mut bytes = [0; 256];
/// let mut arena = Arena::new(&mut bytes);
/// let row = arena.delta_leaf(b"a", Ver::new(9, 0), b"fresh", Build::default())?;
/// let child = arena.delta_index(b"k", PageId::new(3), Build::default())?;
///
/// let row = arena.view().delta(row);
/// assert_eq!(row.key()?, (&b"a"[..], Ver::new(9, 0)));
/// assert_eq!(row.value()?, b"fresh");
/// assert_eq!(row.child(), Err(Refusal::BadFrame));
///
/// let child = arena.view().delta(child);
/// assert_eq!((child.index_key()?, child.child()?), (&b"k"[..], PageId::new(3)));
/// # Ok::<(), Refusal>(())
/// ```
#[derive(Clone, Copy, Debug)]
pub struct Delta<'d> {
    pub(crate) bytes: &'d [u8],
    pub(crate) addr: Addr,
}

impl<'d> Delta<'d> {
    /// Where it stands.
    pub fn addr(self) -> Addr {
        self.addr
    }

    /// A leaf delta's whole key and its version.
    pub fn key(self) -> Result<(&'d [u8], Ver), Refusal> {
        let [at, len, txid, cmd] = ffi::delta_key(self.bytes, self.addr.get())?;
        Ok((part(self.bytes, at, len), Ver::new(txid, cmd as u32)))
    }

    /// A leaf delta's value.
    pub fn value(self) -> Result<&'d [u8], Refusal> {
        let [at, len] = ffi::delta_val(self.bytes, self.addr.get())?;
        Ok(part(self.bytes, at, len))
    }

    /// An index delta's whole key.
    pub fn index_key(self) -> Result<&'d [u8], Refusal> {
        let [at, len] = ffi::delta_index_key(self.bytes, self.addr.get())?;
        Ok(part(self.bytes, at, len))
    }

    /// The page that an index delta names.
    pub fn child(self) -> Result<Option<PageId>, Refusal> {
        let [page] = ffi::delta_child(self.bytes, self.addr.get())?;
        Ok(PageId::new(page))
    }
}

/// Where an overlay's value came from, each with its own lifetime.
#[derive(Clone, Copy, Debug, PartialEq, Eq)]
pub enum Laid<'p, 'd> {
    /// From the page's arena.
    Page(&'p [u8]),
    /// From the delta's buffer.
    Delta(&'d [u8]),
}

impl<'v> Laid<'v, 'v> {
    /// The value, wherever it came from.
    pub fn value(self) -> &'v [u8] {
        match self {
            Laid::Page(value) | Laid::Delta(value) => value,
        }
    }
}

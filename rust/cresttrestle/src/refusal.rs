//! Why a call is refused.

use core::fmt;

use crate::sys;

/// Why a call was refused: the first of the list that applies. A refusal changes nothing, no byte of an arena.
///
/// ```
/// use cresttrestle::{Addr, Refusal, View};
///
/// let nothing = View::new(&[0; 64]);
/// let why = nothing.page(Addr::new(8)).check().unwrap_err();
/// assert_eq!(why, Refusal::BadFrame);
/// assert_eq!(why.number(), 4);
/// assert_eq!(why.to_string(), "bad frame: no frame at the address, bytes not as laid out, or a position outside the page");
/// ```
#[derive(Clone, Copy, Debug, PartialEq, Eq, PartialOrd, Ord, Hash)]
#[repr(u8)]
pub enum Refusal {
    /// Inline limit not 1 to 65,536, budget not 256 to 131,072, or a boundary over 4,096 bytes.
    BadLimit = sys::CT_BAD_LIMIT as u8,
    /// The next free address is below 8, not a multiple of 8, or above the arena's length.
    BadArena = sys::CT_BAD_ARENA as u8,
    /// The list is not in the house form, a key is over 4,096 bytes or a value over 65,536.
    BadList = sys::CT_BAD_LIST as u8,
    /// No frame at the address, bytes not as laid out, or a position outside the page.
    BadFrame = sys::CT_BAD_FRAME as u8,
    /// A merge of a leaf with an index page.
    MixedKinds = sys::CT_MIXED_KINDS as u8,
    /// An entry that is not above the one before.
    OutOfOrder = sys::CT_OUT_OF_ORDER as u8,
    /// Building or merging: a key that does not begin with the page's prefix.
    WrongPrefix = sys::CT_WRONG_PREFIX as u8,
    /// Building or merging: a key below `lo` or not below `hi`, or a `lo` that is not below `hi`. Merging: the left page has no `hi`, or it
    /// is not the right page's `lo`. Its number is 10; it is judged before the two below.
    Outside = sys::CT_OUTSIDE as u8,
    /// Over 65,535 entries, or a page over 16,777,216 bytes.
    TooBig = sys::CT_TOO_BIG as u8,
    /// The frames do not fit behind the next free address.
    NoRoom = sys::CT_NO_ROOM as u8,
}

impl Refusal {
    /// Every refusal, in the order in which a call judges them: 10 stands between 7 and 8.
    pub const ALL: [Refusal; 10] = [
        Refusal::BadLimit,
        Refusal::BadArena,
        Refusal::BadList,
        Refusal::BadFrame,
        Refusal::MixedKinds,
        Refusal::OutOfOrder,
        Refusal::WrongPrefix,
        Refusal::Outside,
        Refusal::TooBig,
        Refusal::NoRoom,
    ];

    /// The number, 1 to 10.
    pub const fn number(self) -> u8 {
        self as u8
    }

    /// The refusal of a number, none for 0 and above 10.
    ///
    /// ```
    /// use cresttrestle::Refusal;
    ///
    /// assert_eq!(Refusal::of(9), Some(Refusal::NoRoom));
    /// assert_eq!(Refusal::of(10), Some(Refusal::Outside));
    /// assert_eq!(Refusal::of(0), None);
    /// ```
    pub fn of(number: u8) -> Option<Refusal> {
        Self::ALL.into_iter().find(|why| why.number() == number)
    }

    /// What a C call returned: 0 is an answer.
    pub(crate) fn judged(status: u32) -> Result<(), Refusal> {
        if status == sys::CT_OK {
            return Ok(());
        }
        let why = u8::try_from(status).ok().and_then(Refusal::of);
        Err(why.expect("the library returns 0 to 10"))
    }
}

impl fmt::Display for Refusal {
    fn fmt(&self, f: &mut fmt::Formatter<'_>) -> fmt::Result {
        f.write_str(match self {
            Refusal::BadLimit => {
                "bad limit: inline limit not 1 to 65,536, budget not 256 to 131,072, or a boundary over 4,096 bytes"
            }
            Refusal::BadArena => {
                "bad arena: the next free address is below 8, not a multiple of 8, or above the arena's length"
            }
            Refusal::BadList => {
                "bad list: not in the house form, a key over 4,096 bytes or a value over 65,536"
            }
            Refusal::BadFrame => {
                "bad frame: no frame at the address, bytes not as laid out, or a position outside the page"
            }
            Refusal::MixedKinds => "mixed kinds: a leaf cannot be merged with an index page",
            Refusal::OutOfOrder => "out of order: an entry is not above the one before",
            Refusal::WrongPrefix => {
                "wrong prefix: a key does not begin with the page's prefix"
            }
            Refusal::Outside => {
                "outside: a key or boundary that does not lie between lo and hi, or pages whose boundaries do not meet"
            }
            Refusal::TooBig => "too big: over 65,535 entries, or a page over 16,777,216 bytes",
            Refusal::NoRoom => {
                "no room: the frames do not fit behind the arena's next free address"
            }
        })
    }
}

impl core::error::Error for Refusal {}

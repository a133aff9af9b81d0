//! Why a command ends without its answer, and the status that the shell sees.

use cresttrestle::Refusal;
use std::{fmt, io};

#[derive(Debug)]
pub enum Stop {
    /// the library refused; the words say where the tool knows more
    Refused(Refusal, String),
    /// asked for a row that is not there
    Nothing,
    /// asked for a row as of a version, and the key's rows are all newer
    Newer,
    Usage(String),
    /// a line of the rows' file
    Rows(String),
    /// the tool contradicts the library: a fault of the tool
    Bug(String),
    Io(String),
    /// nobody reads our answer any more, as behind `head`: no fault
    Closed,
}

/// The status of "not there": outside the numbers of refusal and of sysexits.h.
pub const NOTHING: u8 = 32;

impl Stop {
    pub fn status(&self) -> u8 {
        match self {
            Stop::Refused(why, _) => why.number(),
            Stop::Nothing | Stop::Newer => NOTHING,
            Stop::Usage(_) => 64,
            Stop::Rows(_) => 65,
            Stop::Bug(_) => 70,
            Stop::Io(_) => 74,
            Stop::Closed => 0,
        }
    }

    /// What a failed write to standard output is.
    pub fn output(e: io::Error) -> Self {
        if e.kind() == io::ErrorKind::BrokenPipe {
            Stop::Closed
        } else {
            Stop::Io(format!("standard output: {e}"))
        }
    }
}

impl From<Refusal> for Stop {
    fn from(why: Refusal) -> Self {
        Stop::Refused(why, String::new())
    }
}

impl fmt::Display for Stop {
    fn fmt(&self, f: &mut fmt::Formatter) -> fmt::Result {
        match self {
            Stop::Refused(why, more) if more.is_empty() => {
                write!(f, "refused {}, {why}", why.number())
            }
            Stop::Refused(why, more) => write!(f, "refused {}, {why} ({more})", why.number()),
            Stop::Nothing => write!(f, "none: the page has no such key"),
            Stop::Newer => write!(f, "none: all rows of this key are newer"),
            Stop::Usage(words) => write!(f, "{words}\ntry: tent --help"),
            Stop::Rows(words) | Stop::Io(words) => write!(f, "{words}"),
            Stop::Closed => Ok(()),
            Stop::Bug(words) => {
                write!(f, "{words}\nthis is a fault of tent, please report it with the arena file")
            }
        }
    }
}

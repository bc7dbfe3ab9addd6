//! Why there is no answer, in words.

use std::error;
use std::fmt;

use crate::Reason;

/// Why a call turned its input down. The slices are then as they were, but that after 12 and 17 the code slice holds the code.
#[derive(Clone, Copy, Debug, PartialEq, Eq)]
pub struct Refusal {
    /// The tables are looked at in the order 1, 2, 3, 4, 5, 13, 14, 6, 15; what follows is for each call to say.
    pub reason: Reason,
    /// The lowest node or scope that 2 to 6 and 13 to 15 speak of, the unit of 7, the node of 9, the mark of 16 and 17, the
    /// offset of 18, the label of 19, else 0.
    pub place: u64,
    /// After 10, 11, 12 and 20: the length that the slice must have (after 20 that of the names).
    pub needed: Option<u64>,
}

impl Refusal {
    pub(crate) fn new(number: u32, place: impl Into<u64>, needed: u64) -> Refusal {
        let reason = Reason::from_number(number);
        let short =
            matches!(reason, Reason::FindingsSlice | Reason::CodeSlice | Reason::RouteSlice | Reason::RenamedSlices);
        Refusal { reason, place: place.into(), needed: short.then_some(needed) }
    }

    /// The number of its reason.
    pub const fn number(&self) -> u32 {
        self.reason.number()
    }
}

impl fmt::Display for Refusal {
    fn fmt(&self, f: &mut fmt::Formatter<'_>) -> fmt::Result {
        write!(f, "refusal {} at {}: {}", self.number(), self.place, self.reason)?;
        self.needed.map_or(Ok(()), |needed| write!(f, " (length needed: {needed})"))
    }
}

impl error::Error for Refusal {}

/// Why a call that makes vectors has no answer.
#[non_exhaustive]
#[derive(Clone, Copy, Debug, PartialEq, Eq)]
pub enum Error {
    /// The library turned the input down.
    Refused(Refusal),
    /// The answer is longer than the limit.
    TooLong {
        /// How long it is.
        needed: u64,
        /// How long it may be.
        limit: usize,
    },
    /// There is no memory for a vector of that length.
    NoMemory {
        /// How many entries it has.
        needed: u64,
    },
}

impl Error {
    /// The library's refusal, if it is one.
    pub const fn refusal(&self) -> Option<Refusal> {
        match *self {
            Error::Refused(refusal) => Some(refusal),
            _ => None,
        }
    }
}

impl From<Refusal> for Error {
    fn from(refusal: Refusal) -> Error {
        Error::Refused(refusal)
    }
}

impl fmt::Display for Error {
    fn fmt(&self, f: &mut fmt::Formatter<'_>) -> fmt::Result {
        match self {
            Error::Refused(refusal) => refusal.fmt(f),
            Error::TooLong { needed, limit } => write!(f, "{needed} entries are more than the limit of {limit}"),
            Error::NoMemory { needed } => write!(f, "there is no memory for {needed} entries"),
        }
    }
}

// A refusal speaks for itself: its text is this error's, so it is no source of it.
impl error::Error for Error {}

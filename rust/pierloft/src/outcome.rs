use crate::Refusal;
use core::fmt;

/// How a reading ended: document 01's outcomes. None of them is a refusal.
#[derive(Clone, Copy, Debug, PartialEq, Eq, Hash)]
pub enum Outcome {
    /// 0: the image ends where a batch ends. Keep all of it.
    Clean,
    /// 1: what lies behind the last valid position is no whole batch, as after a crash. Keep what lies before it.
    Torn,
    /// 2: a batch ends with entries still to come. Keep all: this is no crash, and a person must look.
    Insufficient,
    /// 3: a batch has more entries than it counts. Keep all.
    TooMany,
    /// 4: a batch's checksum is not that of its entries. Keep all.
    Mismatch,
}

impl Outcome {
    pub(crate) const ALL: [Outcome; 5] = [
        Outcome::Clean,
        Outcome::Torn,
        Outcome::Insufficient,
        Outcome::TooMany,
        Outcome::Mismatch,
    ];

    /// Its number in document 01.
    pub fn number(self) -> u32 {
        self as u32
    }

    /// Its name in document 01.
    pub fn name(self) -> &'static str {
        match self {
            Outcome::Clean => "clean",
            Outcome::Torn => "torn",
            Outcome::Insufficient => "INSUFFICIENT",
            Outcome::TooMany => "TOO MANY",
            Outcome::Mismatch => "MISMATCH",
        }
    }
}

impl fmt::Display for Outcome {
    fn fmt(&self, f: &mut fmt::Formatter<'_>) -> fmt::Result {
        write!(f, "{} {}", self.number(), self.name())
    }
}

/// Why a journal could not be read to a clean or torn end: an outcome that is no crash, with the place of the batch that it was found in, or
/// a refusal. Clean and torn are no errors and have no place in it.
///
/// ```
/// use pierloft::{Outcome, ReadError};
///
/// let why = ReadError::Mismatch { at: 135 };
/// assert_eq!(why.outcome(), Some(Outcome::Mismatch));
/// assert_eq!(why.to_string(), "4 MISMATCH: the checksum of the batch at byte 135 is not that of its entries");
/// ```
///
/// With the feature `std` it turns into a `std::io::Error`, of kind `InvalidData` unless it is a refusal.
#[derive(Clone, Copy, Debug, PartialEq, Eq, Hash)]
pub enum ReadError {
    /// Outcome 2: a batch ends with entries still to come.
    Insufficient {
        /// Where the batch begins.
        at: usize,
    },
    /// Outcome 3: a batch has more entries than it counts.
    TooMany {
        /// Where the batch begins.
        at: usize,
    },
    /// Outcome 4: a batch's checksum is not that of its entries.
    Mismatch {
        /// Where the batch begins.
        at: usize,
    },
    /// The image was not read at all.
    Refused(Refusal),
}

impl ReadError {
    /// None where the outcome is no error.
    pub(crate) fn of(outcome: Outcome, at: usize) -> Option<ReadError> {
        match outcome {
            Outcome::Clean | Outcome::Torn => None,
            Outcome::Insufficient => Some(ReadError::Insufficient { at }),
            Outcome::TooMany => Some(ReadError::TooMany { at }),
            Outcome::Mismatch => Some(ReadError::Mismatch { at }),
        }
    }

    /// The outcome; none where the reading was refused.
    pub fn outcome(self) -> Option<Outcome> {
        match self {
            ReadError::Insufficient { .. } => Some(Outcome::Insufficient),
            ReadError::TooMany { .. } => Some(Outcome::TooMany),
            ReadError::Mismatch { .. } => Some(Outcome::Mismatch),
            ReadError::Refused(_) => None,
        }
    }

    /// The outcome's number or the refusal's: document 01 gives none to two of them.
    pub fn number(self) -> u32 {
        match self {
            ReadError::Refused(refusal) => refusal.number(),
            damage => damage.outcome().map_or(0, Outcome::number),
        }
    }
}

impl fmt::Display for ReadError {
    fn fmt(&self, f: &mut fmt::Formatter<'_>) -> fmt::Result {
        if let Some(outcome) = self.outcome() {
            write!(f, "{outcome}: ")?;
        }
        match self {
            ReadError::Insufficient { at } => {
                write!(f, "the batch at byte {at} ends with entries still to come")
            }
            ReadError::TooMany { at } => {
                write!(f, "the batch at byte {at} has more entries than it counts")
            }
            ReadError::Mismatch { at } => {
                write!(
                    f,
                    "the checksum of the batch at byte {at} is not that of its entries"
                )
            }
            ReadError::Refused(refusal) => refusal.fmt(f),
        }
    }
}

impl core::error::Error for ReadError {}

impl From<Refusal> for ReadError {
    fn from(refusal: Refusal) -> ReadError {
        ReadError::Refused(refusal)
    }
}

#[cfg(feature = "std")]
impl From<ReadError> for std::io::Error {
    fn from(why: ReadError) -> std::io::Error {
        match why {
            ReadError::Refused(refusal) => refusal.into(),
            damage => std::io::Error::new(std::io::ErrorKind::InvalidData, damage),
        }
    }
}

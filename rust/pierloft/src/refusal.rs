use core::fmt;

/// Why a call was refused, or why no entry can be read: document 01's numbers and names.
///
/// A refused call has written no byte and changed no state.
///
/// ```
/// use pierloft::Refusal;
///
/// let why = Refusal::NoRoom { left: 12, needed: 40 };
/// assert_eq!(why.number(), 27);
/// assert_eq!(why.to_string(), "27 NO ROOM: the buffer has 12 bytes left and 40 are needed");
/// ```
///
/// With the feature `std` it turns into a `std::io::Error`: of kind `InvalidData` where an entry cannot be read, `WriteZero` where there is
/// no room (as std's own writing into a slice has it), `InvalidInput` otherwise.
#[derive(Clone, Copy, Debug, PartialEq, Eq, Hash)]
#[non_exhaustive]
pub enum Refusal {
    /// 20: the dialect is not good.
    Dialect,
    /// 21: an image, a buffer, or all that a hash was given, exceeds 4,294,967,295 bytes.
    TooLong,
    /// 22: a position lies past the buffer, or a state is out of range.
    State,
    /// 23: a batch was opened with a count above 4,294,967,295.
    Count,
    /// 24: `open`, `write_raw`, `write_clear` or `batch` inside a batch; a put, `close` or `abort` outside one.
    Order,
    /// 25: a key above 65,535 bytes, or an empty key put in a batch.
    Key,
    /// 26: a put with none to come, or `close` with some to come.
    Counted,
    /// 27: the buffer is too short.
    NoRoom {
        /// How many bytes the buffer has behind the position.
        left: usize,
        /// How many the call needs: for all but an encoder, those of the batch's End too.
        needed: usize,
    },
    /// 30: a field of the entry runs past the image.
    Incomplete,
    /// 31: the entry's tag is not 1 to 4.
    Tag,
    /// 32: the item's type code is none of the dialect's.
    ValueType,
    /// 33: the item's compression code is not the dialect's.
    Compression,
    /// 34: the End does not close with the dialect's magic.
    Trailer,
    /// 35: a key or value was asked for at a Start, End or Clear.
    NotAnItem,
    /// A number that this crate does not know: the static library is newer than it.
    Unknown(u32),
}

impl Refusal {
    /// 0 is no refusal. Of a call that writes, 27 wants [`with_room`](Refusal::with_room) too.
    #[inline]
    pub(crate) fn of(number: u32) -> Result<(), Refusal> {
        Err(match number {
            0 => return Ok(()),
            20 => Refusal::Dialect,
            21 => Refusal::TooLong,
            22 => Refusal::State,
            23 => Refusal::Count,
            24 => Refusal::Order,
            25 => Refusal::Key,
            26 => Refusal::Counted,
            27 => Refusal::NoRoom { left: 0, needed: 0 },
            30 => Refusal::Incomplete,
            31 => Refusal::Tag,
            32 => Refusal::ValueType,
            33 => Refusal::Compression,
            34 => Refusal::Trailer,
            35 => Refusal::NotAnItem,
            other => Refusal::Unknown(other),
        })
    }

    /// The library says that there is no room; how much there is and how much is needed is known here.
    pub(crate) fn with_room(self, left: usize, needed: usize) -> Refusal {
        match self {
            Refusal::NoRoom { .. } => Refusal::NoRoom { left, needed },
            other => other,
        }
    }

    /// Its number in document 01.
    pub fn number(self) -> u32 {
        self.told().0
    }

    /// Its name in document 01.
    pub fn name(self) -> &'static str {
        self.told().1
    }

    fn told(self) -> (u32, &'static str) {
        match self {
            Refusal::Dialect => (20, "DIALECT"),
            Refusal::TooLong => (21, "TOO LONG"),
            Refusal::State => (22, "STATE"),
            Refusal::Count => (23, "COUNT"),
            Refusal::Order => (24, "ORDER"),
            Refusal::Key => (25, "KEY"),
            Refusal::Counted => (26, "COUNTED"),
            Refusal::NoRoom { .. } => (27, "NO ROOM"),
            Refusal::Incomplete => (30, "INCOMPLETE"),
            Refusal::Tag => (31, "TAG"),
            Refusal::ValueType => (32, "VALUE TYPE"),
            Refusal::Compression => (33, "COMPRESSION"),
            Refusal::Trailer => (34, "TRAILER"),
            Refusal::NotAnItem => (35, "NOT AN ITEM"),
            Refusal::Unknown(number) => (number, "UNKNOWN"),
        }
    }

    /// What is wrong. Where there is no room, figures say more.
    fn words(self) -> &'static str {
        match self {
            Refusal::Dialect => "a magic that is not one, or two types with one code",
            Refusal::TooLong => "more than 4,294,967,295 bytes",
            Refusal::State => "a position past the buffer, or a state out of range",
            Refusal::Count => "a batch of more than 4,294,967,295 entries",
            Refusal::Order => "a batch is open that has to be closed first, or none is open",
            Refusal::Key => "a key of more than 65,535 bytes, or an empty one in a batch",
            Refusal::Counted => "the batch has all of its entries, or not yet all",
            Refusal::NoRoom { .. } => "the buffer is too short",
            Refusal::Incomplete => "a field of the entry runs past the image",
            Refusal::Tag => "the entry's tag is not 1 to 4",
            Refusal::ValueType => "the item's type code is none of the dialect's",
            Refusal::Compression => "the item's compression code is not the dialect's",
            Refusal::Trailer => "the End does not close with the dialect's magic",
            Refusal::NotAnItem => "a Start, an End and a Clear have no key and no value",
            Refusal::Unknown(_) => "a number that this crate does not know",
        }
    }
}

impl fmt::Display for Refusal {
    fn fmt(&self, f: &mut fmt::Formatter<'_>) -> fmt::Result {
        write!(f, "{} {}: ", self.number(), self.name())?;
        match self {
            Refusal::NoRoom { left, needed } => {
                write!(
                    f,
                    "the buffer has {left} bytes left and {needed} are needed"
                )
            }
            _ => f.write_str(self.words()),
        }
    }
}

impl core::error::Error for Refusal {}

#[cfg(feature = "std")]
impl From<Refusal> for std::io::Error {
    fn from(why: Refusal) -> std::io::Error {
        use std::io::ErrorKind;
        let kind = match why.number() {
            27 => ErrorKind::WriteZero,
            30..=34 => ErrorKind::InvalidData,
            _ => ErrorKind::InvalidInput,
        };
        std::io::Error::new(kind, why)
    }
}

#[cfg(test)]
mod tests {
    use super::Refusal;

    #[test]
    fn numbers_there_and_back() {
        assert_eq!(Refusal::of(0), Ok(()));
        for number in 1..100 {
            let refusal = Refusal::of(number).unwrap_err();
            assert_eq!(refusal.number(), number);
            let known = (20..=27).contains(&number) || (30..=35).contains(&number);
            assert_eq!(refusal != Refusal::Unknown(number), known, "{refusal}");
            assert_eq!(refusal.name() != "UNKNOWN", known);
        }
    }
}

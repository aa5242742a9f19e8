//! What is refused.

use crate::limits;
use std::error;
use std::fmt;

/// Why a reading, a lookup, a walk, an addition, a writing or a call of a board was refused. Each refusal has a number, the same in every language.
#[derive(Clone, Copy, Debug, PartialEq, Eq, Hash)]
#[repr(u8)]
pub enum Error {
    /// The buffers of a reading are too short. The buffers of a [`Database`](crate::Database) never are.
    ShortBuffers = 1,
    /// The text has more than [`TEXT_BYTES`](limits::TEXT_BYTES): a main text, one that a start-up uses, or one that is added.
    LongText = 2,
    /// The archive is not laid out as one. An [`Archive`](crate::Archive) always is.
    BadArchive = 3,
    /// Included files are read more than [`OPENS`](limits::OPENS) times.
    ManyOpens = 4,
    /// An entry has more than [`ENTRY_PARTS`](limits::ENTRY_PARTS).
    ManyEntryParts = 5,
    /// There are more than [`ENTRIES`](limits::ENTRIES).
    ManyEntries = 6,
    /// Keys and values have more than [`BODIES_BYTES`](limits::BODIES_BYTES).
    FullStore = 7,
    /// The buffers hold no database, or those lent to [`Database::migrate`](crate::Database::migrate) no old image. Those of a
    /// [`Database`](crate::Database) always do.
    NoImage = 8,
    /// The name or the class of a query has more than [`QUERY_BYTES`](limits::QUERY_BYTES).
    LongQuery = 9,
    /// The name or the class of a query has more than [`QUERY_PARTS`](limits::QUERY_PARTS).
    ManyQueryParts = 10,
    /// The buffer of a writing is shorter than the text. That of [`Database::to_text`](crate::Database::to_text) never is.
    ShortTextBuffer = 11,
    /// The text of an addition makes no entry, or more than one: see [`Database::add`](crate::Database::add).
    NotOneEntry = 12,
    /// The board keeps [`PACKS`](limits::PACKS) packs, or watches [`QUERIES`](limits::QUERIES) queries, already.
    FullBoard = 13,
    /// The pack's number is 0, is that of a pack on the board as it arrives, or of none as it leaves.
    BadPackNumber = 14,
    /// The depth is over [`GREATEST_DEPTH`](limits::GREATEST_DEPTH).
    TooDeep = 15,
}

const ALL: [Error; 15] = [
    Error::ShortBuffers,
    Error::LongText,
    Error::BadArchive,
    Error::ManyOpens,
    Error::ManyEntryParts,
    Error::ManyEntries,
    Error::FullStore,
    Error::NoImage,
    Error::LongQuery,
    Error::ManyQueryParts,
    Error::ShortTextBuffer,
    Error::NotOneEntry,
    Error::FullBoard,
    Error::BadPackNumber,
    Error::TooDeep,
];

impl Error {
    /// The refusal's number, 1 to 15.
    pub fn number(self) -> u8 {
        self as u8
    }

    /// The refusal in the low 16 bits of an answer of the library.
    ///
    /// # Panics
    ///
    /// If they are none, which the library's contracts rule out.
    pub(crate) fn of_answer(answer: u64) -> Self {
        let refusal = ALL.into_iter().find(|error| u64::from(error.number()) == answer);
        refusal.unwrap_or_else(|| panic!("the static library gave {answer}, which is no answer of resource_manager"))
    }
}

impl fmt::Display for Error {
    fn fmt(&self, f: &mut fmt::Formatter) -> fmt::Result {
        match self {
            Error::ShortBuffers => write!(f, "buffers too short for a database"),
            Error::LongText => write!(f, "a text of more than {} bytes", limits::TEXT_BYTES),
            Error::BadArchive => write!(f, "an archive that is not laid out as one"),
            Error::ManyOpens => write!(f, "included files are read more than {} times", limits::OPENS),
            Error::ManyEntryParts => write!(f, "an entry of more than {} parts", limits::ENTRY_PARTS),
            Error::ManyEntries => write!(f, "more than {} entries", limits::ENTRIES),
            Error::FullStore => write!(f, "keys and values of more than {} bytes in all", limits::BODIES_BYTES),
            Error::NoImage => write!(f, "buffers that hold no database"),
            Error::LongQuery => write!(f, "a query whose name or class has more than {} bytes", limits::QUERY_BYTES),
            Error::ManyQueryParts => write!(f, "a query whose name or class has more than {} parts", limits::QUERY_PARTS),
            Error::ShortTextBuffer => write!(f, "a buffer that is shorter than the text"),
            Error::NotOneEntry => write!(f, "a text to be added that makes no entry or more than one"),
            Error::FullBoard => write!(f, "a board that has {} packs, or {} queries, already", limits::PACKS, limits::QUERIES),
            Error::BadPackNumber => write!(f, "a pack's number that is 0, taken or not there"),
            Error::TooDeep => write!(f, "a depth of more than {}", limits::GREATEST_DEPTH),
        }?;
        write!(f, " (refused by {})", self.number())
    }
}

impl error::Error for Error {}

/// The value of a lookup is no decimal number in the range of `i64`.
#[derive(Clone, Copy, Debug, PartialEq, Eq, Hash)]
pub struct NotANumber;

impl fmt::Display for NotANumber {
    fn fmt(&self, f: &mut fmt::Formatter) -> fmt::Result {
        write!(f, "a value that is no decimal number of 64 bits")
    }
}

impl error::Error for NotANumber {}

/// Why a lookup gave no value of a type: it was refused, or it found a value that does not parse.
#[derive(Clone, Copy, Debug, PartialEq, Eq, Hash)]
pub enum ValueError<E> {
    /// The lookup was refused.
    Refused(Error),
    /// The value is not of the type.
    Parse(E),
}

impl<E> From<Error> for ValueError<E> {
    fn from(error: Error) -> Self {
        Self::Refused(error)
    }
}

impl<E: fmt::Display> fmt::Display for ValueError<E> {
    fn fmt(&self, f: &mut fmt::Formatter) -> fmt::Result {
        match self {
            Self::Refused(error) => error.fmt(f),
            Self::Parse(error) => error.fmt(f),
        }
    }
}

impl<E: error::Error> error::Error for ValueError<E> {}

#[cfg(test)]
mod tests {
    use super::*;

    #[test]
    fn numbers_stand_for_themselves() {
        for (place, error) in ALL.into_iter().enumerate() {
            assert_eq!(usize::from(error.number()), place + 1);
            assert_eq!(Error::of_answer(place as u64 + 1), error);
            assert!(error.to_string().ends_with(&format!("(refused by {})", place + 1)));
        }
    }

    #[test]
    #[should_panic(expected = "gave 16, which is no answer")]
    fn no_other_number_is_a_refusal() {
        Error::of_answer(16);
    }
}

//! The most that is accepted. One more is refused, with the [`Error`](crate::Error) named.

/// Bytes of a main text, and of each text that a start-up uses ([`LongText`](crate::Error::LongText)).
pub const TEXT_BYTES: usize = 32_768;

/// Bytes of an archive ([`BadArchive`](crate::Error::BadArchive)).
pub const ARCHIVE_BYTES: usize = 65_536;

/// Files of an archive ([`BadArchive`](crate::Error::BadArchive)).
pub const ARCHIVE_FILES: usize = 64;

/// Bytes of a file's name ([`BadArchive`](crate::Error::BadArchive)).
pub const FILE_NAME_BYTES: usize = 96;

/// The greatest depth of a reading ([`TooDeep`](crate::Error::TooDeep)), which is x11rb's. A text is at depth 0, and a file that it includes at
/// depth 1; at depth d the texts at depths 0 to d are read. A deeper include adds nothing, and is no refusal.
pub const GREATEST_DEPTH: u64 = 100;

/// The depth of a reading that is given none, but for a start-up, which has the greatest.
pub const DEFAULT_DEPTH: u64 = 20;

/// How many times a reading reads an included file ([`ManyOpens`](crate::Error::ManyOpens)).
pub const OPENS: usize = 4_096;

/// Parts of an entry ([`ManyEntryParts`](crate::Error::ManyEntryParts)).
pub const ENTRY_PARTS: usize = 16;

/// Entries of a database ([`ManyEntries`](crate::Error::ManyEntries)).
pub const ENTRIES: usize = 512;

/// Bytes of a database's keys and values together ([`FullStore`](crate::Error::FullStore)).
pub const BODIES_BYTES: usize = 32_768;

/// Bytes of the longest text that a database is written out as. It is more than [`TEXT_BYTES`]: such a text is not read again.
pub const WRITTEN_BYTES: usize = 66_048;

/// Bytes of a query's name, and of its class ([`LongQuery`](crate::Error::LongQuery)).
pub const QUERY_BYTES: usize = 1_024;

/// Parts of a query's name, and of its class ([`ManyQueryParts`](crate::Error::ManyQueryParts)).
pub const QUERY_PARTS: usize = 32;

/// Bytes of the name, and of the class, of a query that a [`Window`](crate::Window) asks ([`LongQuery`](crate::Error::LongQuery)).
pub const WINDOW_BYTES: usize = 128;

/// Parts of the name, and of the class, of such a query ([`ManyQueryParts`](crate::Error::ManyQueryParts)).
pub const WINDOW_PARTS: usize = 8;

/// Packs that a [`Board`](crate::Board) keeps ([`FullBoard`](crate::Error::FullBoard)).
pub const PACKS: usize = 16;

/// Queries that a [`Board`](crate::Board) watches ([`FullBoard`](crate::Error::FullBoard)).
pub const QUERIES: usize = 32;

/// The words and the bytes of a board.
pub(crate) const BOARD_WORDS: usize = 32_882;

pub(crate) const BOARD_BYTES: usize = 589_824;

/// Words that say where entries stand: two, and four for each entry.
pub(crate) const CONTENTS_WORDS: usize = 2 + 4 * ENTRIES;

/// Words of the contents of an old image, from before rows said where a line stands: two, and three for each entry.
pub const OLD_CONTENTS_WORDS: usize = 2 + 3 * ENTRIES;

/// The word of a row whose line stands nobody knows where.
pub(crate) const UNKNOWN_FILE: usize = 65_535;

//! Document 01's numbers, with those that requests of document 02 add: the limits, and what each refusal is called.

/// The words of a row, and of contents.
pub const ROW_WORDS: usize = 4;
pub const CONTENTS_WORDS: usize = 2050;
/// The same of an image from before document 02 (viii).
pub const OLD_ROW_WORDS: usize = 3;
pub const OLD_CONTENTS_WORDS: usize = 1538;
/// Where a line stands that stands nobody knows where.
pub const UNKNOWN_FILE: u16 = 65_535;
pub const BODIES_BYTES: usize = 32_768;
pub const TEXT_BYTES: usize = 32_768;

pub const ARCHIVE_BYTES: usize = 65_536;
pub const ARCHIVE_FILES: usize = 64;
pub const FILE_NAME_BYTES: usize = 96;

/// The greatest depth that a caller may give, and the one where it gives none.
pub const GREATEST_DEPTH: u64 = 100;
pub const DEFAULT_DEPTH: u64 = 20;

pub const OPENS: usize = 4096;
pub const ENTRIES: usize = 512;
pub const KEY_PARTS: usize = 16;

/// The longest text of an image: 512 entries with a key of two bytes each, and two bytes for each byte of a value.
pub const WRITTEN_BYTES: usize = 66_048;

pub const QUERY_BYTES: usize = 1024;
pub const QUERY_PARTS: usize = 32;

/// The same of a query that the dictionary window asks.
pub const WINDOW_BYTES: usize = 128;
pub const WINDOW_PARTS: usize = 8;

/// Of a board, document 02 (ix).
pub const PACKS: usize = 16;
pub const QUERIES: usize = 32;
pub const BOARD_WORDS: usize = 32_882;
pub const BOARD_BYTES: usize = 589_824;

/// The refusals in the order of their numbers, from 1.
#[derive(Clone, Copy, Debug, PartialEq, Eq)]
pub enum Refusal {
    ShortBuffers = 1,
    LongText,
    BadArchive,
    ManyOpens,
    ManyKeyParts,
    ManyEntries,
    FullStore,
    NoImage,
    LongQuery,
    ManyQueryParts,
    ShortTextBuffer,
    NotOneEntry,
    FullBoard,
    BadPackNumber,
    TooDeep,
}

impl Refusal {
    pub fn number(self) -> u8 {
        self as u8
    }
}

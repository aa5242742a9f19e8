//! A board: packs that come and go, and the answers of watched queries.

use crate::database::{FOUND, NONE};
use crate::ffi::{self, Image, ImageMut};
use crate::limits::{BOARD_BYTES, BOARD_WORDS, BODIES_BYTES, CONTENTS_WORDS, PACKS, QUERIES, QUERY_BYTES};
use crate::{Database, Error};
use std::fmt;

/// The words before the slots of the packs: two counts, and the lengths of each query's name and class.
const SLOTS_START: usize = 2 + 2 * QUERIES;

/// The words of a slot: a pack's number, then its contents.
const SLOT_WORDS: usize = 1 + CONTENTS_WORDS;

/// The bytes before the packs' bodies: each query's name and class.
const BODIES_START: usize = 2 * QUERY_BYTES * QUERIES;

/// Packs in the order in which they arrived, and watched queries.
///
/// A pack is a [`Database`] with a number; the board keeps a copy of it. A watched query is answered from the entries of all
/// packs, one pack's behind another's, by the rules of a lookup in one database: of equal matches the last wins, and so the
/// pack that arrived later. It owns its memory, some 656 kilobytes.
///
/// ```
/// use resource_manager::{Board, Database};
///
/// let mut board = Board::new();
/// let range = board.watch("reader.search.range", "Reader.Search.Range")?;
/// board.arrive(7, &Database::new_from_data(b"*range: book")?)?;
/// board.arrive(9, &Database::new_from_data(b"*font: large\n*search.range: chapter")?)?;
///
/// let answer = board.answer(range).unwrap();
/// assert_eq!((answer.pack, answer.value), (9, &b"chapter"[..]));
/// // An installer asks before it removes a pack.
/// assert_eq!(board.report(9)?, [range]);
/// assert_eq!(board.report(7)?, []);
///
/// board.leave(9)?;
/// assert_eq!(board.answer(range).unwrap().value, b"book");
/// # Ok::<(), resource_manager::Error>(())
/// ```
#[derive(Clone)]
pub struct Board {
    words: Box<[u16]>,
    bytes: Box<[u8]>,
}

/// The answer of a watched query: see [`Board::answer`].
#[derive(Clone, Copy, Debug, PartialEq, Eq, Hash)]
pub struct Watched<'a> {
    /// The number of the pack whose entry counts.
    pub pack: u16,
    /// Where the value starts in that pack's bodies.
    pub place: usize,
    /// The value.
    pub value: &'a [u8],
}

impl Board {
    /// A board of no packs and no queries.
    pub fn new() -> Self {
        let mut board = Self { words: vec![0; BOARD_WORDS].into(), bytes: vec![0; BOARD_BYTES].into() };
        let answer = ffi::board_make(board.image_mut());
        assert_eq!(answer, FOUND, "a board of its own length is refused");
        board
    }

    /// Watches a query from now on, and gives its number, from 0. Equal queries get numbers of their own. A malformed query is
    /// kept, and has no answer.
    ///
    /// ```
    /// # use resource_manager::{Board, Error};
    /// let mut board = Board::new();
    /// assert_eq!((board.watch("a.b", ""), board.watch("a.b", ""), board.watch(".a", "")), (Ok(0), Ok(1), Ok(2)));
    /// assert_eq!(board.watch(&"a".repeat(1_025), ""), Err(Error::LongQuery));
    /// ```
    pub fn watch(&mut self, resource_name: &str, resource_class: &str) -> Result<usize, Error> {
        let answer = ffi::board_watch(self.image_mut(), resource_name.as_bytes(), resource_class.as_bytes());
        accepted(answer).map(|number| number as usize)
    }

    /// A pack arrives, last. Its number is not 0, and no pack on the board has it.
    ///
    /// ```
    /// # use resource_manager::{Board, Database, Error};
    /// let mut board = Board::new();
    /// let pack = Database::new_from_data(b"a: 1")?;
    /// assert_eq!((board.arrive(7, &pack), board.arrive(7, &pack)), (Ok(()), Err(Error::BadPackNumber)));
    /// assert_eq!(board.packs().collect::<Vec<_>>(), [7]);
    /// # Ok::<(), Error>(())
    /// ```
    pub fn arrive(&mut self, number: u16, pack: &Database) -> Result<(), Error> {
        accepted(ffi::board_arrive(self.image_mut(), number, pack.image())).map(drop)
    }

    /// A pack leaves. The rest keep their order.
    pub fn leave(&mut self, number: u16) -> Result<(), Error> {
        accepted(ffi::board_leave(self.image_mut(), number)).map(drop)
    }

    /// The answer of a watched query; none if no entry matches, if the query is malformed, and if there is no query of that number.
    pub fn answer(&self, query: usize) -> Option<Watched<'_>> {
        let mut pack = 0;
        let answer = ffi::board_answer(self.image(), u16::try_from(query).ok()?, &mut pack);
        self.watched(answer, pack)
    }

    /// The answers of all watched queries, query 0's first. It costs less than one call for each: what is on the board is judged once.
    ///
    /// ```
    /// # use resource_manager::{Board, Database, Error};
    /// let mut board = Board::new();
    /// board.arrive(7, &Database::new_from_data(b"*b: 1")?)?;
    /// assert_eq!((board.watch("a", ""), board.watch("a.b", "")), (Ok(0), Ok(1)));
    /// assert_eq!(board.answers(), [None, board.answer(1)]);
    /// # Ok::<(), Error>(())
    /// ```
    pub fn answers(&self) -> Vec<Option<Watched<'_>>> {
        let (mut answers, mut packs) = ([NONE; QUERIES], [0; QUERIES]);
        let answer = ffi::board_answers(self.image(), &mut answers, &mut packs);
        assert_eq!(answer & 0xFFFF, FOUND, "the answers are refused");
        let count = (answer >> 16) as usize;
        answers.into_iter().zip(packs).take(count).map(|(answer, pack)| self.watched(answer, pack)).collect()
    }

    /// An answer's number, with its pack's.
    fn watched(&self, answer: u64, pack: u16) -> Option<Watched<'_>> {
        if answer == NONE {
            return None;
        }
        // No refusal can come up: the buffers are a board.
        assert_eq!(answer & 0xFFFF, FOUND, "an answer is refused");
        let (place, length) = ((answer >> 16 & 0xFFFF) as usize, (answer >> 32) as usize);
        let slot = self.packs().position(|number| number == pack).expect("the pack is on the board");
        let start = BODIES_START + BODIES_BYTES * slot + place;
        Some(Watched { pack, place, value: &self.bytes[start..start + length] })
    }

    /// The watched queries whose value, or lack of one, would change if that pack left, lowest number first. The board is as it was.
    pub fn report(&self, number: u16) -> Result<Vec<usize>, Error> {
        let answer = ffi::board_report(self.image(), number);
        if answer & 0xFFFF != FOUND {
            return Err(Error::of_answer(answer));
        }
        Ok((0..QUERIES).filter(|query| answer >> (32 + query) & 1 == 1).collect())
    }

    /// The numbers of the packs, in the order in which they arrived.
    pub fn packs(&self) -> impl Iterator<Item = u16> + '_ {
        let count = usize::from(self.words[0]);
        debug_assert!(count <= PACKS);
        (0..count).map(|slot| self.words[SLOTS_START + SLOT_WORDS * slot])
    }

    /// How many queries are watched.
    pub fn queries(&self) -> usize {
        usize::from(self.words[1])
    }

    fn image(&self) -> Image<'_> {
        Image { contents: &self.words, bodies: &self.bytes }
    }

    fn image_mut(&mut self) -> ImageMut<'_> {
        ImageMut { contents: &mut self.words, bodies: &mut self.bytes }
    }
}

/// What stands above the status of an accepted call.
fn accepted(answer: u64) -> Result<u64, Error> {
    match answer & 0xFFFF {
        FOUND => Ok(answer >> 16),
        _ => Err(Error::of_answer(answer)),
    }
}

impl Default for Board {
    fn default() -> Self {
        Self::new()
    }
}

impl fmt::Debug for Board {
    fn fmt(&self, f: &mut fmt::Formatter) -> fmt::Result {
        f.debug_struct("Board").field("packs", &self.packs().collect::<Vec<_>>()).field("queries", &self.queries()).finish()
    }
}

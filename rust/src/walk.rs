//! The entries that align with a query, listed a step at a time.

use crate::database::{FOUND, NONE};
use crate::ffi::{self, State};
use crate::{Database, Entry, Error};
use std::iter::FusedIterator;

/// A walk over the entries that align with a query, lowest number first: see [`Database::walk`].
///
/// It borrows nothing, so that lines may be added while it goes on. It lists the entries that were there when it began, each
/// once; an entry that is added shows in a walk begun after it.
///
/// ```
/// # use resource_manager::{Database, Entry};
/// let mut database = Database::new_from_data(b"*range: page\nreader.font: Serif\nreader*range: book")?;
/// let mut page = database.walk("reader.search.range", "");
/// assert_eq!(page.next(&database), Some((0, Entry { key: b"*range", value: b"page" })));
/// database.add(b"*search.range: chapter")?;
/// assert_eq!(page.next(&database), Some((2, Entry { key: b".reader*range", value: b"book" })));
/// assert_eq!(page.next(&database), None);
///
/// let mut page = database.walk("reader.search.range", "");
/// let numbers: Vec<usize> = std::iter::from_fn(|| page.next(&database)).map(|(number, _)| number).collect();
/// assert_eq!(numbers, [0, 2, 3]);
/// # Ok::<(), resource_manager::Error>(())
/// ```
#[derive(Clone, Debug)]
pub struct Walk {
    name: Box<str>,
    class: Box<str>,
    state: State,
}

impl Walk {
    pub(crate) fn begin(database: &Database, resource_name: &str, resource_class: &str) -> Result<Self, Error> {
        let mut state = State::default();
        match ffi::walk_start(database.image(), resource_name.as_bytes(), resource_class.as_bytes(), &mut state) {
            FOUND => Ok(Self { name: resource_name.into(), class: resource_class.into(), state }),
            refused => Err(Error::of_answer(refused)),
        }
    }

    /// The next entry with its number, or none at the end.
    ///
    /// It is meant for the database that the walk was begun on. In another it lists from the same number on, below the count of
    /// entries that the first one had, what aligns there.
    pub fn next<'a>(&mut self, database: &'a Database) -> Option<(usize, Entry<'a>)> {
        let answer = ffi::walk_step(database.image(), self.name.as_bytes(), self.class.as_bytes(), &mut self.state);
        if answer == NONE {
            return None;
        }
        // No refusal can come up: a database is an image, and the query was not refused at the start.
        assert_eq!(answer & 0xFFFF, FOUND, "a step is refused");
        let number = (answer >> 16) as usize;
        database.entry(number).map(|entry| (number, entry))
    }
}

/// The entries that align with a query: see [`Database::aligned`].
#[derive(Clone, Debug)]
pub struct Aligned<'a> {
    pub(crate) walk: Walk,
    pub(crate) database: &'a Database,
}

impl<'a> Iterator for Aligned<'a> {
    type Item = (usize, Entry<'a>);

    fn next(&mut self) -> Option<(usize, Entry<'a>)> {
        self.walk.next(self.database)
    }
}

impl FusedIterator for Aligned<'_> {}

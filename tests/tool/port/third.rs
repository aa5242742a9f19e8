//! The buyer's third term through the real calls: a text is read with a file on its archive (document
//! 01's shelf) and with the file struck off, and a query is looked up in what each reading left. Each
//! answer must be the model's, and both must be equal exactly where the term says so.

use crate::asking::{bytes_at, place_word, Lookup};
use crate::both::{Both, Calls};
use crate::run::{describe, shown};
use model::archive::judge;
use model::lookup;
use model::matching::{highest_row, positions, Row};
use model::query::split;
use model::reading::{read, Entry};
use records::{Query, Source};
use std::collections::BTreeMap;

/// Bytes or none, with the file and without it.
pub type Answers = (Option<Vec<u8>>, Option<Vec<u8>>);

/// What is done to the answers before they are judged: nothing, but for a faulty port.
pub type Telling = fn(Answers) -> Answers;

/// Which case holds of the first reading's entries.
#[derive(Clone, Copy, Debug, PartialEq, Eq, PartialOrd, Ord)]
pub enum Case {
    NoneThroughTheFile,
    SameBytes,
    OtherBytes,
    NothingLeft,
}

impl Case {
    const ALL: [Self; 4] = [Self::NoneThroughTheFile, Self::SameBytes, Self::OtherBytes, Self::NothingLeft];

    /// Holds two answers to the case: whether they are equal.
    pub fn holds(self, (with_it, without): &Answers) -> Result<(), String> {
        if (with_it == without) != matches!(self, Self::NoneThroughTheFile | Self::SameBytes) {
            return Err(format!("{with_it:?} and {without:?}, where {}", self.described()));
        }
        Ok(())
    }

    fn described(self) -> &'static str {
        match self {
            Self::NoneThroughTheFile => "none through the file beats the rest",
            Self::SameBytes => "one does and the same bytes are left",
            Self::OtherBytes => "one does and other bytes are left",
            Self::NothingLeft => "one does and nothing is left",
        }
    }
}

#[derive(Default)]
pub struct Counts {
    pub files: usize,
    pub refused: usize,
    pub met: BTreeMap<Case, usize>,
}

impl Counts {
    /// What was compared; an error if one of the cases was never met.
    pub fn report(&self) -> Result<String, String> {
        let met = |case: &Case| self.met.get(case).copied().unwrap_or(0);
        if let Some(case) = Case::ALL.iter().find(|case| met(case) == 0) {
            return Err(format!("never met: {}", case.described()));
        }
        let cases: Vec<String> = Case::ALL.iter().map(|case| format!("{} where {}", met(case), case.described())).collect();
        let all: usize = Case::ALL.iter().map(met).sum();
        let Self { files, refused, .. } = self;
        Ok(format!(
            "{all} pairs of lookups with {files} files struck off: {}; {refused} first readings refused",
            cases.join(", ")
        ))
    }
}

pub struct Third {
    get_bytes: Lookup,
    telling: Telling,
    with_it: Both,
    without: Both,
    pub counts: Counts,
}

impl Third {
    pub fn new(read: Calls, get_bytes: Lookup, telling: Telling) -> Self {
        Self { get_bytes, telling, with_it: Both::new(read), without: Both::new(read), counts: Counts::default() }
    }

    /// The term on one file of a source and some queries within limits.
    pub fn see(&mut self, source: &Source, which: usize, queries: &[Query]) -> Result<(), String> {
        let why = |why: String| format!("{}, file {which} struck off: {why}", describe(source));
        // The term takes readings that are accepted with the file.
        if self.with_it.compare(source).map_err(why)?.is_err() {
            self.counts.refused += 1;
            return Ok(());
        }
        if let Err(number) = self.without.compare(&source.struck(which)).map_err(why)? {
            return Err(why(format!("the second reading is refused by {number}")));
        }
        self.counts.files += 1;
        let archive = judge(&source.archive).expect("the archive of an accepted reading");
        let entries = read(&source.texts(), &archive, source.depth).expect("an accepted reading").entries;
        for query in queries {
            let case = case_of(&entries, &archive.files[which].name, query);
            self.judge(case, query)
                .map_err(|reason| why(format!("name {}, class {}: {reason}", shown(&query.name), shown(&query.class))))?;
            *self.counts.met.entry(case).or_default() += 1;
        }
        Ok(())
    }

    /// Looks a query up in what both readings left, and holds the answers to the case.
    fn judge(&mut self, case: Case, query: &Query) -> Result<(), String> {
        let answers = (look_up(self.get_bytes, &mut self.with_it, query)?, look_up(self.get_bytes, &mut self.without, query)?);
        case.holds(&(self.telling)(answers))
    }
}

/// The port's answer in the image that its reading left, which must be the model's.
fn look_up(get_bytes: Lookup, both: &mut Both, query: &Query) -> Result<Option<Vec<u8>>, String> {
    let (contents, bodies) = both.image();
    let word = get_bytes(contents, bodies, &query.name, &query.class);
    both.same_buffers()?;
    let (contents, bodies) = both.models_image();
    let models = place_word(lookup::get_bytes(contents, bodies, &query.name, &query.class));
    if word != models {
        return Err(format!("the port answers {word:#x}, the model {models:#x}"));
    }
    let (_, bodies) = both.image();
    bytes_at(word, bodies).map(|found| found.map(<[u8]>::to_vec))
}

/// The term's case, by the entries that the definition gives with the file and their chains of includes.
pub fn case_of(entries: &[Entry], file: &[u8], query: &Query) -> Case {
    let all: Vec<&Entry> = entries.iter().collect();
    let Some(first) = beating(&all, query).filter(|entry| entry.came_through(file)) else { return Case::NoneThroughTheFile };
    let left: Vec<&Entry> = all.into_iter().filter(|entry| !entry.came_through(file)).collect();
    match beating(&left, query) {
        Some(second) if second.value == first.value => Case::SameBytes,
        Some(_) => Case::OtherBytes,
        None => Case::NothingLeft,
    }
}

/// The entry that beats the rest, in the term's words: it aligns, ranks no lower than any aligned entry
/// before it and higher than any aligned entry after it. With a malformed query nothing aligns.
fn beating<'a>(entries: &[&'a Entry], query: &Query) -> Option<&'a Entry> {
    let (name, class) = (split(&query.name)?, split(&query.class)?);
    let positions = positions(&name, &class);
    let rows: Vec<Option<Row>> = entries.iter().map(|entry| highest_row(&entry.key, &positions)).collect();
    let beats = |which: usize| {
        let Some(own) = &rows[which] else { return false };
        rows[..which].iter().flatten().all(|row| row <= own) && rows[which + 1..].iter().flatten().all(|row| row < own)
    };
    (0..entries.len()).find(|which| beats(*which)).map(|which| entries[which])
}

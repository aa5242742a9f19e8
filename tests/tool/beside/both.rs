//! The model and the Rust on one case: what document 01 admits, what must be equal, what is counted.

use crate::rust::start::Setting;
use crate::rust::{listed, number, texts, Room};
use cases::admitted::{admitted_query, admitted_reading, LeftOut};
use cases::chains::Combination;
use model::archive::judge;
use model::image;
use model::line::write_key;
use model::lookup::{get_bool, get_bytes, get_string, get_value};
use model::matching::{positions, winner};
use model::query::split;
use model::reading::{Entry, Reading};
use model::startup::StartUp;
use oracle::resource_manager::Database;
use records::{Case, Kind, Query, Source, Start};
use std::collections::{BTreeMap, BTreeSet};

#[derive(Default)]
pub struct Counts {
    readings: usize,
    lookups: usize,
    /// Lookups whose answer moves with a file struck off.
    moved: usize,
    /// Readings by processes of their own.
    processes: usize,
    /// Combinations of the chains that were read.
    pub combinations: BTreeSet<Combination>,
    left_out: BTreeMap<LeftOut, usize>,
}

impl Counts {
    fn leave_out(&mut self, why: LeftOut) {
        *self.left_out.entry(why).or_default() += 1;
    }

    /// What was compared; an error if nothing was.
    pub fn report(&self) -> Result<String, String> {
        if self.readings + self.lookups == 0 {
            return Err("nothing was compared".to_string());
        }
        let moved = if self.moved > 0 { format!(" ({} moved)", self.moved) } else { String::new() };
        let processes =
            if self.processes > 0 { format!(" ({} by processes of their own)", self.processes) } else { String::new() };
        let combinations = match self.combinations.len() {
            0 => String::new(),
            count => format!(" in {count} combinations of texts"),
        };
        let reasons: Vec<String> = self.left_out.iter().map(|(why, count)| format!("{count} {why}")).collect();
        let left_out = if reasons.is_empty() { "nothing".to_string() } else { reasons.join(", ") };
        let Self { readings, lookups, .. } = self;
        Ok(format!("{readings} readings{processes}{combinations} and {lookups} lookups{moved} compared; left out: {left_out}"))
    }
}

/// What the Rust read, and the model's reading, which is the same.
pub struct Read {
    database: Database,
    entries: Vec<(Vec<u8>, Vec<u8>)>,
    opens: usize,
    reading: Reading,
}

pub struct Both {
    room: Room,
    /// That of all readings.
    depth: u64,
    contents: Vec<u16>,
    bodies: Vec<u8>,
    /// The source of which a file was struck off last: most often another of its files is next.
    whole: Option<(Source, Read)>,
    pub counts: Counts,
}

impl Both {
    pub fn new(room: Room, depth: u64) -> Self {
        let (contents, bodies) = records::buffers();
        Self { room, depth, contents, bodies, whole: None, counts: Counts::default() }
    }

    /// An error if no file that was struck off changed an answer; at depth 0 none may.
    pub fn some_moved(&self) -> Result<(), String> {
        if self.depth == 0 {
            return (self.counts.moved == 0).then_some(()).ok_or("an answer moved at depth 0".to_string());
        }
        (self.counts.moved > 0).then_some(()).ok_or("no answer moved with a file struck off".to_string())
    }

    /// Compares entries and opens. Gives what the Rust read, or none if the source is left out.
    pub fn read(&mut self, source: &Source) -> Result<Option<Read>, String> {
        let source = &source.at(self.depth);
        let reading = match admitted_reading(source) {
            Ok(reading) => reading,
            Err(why) => {
                self.counts.leave_out(why);
                return Ok(None);
            }
        };
        let (database, opens) = self.room.read(source, &reading);
        let read = Read { entries: listed(&database), database, opens, reading };
        if read.entries != entries(&read.reading.entries) || read.opens != read.reading.opens {
            return Err(self.difference(&Case::read(source.clone())));
        }
        self.counts.readings += 1;
        if let Start::Chain(start_up) = &source.start {
            self.counts.combinations.insert(Combination::of(start_up));
        }
        Ok(Some(read))
    }

    /// Compares what a text is read as with the entries that it was written for.
    pub fn read_again(&mut self, text: &[u8], entries: &[(Vec<u8>, Vec<u8>)]) -> Result<(), String> {
        match self.read(&Source::plain(text))? {
            Some(read) if read.entries != entries => Err(format!("not the entries of \"{}\"", text.escape_ascii())),
            _ => Ok(()),
        }
    }

    /// Compares what a process of its own reads of a chain, laid before it like this.
    pub fn start(&mut self, start_up: &StartUp, archive: &[u8], setting: Setting) -> Result<(), String> {
        let case = Case::read(Source::chain(start_up.clone(), archive.to_vec()).at(self.depth));
        let answer = records::model_answer(&case).map_err(|refusal| format!("refused {}", refusal.number()))?;
        let reading = admitted_reading(&case.source)?;
        let said = self.room.start(start_up, &case.source, &reading, setting);
        if said != records::answer_fields(&answer).join(" ") {
            let model = records::write_line(&case, &answer);
            return Err(format!("they differ with {setting:?}\n{}\nthe Rust:  {said}\nthe model: {model}", describe(&case)));
        }
        self.counts.readings += 1;
        self.counts.processes += 1;
        self.counts.combinations.insert(Combination::of(start_up));
        Ok(())
    }

    /// Compares a source, the image that the model makes of it, and the answers to the queries.
    pub fn ask(&mut self, source: &Source, queries: &[Query]) -> Result<(), String> {
        let source = &source.at(self.depth);
        let Some(read) = self.read(source)? else { return Ok(()) };
        self.take_image(source, &read)?;
        queries.iter().try_for_each(|query| self.look_up(&read.database, source, query))
    }

    /// As `ask`, by bytes alone, for very many queries that are known to be small.
    pub fn ask_bytes(&mut self, source: &Source, queries: &[Query]) -> Result<(), String> {
        let source = &source.at(self.depth);
        let Some(read) = self.read(source)? else { return Ok(()) };
        self.take_image(source, &read)?;
        queries.iter().try_for_each(|query| self.find(&read.database, source, query))
    }

    /// Has the model write its image, which must hold what the Rust read, for the lookups that follow.
    fn take_image(&mut self, source: &Source, read: &Read) -> Result<(), String> {
        let accepted = image::read(&mut self.contents, &mut self.bodies, &source.texts(), &source.archive, source.depth);
        let same = accepted == Ok(image::Accepted { entries: read.entries.len(), opens: read.opens });
        if !same || records::listed(&self.contents, &self.bodies) != read.entries {
            return Err(self.difference(&Case::read(source.clone())));
        }
        Ok(())
    }

    /// Compares all four readings of the value that a query finds.
    fn look_up(&mut self, database: &Database, source: &Source, query: &Query) -> Result<(), String> {
        if let Err(why) = self.admit_query(query) {
            self.counts.leave_out(why);
            return Ok(());
        }
        let (name, class) = texts(query).expect("an admitted query");
        let (contents, bodies) = (&self.contents, &self.bodies);
        let (n, c) = (&query.name[..], &query.class[..]);
        let bytes = get_bytes(contents, bodies, n, c).map(|found| found.map(|place| place.of(bodies)));
        let string = get_string(contents, bodies, n, c).map(|found| found.map(|place| place.of(bodies)));
        let same = [
            (Kind::Bytes, bytes == Ok(database.get_bytes(name, class))),
            (Kind::String, string == Ok(database.get_string(name, class).map(str::as_bytes))),
            (Kind::Bool, get_bool(contents, bodies, n, c) == Ok(database.get_bool(name, class))),
            (Kind::Value, get_value(contents, bodies, n, c) == Ok(number(database, name, class))),
        ];
        if let Some((kind, _)) = same.iter().find(|(_, same)| !same) {
            return Err(self.difference(&Case::ask(*kind, source.clone(), query.clone())));
        }
        self.counts.lookups += 1;
        Ok(())
    }

    fn find(&mut self, database: &Database, source: &Source, query: &Query) -> Result<(), String> {
        let (name, class) = texts(query).expect("a query in UTF-8");
        let found = get_bytes(&self.contents, &self.bodies, &query.name, &query.class);
        if found.map(|found| found.map(|place| place.of(&self.bodies))) != Ok(database.get_bytes(name, class)) {
            return Err(self.difference(&Case::ask(Kind::Bytes, source.clone(), query.clone())));
        }
        self.counts.lookups += 1;
        Ok(())
    }

    fn admit_query(&self, query: &Query) -> Result<(), LeftOut> {
        let rows = image::judge(&self.contents, &self.bodies).expect("the image of a reading");
        admitted_query(query, rows.iter().map(|row| &row.key[..]))
    }

    /// The third term on one file and some queries: what the Rust reads and finds with the file
    /// struck off, against the chains of includes that the definition gives with the file.
    pub fn strike(&mut self, source: &Source, which: usize, queries: &[Query]) -> Result<(), String> {
        let known = self.whole.take().filter(|(of, _)| of == source).map(|(_, read)| read);
        let Some(first) = known.map_or_else(|| self.read(source), |read| Ok(Some(read)))? else { return Ok(()) };
        let reading = &first.reading;
        let archive = judge(&source.archive).expect("an admitted archive");
        let file = &archive.files[which].name;
        let left: Vec<Entry> = reading.entries.iter().filter(|entry| !entry.came_through(file)).cloned().collect();
        let why = |what: &str| format!("{what} with file {which} struck off from {}", describe(&Case::read(source.clone())));

        let second = self.read(&source.struck(which))?.ok_or_else(|| why("the reading is refused"))?;
        if second.entries != entries(&left) {
            return Err(why("other entries"));
        }
        for query in queries {
            if let Err(why) = admitted_query(query, reading.entries.iter().map(|entry| &entry.key[..])) {
                self.counts.leave_out(why);
                continue;
            }
            let (name, class) = texts(query).expect("an admitted query");
            let equal = first.database.get_bytes(name, class) == second.database.get_bytes(name, class);
            if equal != is_unmoved(reading, &left, file, query) {
                return Err(why(&format!("another answer to {name:?}, {class:?}")));
            }
            self.counts.lookups += 1;
            self.counts.moved += usize::from(!equal);
        }
        self.whole = Some((source.clone(), first));
        Ok(())
    }

    fn difference(&mut self, case: &Case) -> String {
        let rust = records::write_line(case, &self.room.answer(case));
        let model = match records::model_answer(case) {
            Ok(answer) => records::write_line(case, &answer),
            Err(refusal) => format!("refused {}", refusal.number()),
        };
        format!("they differ\n{}\nthe Rust:  {rust}\nthe model: {model}", describe(case))
    }
}

fn describe(case: &Case) -> String {
    let shown = |bytes: &[u8]| format!("\"{}\"", bytes.escape_ascii());
    let texts: Vec<String> = case.source.texts().into_iter().map(shown).collect();
    let files = judge(&case.source.archive).map(|archive| archive.files).unwrap_or_default();
    let files: Vec<String> = files.iter().map(|file| format!("{} => {}", shown(&file.name), shown(&file.body))).collect();
    let query = format!("name {}, class {}", shown(&case.query.name), shown(&case.query.class));
    format!("texts [{}], files [{}], {query}", texts.join("; "), files.join("; "))
}

fn entries(entries: &[Entry]) -> Vec<(Vec<u8>, Vec<u8>)> {
    entries.iter().map(|entry| (write_key(&entry.key), entry.value.clone())).collect()
}

/// Whether a case is admitted to the run, and the Rust can hold it.
pub fn is_admitted(case: &Case) -> bool {
    let Ok(reading) = admitted_reading(&case.source) else { return false };
    admitted_query(&case.query, reading.entries.iter().map(|entry| &entry.key[..])).is_ok()
}

/// The third term's condition: no entry that came through the file beats the rest; or one does,
/// some entry beats the rest once all that came through are left out, and both carry the same bytes.
fn is_unmoved(reading: &Reading, left: &[Entry], file: &[u8], query: &Query) -> bool {
    let Some(first) = beating(&reading.entries, query) else { return true };
    if !first.came_through(file) {
        return true;
    }
    beating(left, query).is_some_and(|second| second.value == first.value)
}

/// The entry that beats the rest; none if nothing aligns, as with a malformed query.
fn beating<'a>(entries: &'a [Entry], query: &Query) -> Option<&'a Entry> {
    let (name, class) = (split(&query.name)?, split(&query.class)?);
    let number = winner(entries.iter().map(|entry| &entry.key[..]), &positions(&name, &class))?;
    Some(&entries[number])
}

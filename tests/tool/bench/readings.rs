//! Readings of every side, checked and timed.

use crate::c_libraries::{Entry, Library};
use crate::children::try_out;
use crate::inputs::{cases, Input};
use crate::table::{self, Cell, ABSENT};
use crate::timing::{best, clock_cost, timed, Timed};
use crate::Side;
use model::limits::{BODIES_BYTES, CONTENTS_WORDS};
use oracle::resource_manager::{entries_of, read_in_memory, Database};
use std::collections::BTreeMap;
use std::ffi::CString;
use std::hint::black_box;
use std::path::{Path, PathBuf};
use std::time::{Duration, Instant};

pub const OTHERS: [Side; 3] = [Side::Rust, Side::Xlib, Side::XcbXrm];

/// One side's reading of a case.
pub trait Reader {
    fn read(&mut self);
    /// Frees what was read.
    fn free(&mut self);
    /// What was read.
    fn entries(&self) -> Vec<Entry>;
}

/// A case with its files in a directory.
pub struct Reading {
    pub case: Input,
    room: String,
    directory: PathBuf,
    shelf: Vec<u8>,
}

pub fn all(room: &str) -> impl Iterator<Item = Reading> + '_ {
    cases().into_iter().map(move |case| Reading::new(case, room))
}

pub fn find(name: &str, room: &str) -> Option<Reading> {
    cases().into_iter().find(|case| case.name == name).map(|case| Reading::new(case, room))
}

impl Reading {
    fn new(case: Input, room: &str) -> Self {
        let directory = Path::new(room).join(case.name);
        std::fs::create_dir_all(&directory).expect("a directory");
        let write = |name: &str, body: &[u8]| std::fs::write(directory.join(name), body).expect("room for a file");
        case.files.iter().for_each(|(name, body)| write(name, body));
        write("main", &case.text);
        let shelf = case.shelf();
        let reading = Self { case, room: room.to_string(), directory, shelf };
        reading.check();
        reading
    }

    /// The port and the Rust read the same entries, and as many as the case says.
    fn check(&self) {
        let (mut contents, mut bodies) = (vec![0; CONTENTS_WORDS], vec![0; BODIES_BYTES]);
        let read = port::read(&self.case.text, &self.shelf, &mut contents, &mut bodies);
        assert_eq!(read, Ok((self.case.entries, self.case.files.len())), "{}", self.case.name);
        assert!(self.entries(Side::Port) == self.entries(Side::Rust), "{}: they differ", self.case.name);
    }

    /// None for a library that is not installed, or that does not read files from memory.
    pub fn reader(&self, side: Side) -> Option<Box<dyn Reader + '_>> {
        Some(match side {
            Side::Port => Box::new(Port::new(&self.case.text, &self.shelf)),
            Side::Rust if self.case.in_memory => {
                let files: Vec<(&str, &[u8])> = self.case.files.iter().map(|(name, body)| (&name[..], &body[..])).collect();
                holding(move || read_in_memory(black_box(&self.case.text), black_box(&files)), list)
            }
            Side::Rust => {
                let read = || Database::new_from_data_with_base_directory(black_box(&self.case.text), &self.directory);
                holding(read, list)
            }
            _ if self.case.in_memory => return None,
            _ => self.library_reader(side.library()?),
        })
    }

    /// A text with includes is a file in their directory, as both libraries ask for.
    fn library_reader(&self, library: Library) -> Box<dyn Reader + '_> {
        if self.case.files.is_empty() {
            let text = CString::new(&self.case.text[..]).expect("no zero byte");
            holding(move || library.read(black_box(&text)), |database| database.entries())
        } else {
            let path = self.directory.join("main").into_os_string().into_encoded_bytes();
            let path = CString::new(path).expect("no zero byte");
            holding(move || library.read_file(black_box(&path)), |database| database.entries())
        }
    }

    /// As `reader`, or else why there is none; a library is tried out first, as it may crash.
    pub fn tried(&self, side: Side) -> Result<Box<dyn Reader + '_>, Cell> {
        let reader = self.reader(side).ok_or(ABSENT)?;
        if side.library().is_some() {
            try_out(self.case.name, side, &self.room)?;
        }
        Ok(reader)
    }

    fn entries(&self, side: Side) -> Option<Vec<Entry>> {
        let mut reader = self.tried(side).ok()?;
        reader.read();
        Some(reader.entries())
    }

    /// How many of the port's entries a library has not, or otherwise, and how many it has besides. Of
    /// entries with one key a library keeps the last.
    fn differing(&self, side: Side) -> Option<(usize, usize)> {
        let of = |side| self.entries(side).map(|entries| entries.into_iter().collect::<BTreeMap<_, _>>());
        let (ports, theirs) = (of(Side::Port)?, of(side)?);
        let otherwise = ports.iter().filter(|(key, value)| theirs.get(*key) != Some(value)).count();
        let besides = theirs.keys().filter(|key| !ports.contains_key(*key)).count();
        Some((otherwise, besides))
    }
}

struct Port<'a> {
    text: &'a [u8],
    shelf: &'a [u8],
    contents: Vec<u16>,
    bodies: Vec<u8>,
}

impl<'a> Port<'a> {
    fn new(text: &'a [u8], shelf: &'a [u8]) -> Self {
        Self { text, shelf, contents: vec![0; CONTENTS_WORDS], bodies: vec![0; BODIES_BYTES] }
    }
}

impl Reader for Port<'_> {
    fn read(&mut self) {
        black_box(port::read_word(black_box(self.text), black_box(self.shelf), &mut self.contents, &mut self.bodies));
    }

    fn free(&mut self) {}

    fn entries(&self) -> Vec<Entry> {
        records::listed(&self.contents, &self.bodies)
    }
}

/// Holds what was read on the heap until it is freed.
struct Holding<D, R, L> {
    read: R,
    list: L,
    held: Option<D>,
}

fn holding<'a, D: 'a>(read: impl Fn() -> D + 'a, list: impl Fn(&D) -> Vec<Entry> + 'a) -> Box<dyn Reader + 'a> {
    Box::new(Holding { read, list, held: None })
}

impl<D, R: Fn() -> D, L: Fn(&D) -> Vec<Entry>> Reader for Holding<D, R, L> {
    fn read(&mut self) {
        self.held = Some(black_box((self.read)()));
    }

    fn free(&mut self) {
        self.held = None;
    }

    fn entries(&self) -> Vec<Entry> {
        self.held.as_ref().map_or_else(Vec::new, &self.list)
    }
}

/// The Rust's entries.
pub fn list(database: &Database) -> Vec<Entry> {
    let part = |(loose, name): &(bool, Option<String>)| {
        format!("{}{}", if *loose { '*' } else { '.' }, name.as_deref().unwrap_or("?")).into_bytes()
    };
    let written = |key: &[(bool, Option<String>)]| key.iter().flat_map(part).collect();
    entries_of(database).into_iter().map(|(key, value)| (written(&key), value)).collect()
}

/// The time of so many calls, each timed alone. What was read is freed with the clock stopped.
fn time(reader: &mut dyn Reader, calls: u32) -> Duration {
    let mut sum = Duration::ZERO;
    for _ in 0..calls {
        sum += timed(|| reader.read()).1;
        reader.free();
    }
    sum
}

fn time_with_freeing(reader: &mut dyn Reader, calls: u32) -> Duration {
    let start = Instant::now();
    for _ in 0..calls {
        reader.read();
        reader.free();
    }
    start.elapsed()
}

pub fn time_all(room: &str) {
    let clock = clock_cost();
    table::head("Reading", "ns", &OTHERS);
    for reading in all(room) {
        let what = reading.case.what;
        let cells = reading.row(time, clock);
        table::row(what, cells[0], &cells[1..]);
        let cells = reading.row(time_with_freeing, 0.0);
        table::row(&format!("{what}, then freed"), cells[0], &cells[1..]);
    }
    println!("\nThe floor of every reading of the port, both buffers zeroed by the C library: {:.0} ns.", floor(clock));
}

/// The best time of setting both of the port's buffers to zero.
fn floor(clock: f64) -> f64 {
    let (mut contents, mut bodies) = (vec![0u16; CONTENTS_WORDS], vec![0u8; BODIES_BYTES]);
    let zero = move |calls: u32| {
        let mut sum = Duration::ZERO;
        for _ in 0..calls {
            sum += timed(|| {
                black_box(&mut contents).fill(0);
                black_box(&mut bodies).fill(0);
            })
            .1;
        }
        sum
    };
    best(&mut [Box::new(zero) as Timed])[0] - clock
}

impl Reading {
    /// The best times of the port and of the others, less what looking at the clock costs.
    fn row(&self, time: fn(&mut dyn Reader, u32) -> Duration, clock: f64) -> Vec<Cell> {
        let mut sides: Vec<Timed> = Vec::new();
        let mut cells = Vec::new();
        for side in [Side::Port].into_iter().chain(OTHERS) {
            cells.push(self.tried(side).map(|mut reader| sides.push(Box::new(move |calls| time(&mut *reader, calls)))));
        }
        let mut times = best(&mut sides).into_iter();
        cells
            .into_iter()
            .map(|cell| cell.map_or_else(|why| why, |()| Cell::Figure(times.next().expect("a time") - clock)))
            .collect()
    }
}

/// What libraries read otherwise than the port, a line for each library and case.
pub fn differing(room: &str) -> Vec<String> {
    let mut lines = Vec::new();
    for reading in all(room) {
        for side in [Side::Xlib, Side::XcbXrm] {
            let (otherwise, besides) = reading.differing(side).unwrap_or_default();
            if otherwise + besides > 0 {
                let (title, what, entries) = (side.title(), reading.case.what, reading.case.entries);
                lines.push(format!("{title}, {what}: {otherwise} of {entries} entries, and {besides} more keys"));
            }
        }
    }
    lines
}

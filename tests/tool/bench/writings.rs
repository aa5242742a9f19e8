//! Databases written out by every side but the Rust, which has no such call, and the texts read again; checked and timed.

use crate::c_libraries;
use crate::children::try_out;
use crate::inputs::cases;
use crate::table::{self, Cell, ABSENT};
use crate::timing::{best, Timed};
use crate::Side;
use model::limits::{BODIES_BYTES, CONTENTS_WORDS, WRITTEN_BYTES};
use model::writing;
use oracle::resource_manager::Database;
use std::ffi::CString;
use std::hint::black_box;
use std::path::Path;
use std::time::Instant;

pub const OTHERS: [Side; 3] = [Side::Rust, Side::Xlib, Side::XcbXrm];

/// What is done with a database, or with its text.
#[derive(Clone, Copy, PartialEq)]
enum Job {
    Write,
    /// Into a buffer just as long as the text: the port counts it first.
    WriteTight,
    /// The text that the port writes, read and freed.
    Read,
}

/// A case: the image of one of the readings, and its text.
pub struct Writing {
    pub name: &'static str,
    pub what: String,
    job: Job,
    room: String,
    /// What the other sides read the database from.
    source: Vec<u8>,
    contents: Vec<u16>,
    bodies: Vec<u8>,
    text: Vec<u8>,
}

pub fn all(room: &str) -> impl Iterator<Item = Writing> + '_ {
    [
        ("write-small", "small", Job::Write),
        ("read-written-small", "small", Job::Read),
        ("write-large", "large", Job::Write),
        ("write-large-tight", "large", Job::WriteTight),
        ("read-written-large", "large", Job::Read),
    ]
    .into_iter()
    .map(move |(name, reading, job)| Writing::new(name, reading, job, room))
}

pub fn find(name: &str, room: &str) -> Option<Writing> {
    all(room).find(|writing| writing.name == name)
}

impl Writing {
    fn new(name: &'static str, reading: &str, job: Job, room: &str) -> Self {
        let case = cases().into_iter().find(|case| case.name == reading).expect("a reading");
        let (mut contents, mut bodies) = (vec![0; CONTENTS_WORDS], vec![0; BODIES_BYTES]);
        assert_eq!(port::read(&case.text, &[0, 0], &mut contents, &mut bodies), Ok((case.entries, 0)), "{name}");
        let mut text = vec![0; WRITTEN_BYTES];
        let word = port::write_word(&contents, &bodies, &mut text);
        assert_eq!(word & 0xFFFF_FFFF, 0, "{name}: refused");
        text.truncate((word >> 32) as usize);
        assert!(writing::text(&contents, &bodies) == Ok(text.clone()), "{name}: they differ");
        let what = match job {
            Job::Write => format!("{} entries, {} bytes, written", case.entries, text.len()),
            Job::WriteTight => "the same, into a buffer of just its length".to_string(),
            Job::Read => "that text read, then freed".to_string(),
        };
        Self { name, what, job, room: room.to_string(), source: case.text, contents, bodies, text }
    }

    /// What a side does. None for a library that is not installed, and for the Rust's writing.
    pub fn work(&self, side: Side) -> Option<Box<dyn FnMut() + '_>> {
        Some(match (side, self.job) {
            (Side::Port, Job::Write | Job::WriteTight) => {
                let mut buffer = vec![0; if self.job == Job::Write { WRITTEN_BYTES } else { self.text.len() }];
                Box::new(move || {
                    black_box(port::write_word(black_box(&self.contents), black_box(&self.bodies), &mut buffer));
                })
            }
            (Side::Port, Job::Read) => {
                let (mut contents, mut bodies) = (vec![0; CONTENTS_WORDS], vec![0; BODIES_BYTES]);
                Box::new(move || {
                    black_box(port::read_word(black_box(&self.text), &[0, 0], &mut contents, &mut bodies));
                })
            }
            (Side::Rust, Job::Write) | (_, Job::WriteTight) => return None,
            (Side::Rust, Job::Read) => Box::new(|| drop(black_box(Database::new_from_data(black_box(&self.text))))),
            (_, Job::Write) => self.library_writes(side.library()?),
            (_, Job::Read) => {
                let (library, text) = (side.library()?, c_string(&self.text));
                Box::new(move || drop(black_box(library.read(black_box(&text)))))
            }
        })
    }

    /// Xlib writes to a file, which is in memory where the room is.
    fn library_writes(&self, library: c_libraries::Library) -> Box<dyn FnMut()> {
        let database = library.read(&c_string(&self.source));
        let path = c_string(Path::new(&self.room).join("written").into_os_string().as_encoded_bytes());
        Box::new(move || black_box(&database).write(&path))
    }

    /// As `work`, or else why there is none; a library is tried out first, as it may crash.
    pub fn tried(&self, side: Side) -> Result<Box<dyn FnMut() + '_>, Cell> {
        let work = self.work(side).ok_or(ABSENT)?;
        if side.library().is_some() {
            try_out(self.name, side, &self.room)?;
        }
        Ok(work)
    }

    /// The best times of the port and of the others.
    fn row(&self) -> Vec<Cell> {
        let mut sides: Vec<Timed> = Vec::new();
        let mut cells = Vec::new();
        for side in [Side::Port].into_iter().chain(OTHERS) {
            cells.push(self.tried(side).map(|mut work| {
                sides.push(Box::new(move |calls| {
                    let start = Instant::now();
                    (0..calls).for_each(|_| work());
                    start.elapsed()
                }));
            }));
        }
        let mut times = best(&mut sides).into_iter();
        cells.into_iter().map(|cell| cell.map_or_else(|why| why, |()| Cell::Figure(times.next().expect("a time")))).collect()
    }
}

fn c_string(text: &[u8]) -> CString {
    CString::new(text).expect("no zero byte")
}

pub fn time_all(room: &str) {
    table::head("Writing out, Xlib to a file in memory", "ns", &OTHERS);
    for writing in all(room) {
        let cells = writing.row();
        table::row(&writing.what, cells[0], &cells[1..]);
    }
}

//! Lookups of every side, checked and timed.

use crate::c_libraries::{self, Query};
use crate::children::try_out;
use crate::lookup_inputs::{questions, Answers, Asked, Questions};
use crate::table::{self, Cell, ABSENT};
use crate::timing::{best, Timed};
use crate::Side;
use model::limits::{BODIES_BYTES, CONTENTS_WORDS};
use oracle::resource_manager::Database;
use std::ffi::CString;
use std::hint::black_box;
use std::time::Instant;

/// How many queries of a case an instruction counter sees: it slows them fifty times.
const COUNTED: usize = 1_000;

pub const OTHERS: [Side; 4] = [Side::Rust, Side::Xlib, Side::XlibByQuarks, Side::XcbXrm];

/// One side's database, with the queries as it takes them.
pub trait Asker {
    /// Asks so many queries, from the first.
    fn ask(&self, queries: usize);
    fn value(&self, query: usize) -> Option<Vec<u8>>;
}

/// A case with the port's image.
pub struct Asking {
    case: Questions,
    contents: Vec<u16>,
    bodies: Vec<u8>,
}

/// Checked: the port and the Rust answer alike.
pub fn all() -> impl Iterator<Item = Asking> {
    questions().into_iter().map(Asking::new).inspect(Asking::check)
}

/// One case, not checked again: under an instruction counter that takes minutes.
pub fn find(name: &str) -> Option<Asking> {
    questions().into_iter().find(|case| case.name == name).map(Asking::new)
}

impl Asking {
    fn new(case: Questions) -> Self {
        let (mut contents, mut bodies) = (vec![0; CONTENTS_WORDS], vec![0; BODIES_BYTES]);
        let read = port::read(&case.text, &[0, 0], &mut contents, &mut bodies);
        assert_eq!(read, Ok((case.entries, 0)), "{}", case.name);
        Self { case, contents, bodies }
    }

    fn check(&self) {
        if let Answers::Refused(number) = self.case.answers {
            let refused = |(name, class): &(String, String)| self.word(name, class) == number.into();
            return assert!(self.case.queries.iter().all(refused), "{}", self.case.name);
        }
        let values = self.values(self);
        assert_eq!(Answers::Found(values.iter().flatten().count()), self.case.answers, "{}", self.case.name);
        if self.case.asked == Asked::All {
            assert!(values == self.values(&*self.asker(Side::Rust).expect("the Rust")), "{}: they differ", self.case.name);
        }
    }

    fn values(&self, asker: &dyn Asker) -> Vec<Option<Vec<u8>>> {
        (0..self.case.queries.len()).map(|query| asker.value(query)).collect()
    }

    /// 0, 65535 for none, or a refusal's number in bits 0 to 15; a value's place in bits 16 to 31 and
    /// its length in bits 32 to 47.
    fn word(&self, name: &str, class: &str) -> u64 {
        let call = if self.case.asked == Asked::TheWindow { port::window_get_bytes_word } else { port::get_bytes_word };
        call(&self.contents, &self.bodies, name.as_bytes(), class.as_bytes())
    }

    pub fn name(&self) -> &'static str {
        self.case.name
    }

    pub fn what(&self) -> String {
        match self.case.answers {
            Answers::Found(found) if self.case.queries.len() > 1 => format!("{}, {found} found", self.case.what),
            _ => self.case.what.to_string(),
        }
    }

    pub fn counted(&self) -> usize {
        self.case.queries.len().min(COUNTED)
    }

    /// None for a library that is not installed, and for a case that is the port's alone.
    pub fn asker(&self, side: Side) -> Option<Box<dyn Asker + '_>> {
        let queries = &self.case.queries;
        match side {
            Side::Port => return Some(Box::new(self)),
            _ if matches!(self.case.asked, Asked::ThePort | Asked::TheWindow) => return None,
            Side::Rust => return Some(Box::new(Rust { database: Database::new_from_data(&self.case.text), queries })),
            _ => (),
        }
        let text = CString::new(&self.case.text[..]).expect("no zero byte");
        let database = side.library()?.read(&text);
        let queries = queries.iter().map(|(name, class)| database.query(name, class)).collect();
        Some(Box::new(OfLibrary { database, queries }))
    }

    /// As `asker`, or else why there is none; a side is tried out first where some do not end.
    pub fn tried(&self, side: Side, room: &str) -> Result<Box<dyn Asker + '_>, Cell> {
        let asker = self.asker(side).ok_or(ABSENT)?;
        if side != Side::Port && self.case.asked == Asked::AllThatEnd {
            try_out(self.name(), side, room)?;
        }
        Ok(asker)
    }

    /// The best times of a lookup by the port and by the others, who are compared with the port.
    fn row(&self, compared: &mut Compared, room: &str) -> Vec<Cell> {
        let mut sides: Vec<Timed> = Vec::new();
        let mut cells = Vec::new();
        for side in [Side::Port].into_iter().chain(OTHERS) {
            cells.push(self.tried(side, room).map(|asker| {
                compared.add(side, self, &*asker);
                sides.push(self.timed(asker));
            }));
        }
        let mut times = best(&mut sides).into_iter().map(|time| Cell::Figure(time / self.case.queries.len() as f64));
        cells.into_iter().map(|cell| cell.map_or_else(|why| why, |()| times.next().expect("a time"))).collect()
    }

    fn timed<'a>(&'a self, asker: Box<dyn Asker + 'a>) -> Timed<'a> {
        Box::new(move |turns| {
            let start = Instant::now();
            (0..turns).for_each(|_| asker.ask(self.case.queries.len()));
            start.elapsed()
        })
    }
}

impl Asker for &Asking {
    fn ask(&self, queries: usize) {
        (*self).ask(queries);
    }

    fn value(&self, query: usize) -> Option<Vec<u8>> {
        (*self).value(query)
    }
}

impl Asker for Asking {
    fn ask(&self, queries: usize) {
        for (name, class) in &self.case.queries[..queries] {
            black_box(self.word(black_box(name), black_box(class)));
        }
    }

    fn value(&self, query: usize) -> Option<Vec<u8>> {
        let (name, class) = &self.case.queries[query];
        let word = self.word(name, class);
        let bits = |from: u32| usize::from((word >> from) as u16);
        match bits(0) {
            0 => Some(self.bodies[bits(16)..][..bits(32)].to_vec()),
            65535 => None,
            number => panic!("{} is refused by {number}", self.case.name),
        }
    }
}

struct Rust<'a> {
    database: Database,
    queries: &'a [(String, String)],
}

impl Asker for Rust<'_> {
    fn ask(&self, queries: usize) {
        for (name, class) in &self.queries[..queries] {
            black_box(self.database.get_bytes(black_box(name), black_box(class)));
        }
    }

    fn value(&self, query: usize) -> Option<Vec<u8>> {
        let (name, class) = &self.queries[query];
        self.database.get_bytes(name, class).map(<[u8]>::to_vec)
    }
}

struct OfLibrary {
    database: c_libraries::Database,
    queries: Vec<Query>,
}

impl Asker for OfLibrary {
    fn ask(&self, queries: usize) {
        for query in &self.queries[..queries] {
            self.database.look_up(black_box(query), &mut |value| {
                black_box(value);
            });
        }
    }

    fn value(&self, query: usize) -> Option<Vec<u8>> {
        let mut seen = None;
        self.database.look_up(&self.queries[query], &mut |value| seen = Some(value.to_vec()));
        seen
    }
}

/// What sides answered otherwise than the port, a line for each side and case.
#[derive(Default)]
pub struct Compared(Vec<String>);

impl Compared {
    fn add(&mut self, side: Side, asking: &Asking, asker: &dyn Asker) {
        if side == Side::Port {
            return;
        }
        let (ports, theirs) = (asking.values(asking), asking.values(asker));
        let otherwise = ports.iter().zip(&theirs).filter(|(port, other)| port != other).count();
        if otherwise > 0 {
            self.0.push(format!("{}, {}: {otherwise} of {} lookups", side.title(), asking.case.what, ports.len()));
        }
    }

    pub fn lines(self) -> Vec<String> {
        self.0
    }
}

pub fn time_all(room: &str) -> Compared {
    let mut compared = Compared::default();
    table::head("Lookup", "ns", &OTHERS);
    for asking in all() {
        let cells = asking.row(&mut compared, room);
        table::row(&asking.what(), cells[0], &cells[1..]);
    }
    compared
}

//! Walks and additions of the port, which the other sides have not; checked and timed.

use crate::inputs::cases;
use crate::table::{self, Cell};
use crate::timing::{best, Timed};
use model::limits::{BODIES_BYTES, CONTENTS_WORDS};
use model::{adding, walking};
use std::hint::black_box;
use std::time::Instant;

/// What is done with an image.
#[derive(Clone, Copy, PartialEq)]
enum Job {
    Start,
    /// A whole walk, its start and its end too.
    Walk,
    Add,
}

/// A case: the image of one of the readings, a query that some of its entries align with, and a line.
pub struct Walk {
    pub name: &'static str,
    pub what: String,
    job: Job,
    contents: Vec<u16>,
    bodies: Vec<u8>,
    query: &'static [u8],
    /// How many calls a job is.
    pub calls: usize,
}

const LINE: &[u8] = b"reader.dictionary*search.range: chapter\n";

pub fn all() -> impl Iterator<Item = Walk> {
    [
        ("walk-start", "large", Job::Start),
        ("walk-small", "small", Job::Walk),
        ("walk-large", "large", Job::Walk),
        ("add-small", "small", Job::Add),
        ("add-large", "short-lines", Job::Add),
    ]
    .into_iter()
    .map(|(name, reading, job)| Walk::new(name, reading, job))
}

pub fn find(name: &str) -> Option<Walk> {
    all().find(|walk| walk.name == name)
}

impl Walk {
    fn new(name: &'static str, reading: &str, job: Job) -> Self {
        let case = cases().into_iter().find(|case| case.name == reading).expect("a reading");
        let (mut contents, mut bodies) = (vec![0; CONTENTS_WORDS], vec![0; BODIES_BYTES]);
        assert_eq!(port::read(&case.text, &[0, 0], &mut contents, &mut bodies), Ok((case.entries, 0)), "{name}");
        if job == Job::Add && contents[0] == 512 {
            // Room for one entry more.
            contents[1] = contents[2 + 4 * 511];
            contents[0] = 511;
        }
        let query: &[u8] = if reading == "small" { b"XTerm.vt100.background" } else { b"App00.window.background" };
        let entries = contents[0];
        let mut walk = Self { name, what: String::new(), job, contents, bodies, query, calls: 1 };
        let listed = walk.check();
        walk.what = match job {
            Job::Start => format!("{entries} entries: a walk begins"),
            Job::Walk => format!("{entries} entries, {listed} listed: a call of a walk, on average"),
            Job::Add => format!("{entries} entries: a line is added"),
        };
        walk.calls = if job == Job::Walk { listed + 2 } else { 1 };
        walk
    }

    /// Compares the job with the model's, and gives how many entries a walk lists.
    fn check(&self) -> usize {
        if self.job == Job::Add {
            let mut ports = (self.contents.clone(), self.bodies.clone());
            let mut models = ports.clone();
            let number = adding::add(&mut models.0, &mut models.1, LINE).expect("room for a line");
            assert_eq!(port::add_word(&mut ports.0, &mut ports.1, LINE), (number as u64) << 16, "{}", self.name);
            assert!(ports == models, "{}: they differ", self.name);
            return 0;
        }
        let mut state = walking::start(&self.contents, &self.bodies, self.query, b"").expect("a walk");
        let step = || walking::step(&self.contents, &self.bodies, self.query, b"", &mut state).expect("a step");
        let listed: Vec<usize> = std::iter::from_fn(step).collect();
        let mut seen = Vec::new();
        self.walk(&mut |number| seen.push(number));
        assert_eq!(seen, listed, "{}", self.name);
        listed.len()
    }

    fn start(&self) -> (u16, u16) {
        let (mut next, mut count) = (0, 0);
        black_box(port::walk_start_word(
            black_box(&self.contents),
            black_box(&self.bodies),
            self.query,
            b"",
            &mut next,
            &mut count,
        ));
        (next, count)
    }

    fn walk(&self, see: &mut dyn FnMut(usize)) {
        let (mut next, count) = self.start();
        loop {
            let word =
                port::walk_step_word(black_box(&self.contents), black_box(&self.bodies), self.query, b"", &mut next, count);
            if word & 0xFFFF != 0 {
                return;
            }
            see((word >> 16) as usize);
        }
    }

    pub fn work(&self) -> Box<dyn FnMut() + '_> {
        match self.job {
            Job::Start => Box::new(|| {
                black_box(self.start());
            }),
            Job::Walk => Box::new(|| {
                self.walk(&mut |number| {
                    black_box(number);
                });
            }),
            Job::Add => {
                let (mut contents, mut bodies) = (self.contents.clone(), self.bodies.clone());
                Box::new(move || {
                    // The same entry again: its row and its bytes are written anew.
                    contents[..2].copy_from_slice(&self.contents[..2]);
                    black_box(port::add_word(black_box(&mut contents), black_box(&mut bodies), black_box(LINE)));
                })
            }
        }
    }
}

pub fn time_all() {
    table::head("Walks and additions", "ns", &[]);
    for walk in all() {
        let mut work = walk.work();
        let mut sides: Vec<Timed> = vec![Box::new(move |calls| {
            let start = Instant::now();
            (0..calls).for_each(|_| work());
            start.elapsed()
        })];
        let time = best(&mut sides)[0] / walk.calls as f64;
        table::row(&walk.what, Cell::Figure(time), &[]);
    }
}

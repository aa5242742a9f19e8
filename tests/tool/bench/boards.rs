//! The calls of a board, which the other sides have not; checked beside the model and timed, with 1 pack, 4 and 16, each full.

use crate::inputs::cases;
use crate::table::{self, Cell};
use crate::timing::{best, Timed};
use model::board::{self, slot_start};
use model::limits::{BOARD_BYTES, BOARD_WORDS, BODIES_BYTES, CONTENTS_WORDS, QUERIES};
use std::hint::black_box;
use std::time::Instant;

/// What is done with a board. Each is one call, but for the 32 answers that are asked for one by one.
#[derive(Clone, Copy, PartialEq)]
enum Job {
    /// An answer: the board is judged, and one query looked for.
    Answer,
    /// All 32 answers, each by its call.
    Answers,
    /// And by one call.
    AtOnce,
    Report,
    /// The last pack arrives.
    Arrive,
    LeaveLast,
    /// The first pack leaves, and all others move up.
    LeaveFirst,
}

pub struct Board {
    pub name: String,
    pub what: String,
    job: Job,
    words: Vec<u16>,
    bytes: Vec<u8>,
    contents: Vec<u16>,
    bodies: Vec<u8>,
    packs: u16,
}

const PACKS: [u16; 3] = [1, 4, 16];

pub fn all() -> impl Iterator<Item = Board> {
    let jobs = [
        ("answer", Job::Answer),
        ("answers", Job::Answers),
        ("at-once", Job::AtOnce),
        ("report", Job::Report),
        ("arrive", Job::Arrive),
        ("leave-last", Job::LeaveLast),
        ("leave-first", Job::LeaveFirst),
    ];
    jobs.into_iter().flat_map(|(name, job)| PACKS.into_iter().map(move |packs| Board::new(name, job, packs)))
}

pub fn find(name: &str) -> Option<Board> {
    all().find(|board| board.name == name)
}

impl Board {
    fn new(name: &str, job: Job, packs: u16) -> Self {
        let case = cases().into_iter().find(|case| case.name == "large").expect("a reading");
        let (mut contents, mut bodies) = (vec![0; CONTENTS_WORDS], vec![0; BODIES_BYTES]);
        assert_eq!(port::read(&case.text, &[0, 0], &mut contents, &mut bodies), Ok((case.entries, 0)), "{name}");
        let (mut words, mut bytes) = (vec![0; BOARD_WORDS], vec![0; BOARD_BYTES]);
        assert_eq!(port::board_make_word(&mut words, &mut bytes), 0);
        for query in 0..QUERIES {
            let text = format!("App{:02}.window.background", query % 8);
            assert_eq!(port::board_watch_word(&mut words, &mut bytes, text.as_bytes(), b""), (query as u64) << 16);
        }
        for number in 1..=packs {
            assert_eq!(port::board_arrive_word(&mut words, &mut bytes, number, &contents, &bodies), 0);
        }
        let what = match job {
            Job::Answer => "an answer",
            Job::Answers => "32 answers",
            Job::AtOnce => "32 answers at once",
            Job::Report => "a report of the last pack",
            Job::Arrive => "the last arrives",
            Job::LeaveLast => "the last leaves",
            Job::LeaveFirst => "the first leaves",
        };
        let what = format!("{packs} packs of {} entries: {what}", case.entries);
        let board = Self { name: format!("board-{name}-{packs}"), what, job, words, bytes, contents, bodies, packs };
        board.check();
        board
    }

    /// The answers and the report are the model's.
    fn check(&self) {
        let model = board::read_board(&self.words, &self.bytes).expect("a board");
        let (mut answers, mut packs) = ([0; QUERIES], [0; QUERIES]);
        let word = port::board_answers_word(&self.words, &self.bytes, &mut answers, &mut packs);
        assert_eq!(word, (QUERIES as u64) << 16, "{}", self.name);
        for query in 0..8 {
            let mut pack = 0;
            let word = port::board_answer_word(&self.words, &self.bytes, query, &mut pack);
            let found = model.answer(usize::from(query));
            let expected = found.map_or(65_535, |found| (found.place.start as u64) << 16 | (found.place.length as u64) << 32);
            assert_eq!((word, pack), (expected, found.map_or(0, |found| found.pack)), "{}", self.name);
            assert_eq!((answers[usize::from(query)], packs[usize::from(query)]), (word, pack), "{}", self.name);
        }
        let bits = model.report(self.packs).expect("a pack");
        assert_eq!(port::board_report_word(&self.words, &self.bytes, self.packs), u64::from(bits) << 32, "{}", self.name);
    }

    pub fn work(&self) -> Box<dyn FnMut() + '_> {
        let answer = |query: u16| {
            let mut pack = 0;
            black_box(port::board_answer_word(black_box(&self.words), black_box(&self.bytes), query, &mut pack));
        };
        // A call that changes a board, and a word or two that undo it.
        let changing = |call: fn(&Self, &mut [u16], &mut [u8])| -> Box<dyn FnMut() + '_> {
            let (mut words, mut bytes) = (self.words.clone(), self.bytes.clone());
            words[0] = if self.job == Job::Arrive { self.packs - 1 } else { self.packs };
            Box::new(move || call(self, black_box(&mut words), black_box(&mut bytes)))
        };
        match self.job {
            Job::Answer => Box::new(move || answer(0)),
            Job::Answers => Box::new(move || (0..QUERIES as u16).for_each(answer)),
            Job::AtOnce => Box::new(|| {
                let (mut answers, mut packs) = ([0; QUERIES], [0; QUERIES]);
                black_box(port::board_answers_word(
                    black_box(&self.words),
                    black_box(&self.bytes),
                    black_box(&mut answers),
                    black_box(&mut packs),
                ));
            }),
            Job::Report => Box::new(|| {
                black_box(port::board_report_word(black_box(&self.words), black_box(&self.bytes), self.packs));
            }),
            Job::Arrive => changing(|board, words, bytes| {
                assert_eq!(port::board_arrive_word(words, bytes, board.packs, &board.contents, &board.bodies), 0);
                words[0] -= 1;
            }),
            Job::LeaveLast => changing(|board, words, bytes| {
                assert_eq!(port::board_leave_word(words, bytes, board.packs), 0);
                words[0] += 1;
            }),
            Job::LeaveFirst => changing(|board, words, bytes| {
                let first = words[slot_start(0)];
                assert_eq!(port::board_leave_word(words, bytes, first), 0);
                // What stood in the last slot stands there still, and gets the number that is free.
                words[0] += 1;
                words[slot_start(usize::from(board.packs) - 1)] = first;
            }),
        }
    }
}

pub fn time_all() {
    table::head("A board", "ns", &[]);
    for board in all() {
        let mut work = board.work();
        let mut sides: Vec<Timed> = vec![Box::new(move |calls| {
            let start = Instant::now();
            (0..calls).for_each(|_| work());
            start.elapsed()
        })];
        table::row(&board.what, Cell::Figure(best(&mut sides)[0]), &[]);
    }
}

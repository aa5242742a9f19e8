//! The comparing call beside the model: its word, both answers, every word and byte of the five lent
//! buffers and around them, and the third term in its answers.

use crate::asking::{bytes_at, place_word};
use crate::both::{self, Both, Shape, SHAPES};
use crate::fenced::Fenced;
use crate::lending::{holds, Edit, StartUpRoom};
use crate::run::{describe, shown};
use crate::third::{case_of, Counts};
use model::archive::judge;
use model::limits::{BODIES_BYTES, CONTENTS_WORDS, DEFAULT_DEPTH};
use model::lookup;
use model::reading::read;
use port::{compare_default_without_word, compare_plain_without_word, compare_without_word, Lent};
use records::{Query, Source, Start};

/// A comparing call with its texts, archive and query, of which the number of a file and what it writes are left.
pub type Call<'a> = &'a dyn Fn(usize, Lent) -> u64;

/// The comparing calls of the port: as they are, or with something done to them by a faulty port.
#[derive(Clone, Copy)]
pub struct Calls {
    pub around: fn(Call, usize, Lent) -> u64,
    pub edit: Edit,
    /// The depth that is asked for, as it is given; and the call that is given none.
    pub depth: fn(u64) -> u64,
    pub plain: fn(&[u8], &[u8], usize, &[u8], &[u8], Lent) -> u64,
}

pub const PORTS: Calls = Calls {
    around: |call, file, lent| call(file, lent),
    edit: |start_up| start_up,
    depth: |depth| depth,
    plain: compare_plain_without_word,
};

pub const NO_FILE: u64 = 65_535;

/// How the buffers of a call are lent: those of both readings, and so many bytes for the archive with
/// the file struck off, more or less than the archive has.
#[derive(Clone, Copy, Debug)]
pub struct Room {
    pub with_it: Shape,
    pub without: Shape,
    pub more: isize,
}

/// What the call returns, and the words of both answers afterwards.
pub type Words = (u64, u64, u64);

const ARCHIVE_PAGES: usize = 17;
const TEXT_PAGES: usize = 9;
const QUERY_PAGES: usize = 1;

pub struct Comparing {
    calls: Calls,
    text: Fenced,
    start_up: StartUpRoom,
    archive: Fenced,
    name: Fenced,
    class: Fenced,
    with_it: Both,
    without: Both,
    struck: Fenced,
    models_struck: Vec<u8>,
    turn: usize,
    pub counts: Counts,
}

impl Comparing {
    pub fn new(calls: Calls) -> Self {
        Self {
            calls,
            text: Fenced::new(TEXT_PAGES),
            start_up: StartUpRoom::new(TEXT_PAGES),
            archive: Fenced::new(ARCHIVE_PAGES),
            name: Fenced::new(QUERY_PAGES),
            class: Fenced::new(QUERY_PAGES),
            with_it: Both::new(both::PORTS),
            without: Both::new(both::PORTS),
            struck: Fenced::new(ARCHIVE_PAGES),
            models_struck: vec![0; ARCHIVE_PAGES * 4096],
            turn: 0,
            counts: Counts::default(),
        }
    }

    /// Compares the call on one file of a source and one of the queries, and holds its answers to the
    /// third term.
    pub fn see(&mut self, source: &Source, which: usize, queries: &[Query]) -> Result<(), String> {
        self.turn += 1;
        let query = &queries[self.turn % queries.len()];
        let shape = |turn: usize| SHAPES[turn % SHAPES.len()];
        let room = Room { with_it: shape(self.turn), without: shape(self.turn / 3), more: (self.turn % 3) as isize };
        let why = |why: String| format!("{}, file {which}, {}: {why}", describe(source), asked(query));
        let (word, with_it, without) = self.compare(source, which, query, room).map_err(why)?;
        if word != 0 {
            self.counts.refused += 1;
            return Ok(());
        }
        let answers = (found(with_it, &mut self.with_it)?, found(without, &mut self.without)?);
        let archive = judge(&source.archive).expect("the archive of an accepted reading");
        let entries = read(&source.texts(), &archive, source.depth).expect("an accepted reading").entries;
        let case = case_of(&entries, &archive.files[which].name, query);
        case.holds(&answers).map_err(why)?;
        self.counts.files += 1;
        *self.counts.met.entry(case).or_default() += 1;
        Ok(())
    }

    /// Compares the call with the model in all that it returns and leaves.
    pub fn compare(&mut self, source: &Source, which: usize, query: &Query, room: Room) -> Result<Words, String> {
        let words = self.call(source, which, query, room)?;
        let models = self.models_words(source, which, query, room);
        if words != models {
            return Err(format!("the port answers {words:x?}, the model {models:x?}, with buffers lent as {room:?}"));
        }
        self.with_it.same_buffers().map_err(|why| format!("with the file, {why}"))?;
        self.without.same_buffers().map_err(|why| format!("without the file, {why}"))?;
        if self.struck.bytes() != &self.models_struck[..] {
            return Err(format!("the archive with the file struck off differs, with buffers lent as {room:?}"));
        }
        Ok(words)
    }

    /// What both answers hold before a call.
    fn lent_words(&self) -> (u64, u64) {
        (0x5A5A_0001 + self.turn as u64, 0xA5A5_0002)
    }

    fn struck_length(&self, source: &Source, room: Room) -> usize {
        source.archive.len().saturating_add_signed(room.more)
    }

    fn call(&mut self, source: &Source, which: usize, query: &Query, room: Room) -> Result<Words, String> {
        let (mut first, mut second) = self.lent_words();
        let length = self.struck_length(source, room);
        self.struck.bytes().fill(self.turn as u8);
        self.models_struck.fill(self.turn as u8);
        let (contents, bodies) = self.with_it.lend(room.with_it);
        let (contents_without, bodies_without) = self.without.lend(room.without);
        let lent = Lent {
            struck: &mut self.struck.bytes()[ARCHIVE_PAGES * 4096 - length..],
            contents,
            bodies,
            contents_without,
            bodies_without,
            with_it: &mut first,
            without: &mut second,
        };
        // What is read stands at a fence too, or where it is if it is too long.
        let at_end = self.turn % 2 == 0;
        let archive = self.archive.copy(&source.archive, at_end).unwrap_or(&source.archive);
        let name = self.name.copy(&query.name, at_end).unwrap_or(&query.name);
        let class = self.class.copy(&query.class, at_end).unwrap_or(&query.class);
        let Calls { around, edit, depth, plain } = self.calls;
        let (word, is_same) = match &source.start {
            Start::Text(bytes) => {
                let text = self.text.copy(bytes, at_end).unwrap_or(bytes);
                let call = |file, lent: Lent| match source.depth {
                    DEFAULT_DEPTH if self.turn % 2 == 0 => plain(text, archive, file, name, class, lent),
                    asked => compare_without_word(text, archive, depth(asked), file, name, class, lent),
                };
                (around(&call, which, lent), text == &bytes[..])
            }
            Start::Chain(start_up) => {
                let texts = self.start_up.lend(start_up, at_end);
                let call = |file, lent: Lent| compare_default_without_word(&edit(texts), archive, file, name, class, lent);
                (around(&call, which, lent), holds(&texts, start_up))
            }
        };
        if !is_same || archive != &source.archive[..] || name != &query.name[..] || class != &query.class[..] {
            return Err("the port changed what it reads".to_string());
        }
        Ok((word, first, second))
    }

    /// The same by the model: 1 for any buffer that is too short, then the first reading, the file, the
    /// second reading, and the lookups, whose refusals are the call's.
    fn models_words(&mut self, source: &Source, which: usize, query: &Query, room: Room) -> Words {
        let (first, second) = self.lent_words();
        let refused = |number: u64| (number, first, second);
        let length = self.struck_length(source, room);
        if length < source.archive.len() || room.without.words < CONTENTS_WORDS || room.without.bytes < BODIES_BYTES {
            return refused(1);
        }
        if let Err(number) = self.with_it.models_read(source) {
            return refused(number.into());
        }
        if which >= judge(&source.archive).expect("the archive of an accepted reading").files.len() {
            return refused(NO_FILE);
        }
        let struck = source.struck(which);
        let start = self.models_struck.len() - length;
        self.models_struck[start..start + struck.archive.len()].copy_from_slice(&struck.archive);
        self.without.models_read(&struck).expect("a reading that is accepted with the file");
        let look_up = |both: &Both| {
            let (contents, bodies) = both.models_image();
            lookup::get_bytes(contents, bodies, &query.name, &query.class)
        };
        match (look_up(&self.with_it), look_up(&self.without)) {
            (Err(refusal), _) => refused(refusal.number().into()),
            (with_it, without) => (0, place_word(with_it), place_word(without)),
        }
    }
}

/// The bytes whose place a word tells in the port's image, or none.
fn found(word: u64, both: &mut Both) -> Result<Option<Vec<u8>>, String> {
    bytes_at(word, both.image().1).map(|found| found.map(<[u8]>::to_vec))
}

fn asked(query: &Query) -> String {
    format!("name {}, class {}", shown(&query.name), shown(&query.class))
}

//! The calls of a board beside the model: their words, the lent pack numbers and answers, every word and byte of both buffers and around them, and that what
//! is lent for reading stays as it was. Beside the buffers the history is kept, without any: what they hold and all that is asked is held to it too.

use crate::board_buffers::{Buffers, Garbage, Shape, SHAPES};
use crate::both;
use crate::fenced::Fenced;
use cases::boards::Turn;
use cases::images::Image;
use model::board::{self, Board, Found};
use model::limits::{Refusal, BODIES_BYTES, CONTENTS_WORDS, QUERIES, ROW_WORDS};
use records::Query;

pub type Make = fn(&mut [u16], &mut [u8]) -> u64;
pub type Watch = fn(&mut [u16], &mut [u8], &[u8], &[u8]) -> u64;
pub type Arrive = fn(&mut [u16], &mut [u8], u16, &[u16], &[u8]) -> u64;
pub type Leave = fn(&mut [u16], &mut [u8], u16) -> u64;
pub type Answer = fn(&[u16], &[u8], u16, &mut u16) -> u64;
pub type Answers = fn(&[u16], &[u8], &mut [u64; QUERIES], &mut [u16; QUERIES]) -> u64;
pub type Report = fn(&[u16], &[u8], u16) -> u64;

/// The calls of the port, or faulty ones in their place.
#[derive(Clone, Copy)]
pub struct Calls {
    pub make: Make,
    pub watch: Watch,
    pub arrive: Arrive,
    pub leave: Leave,
    pub answer: Answer,
    pub answers: Answers,
    pub report: Report,
}

pub const PORTS: Calls = Calls {
    make: port::board_make_word,
    watch: port::board_watch_word,
    arrive: port::board_arrive_word,
    leave: port::board_leave_word,
    answer: port::board_answer_word,
    answers: port::board_answers_word,
    report: port::board_report_word,
};

const NONE: u64 = 65_535;
const REFUSALS: usize = 15;
const IMAGE_PAGES: usize = 9;
const QUERY_PAGES: usize = 1;

#[derive(Default)]
pub struct Counts {
    histories: usize,
    changes: usize,
    values: usize,
    none: usize,
    at_once: usize,
    reports: usize,
    bits: usize,
    by_history: usize,
    refused: [usize; REFUSALS],
}

impl Counts {
    /// What was compared; an error if nothing was.
    pub fn report(&self) -> Result<String, String> {
        let Self { histories, changes, values, none, at_once, reports, bits, by_history, refused } = self;
        if [changes, values, none, at_once, reports, bits, by_history].contains(&&0) {
            return Err("too little was compared".to_string());
        }
        let by_number = refused.iter().enumerate().filter(|(_, count)| **count > 0);
        let by_number: String = by_number.map(|(number, count)| format!(", {count} refused by {number}")).collect();
        Ok(format!(
            "{histories} histories, {changes} calls that change a board, {values} answers with a value and {none} without, {at_once} \
             times all at once, {reports} reports with {bits} bits{by_number}, beside the model; {by_history} times all of it by the \
             history without buffers"
        ))
    }
}

/// What a call gives: the port's word, the model's, and the history's if there is one.
struct Given {
    port: u64,
    model: Result<u64, Refusal>,
    history: Option<Result<u64, Refusal>>,
}

pub struct Boards {
    calls: Calls,
    buffers: Buffers,
    garbage: Garbage,
    /// What was kept by all calls since a making, until somebody else writes into the buffers.
    history: Option<Board>,
    contents: Fenced,
    bodies: Fenced,
    name: Fenced,
    class: Fenced,
    answers: Fenced,
    packs: Fenced,
    arrivals: usize,
    pub counts: Counts,
}

impl Boards {
    pub fn new(calls: Calls, seed: u64) -> Self {
        Self {
            calls,
            buffers: Buffers::new(),
            garbage: Garbage::new(seed),
            history: None,
            contents: Fenced::new(IMAGE_PAGES),
            bodies: Fenced::new(IMAGE_PAGES),
            name: Fenced::new(QUERY_PAGES),
            class: Fenced::new(QUERY_PAGES),
            answers: Fenced::new(QUERY_PAGES),
            packs: Fenced::new(QUERY_PAGES),
            arrivals: 0,
            counts: Counts::default(),
        }
    }

    /// Lends buffers like this, full of garbage: no board is there.
    pub fn lend(&mut self, shape: Shape) {
        self.buffers.lend(shape, self.garbage.next());
        self.history = None;
    }

    /// One history, in the next of the shapes. After each turn all that can be asked is asked, but for arrivals in a row in a long one.
    pub fn see(&mut self, history: &[Turn]) -> Result<(), String> {
        self.counts.histories += 1;
        self.lend(SHAPES[self.counts.histories % SHAPES.len()]);
        for (number, turn) in history.iter().enumerate() {
            let in_a_row =
                history.len() > 20 && matches!((turn, history.get(number + 1)), (Turn::Arrive(..), Some(Turn::Arrive(..))));
            let asked = self.change(turn).and_then(|()| if in_a_row { Ok(()) } else { self.ask_all() });
            asked.map_err(|why| {
                let turns: Vec<String> = history[..=number].iter().map(shown).collect();
                format!("{}: {why}", turns.join(", "))
            })?;
        }
        Ok(())
    }

    /// One turn, beside the model and the history.
    pub fn change(&mut self, turn: &Turn) -> Result<(), String> {
        let Given { port, model, history } = match turn {
            Turn::Make => self.make(),
            Turn::Watch(query) => self.watch(query)?,
            Turn::Arrive(number, image) => self.arrive(*number, image)?,
            Turn::Leave(number) => self.leave(*number),
            Turn::Word(at, word) => return self.damage(|words, _| words[*at] = *word),
            Turn::Byte(at, byte) => return self.damage(|_, bytes| bytes[*at] = *byte),
        };
        if let Some(history) = history.filter(|history| *history != model) {
            return Err(format!("in buffers the model gives {model:?}, by the history {history:?}"));
        }
        self.told(port, model)?;
        self.counts.changes += usize::from(model.is_ok());
        self.buffers.same()
    }

    fn make(&mut self) -> Given {
        let (words, bytes) = self.buffers.port();
        let port = (self.calls.make)(words, bytes);
        let (words, bytes) = self.buffers.model();
        let model = board::make(words, bytes).map(|()| 0);
        if model.is_ok() {
            self.history = Some(Board::default());
        }
        Given { port, model, history: None }
    }

    fn watch(&mut self, Query { name, class }: &Query) -> Result<Given, String> {
        let at_end = self.buffers.shape.at_end;
        let lent_name = self.name.copy(name, at_end).ok_or("a name too long")?;
        let lent_class = self.class.copy(class, at_end).ok_or("a class too long")?;
        let (words, bytes) = self.buffers.port();
        let port = (self.calls.watch)(words, bytes, lent_name, lent_class);
        if lent_name != &name[..] || lent_class != &class[..] {
            return Err("the port changed a query".to_string());
        }
        let number = |query: usize| (query as u64) << 16;
        let (words, bytes) = self.buffers.model();
        let model = board::watch(words, bytes, name, class).map(number);
        let history = self.history.as_mut().map(|board| board.watch(name, class).map(number));
        Ok(Given { port, model, history })
    }

    fn arrive(&mut self, number: u16, image: &Image) -> Result<Given, String> {
        let Image { contents, bodies } = self.as_lent(image);
        let at_end = self.buffers.shape.at_end;
        let lent_contents = copied(&mut self.contents, &contents, at_end);
        let lent_bodies = self.bodies.copy(&bodies, at_end).ok_or("bodies too long")?;
        let (words, bytes) = self.buffers.port();
        let port = (self.calls.arrive)(words, bytes, number, lent_contents, lent_bodies);
        if lent_contents != &contents[..] || lent_bodies != &bodies[..] {
            return Err("the port changed the arriving image".to_string());
        }
        // What becomes of it afterwards is not seen.
        self.contents.words().fill(0x5A5A);
        self.bodies.bytes().fill(0x5A);
        let (words, bytes) = self.buffers.model();
        let model = board::arrive(words, bytes, number, &contents, &bodies).map(|()| 0);
        let history = self.history.as_mut().map(|board| board.arrive(number, &contents, &bodies).map(|()| 0));
        Ok(Given { port, model, history })
    }

    /// An arriving image, now and then with garbage where no entries are, and in longer buffers. What is too short stays so.
    fn as_lent(&mut self, image: &Image) -> Image {
        self.arrivals += 1;
        let Image { mut contents, mut bodies } = image.clone();
        if contents.len() >= CONTENTS_WORDS && bodies.len() >= BODIES_BYTES {
            let (words, bytes) = self.garbage.next();
            if self.arrivals % 3 == 0 {
                let rows = (2 + ROW_WORDS * usize::from(contents[0])).min(contents.len());
                let used = usize::from(contents[1]).min(bodies.len());
                contents[rows..].iter_mut().zip(&words[rows..]).for_each(|(to, word)| *to = *word);
                bodies[used..].iter_mut().zip(&bytes[used..]).for_each(|(to, byte)| *to = *byte);
            }
            if self.arrivals % 5 == 0 {
                contents.extend(&words[..9]);
                bodies.extend(&bytes[..9]);
            }
        }
        Image { contents, bodies }
    }

    fn leave(&mut self, number: u16) -> Given {
        let (words, bytes) = self.buffers.port();
        let port = (self.calls.leave)(words, bytes, number);
        let (words, bytes) = self.buffers.model();
        let model = board::leave(words, bytes, number).map(|()| 0);
        let history = self.history.as_mut().map(|board| board.leave(number).map(|()| 0));
        Given { port, model, history }
    }

    /// Somebody else writes into both: what the history says is then not known.
    fn damage(&mut self, write: impl Fn(&mut [u16], &mut [u8])) -> Result<(), String> {
        let (words, bytes) = self.buffers.port();
        write(words, bytes);
        let (words, bytes) = self.buffers.model();
        write(words, bytes);
        self.history = None;
        Ok(())
    }

    /// Every query that is there and some that are not, all of them at once, and a report of every pack that is there and of some that are not.
    pub fn ask_all(&mut self) -> Result<(), String> {
        let board = self.held()?;
        let answers = board.as_ref().map(Board::answers).map_err(|refusal| *refusal);
        self.ask_one_by_one(&answers)?;
        self.ask_at_once(&answers)?;
        self.ask_reports(&board)?;
        self.buffers.same()
    }

    /// The board of which all is asked: the history's where there is one, and then the packs and queries that the buffers hold are its own.
    fn held(&mut self) -> Result<Result<Board, Refusal>, String> {
        let (words, bytes) = self.buffers.port();
        let held = board::read_board(words, bytes);
        let Some(history) = &self.history else { return Ok(held) };
        if held.as_ref() != Ok(history) {
            return Err("the buffers hold other packs or queries than the history".to_string());
        }
        self.counts.by_history += 1;
        Ok(Ok(history.clone()))
    }

    fn ask_one_by_one(&mut self, model: &Result<Vec<Option<Found>>, Refusal>) -> Result<(), String> {
        let queries = model.as_ref().map_or(1, Vec::len) as u16;
        for query in (0..queries).chain([queries, QUERIES as u16, u16::MAX]) {
            let mut pack = 0xA5A5;
            let (words, bytes) = self.buffers.port();
            let word = (self.calls.answer)(words, bytes, query, &mut pack);
            let found = model.as_ref().map(|all| all.get(usize::from(query)).copied().flatten()).map_err(|refusal| *refusal);
            self.told(word, found.map(word_of)).map_err(|why| format!("query {query}: {why}"))?;
            let number = found.ok().flatten().map_or(0xA5A5, |found| found.pack);
            if pack != number {
                return Err(format!("query {query}: the port leaves pack {pack}, the model {number}"));
            }
            match found {
                Ok(Some(_)) => self.counts.values += 1,
                Ok(None) => self.counts.none += 1,
                Err(_) => {}
            }
        }
        Ok(())
    }

    /// Into two arrays at a fence, with garbage in them and around them.
    fn ask_at_once(&mut self, model: &Result<Vec<Option<Found>>, Refusal>) -> Result<(), String> {
        let (answers, packs) = (self.answers.numbers(), self.packs.words());
        let shape = self.buffers.shape;
        let (at, packs_at) = (shape.place(QUERIES, answers.len()), shape.place(QUERIES, packs.len()));
        answers.iter_mut().enumerate().for_each(|(n, answer)| *answer = 0xA5A5_A5A5_A5A5 + n as u64);
        packs.iter_mut().enumerate().for_each(|(n, pack)| *pack = 0xA5A5 ^ n as u16);
        let (mut expected, mut expected_packs) = (answers.to_vec(), packs.to_vec());
        if let Ok(all) = model {
            for query in 0..QUERIES {
                let found = all.get(query).copied().flatten();
                expected[at.start + query] = word_of(found);
                if let Some(found) = found {
                    expected_packs[packs_at.start + query] = found.pack;
                }
            }
        }
        let (words, bytes) = self.buffers.port();
        let word = (self.calls.answers)(
            words,
            bytes,
            (&mut answers[at.clone()]).try_into().expect("an array of answers"),
            (&mut packs[packs_at.clone()]).try_into().expect("an array of pack numbers"),
        );
        let differs = |n: usize, start: usize| n as isize - start as isize;
        if let Some(n) = (0..answers.len()).find(|n| answers[*n] != expected[*n]) {
            let (port, model) = (both::shown(answers[n]), both::shown(expected[n]));
            return Err(format!("all at once: answer {} of the port is {port}, of the model {model}", differs(n, at.start)));
        }
        if let Some(n) = (0..packs.len()).find(|n| packs[*n] != expected_packs[*n]) {
            let (port, model) = (packs[n], expected_packs[n]);
            return Err(format!("all at once: the port leaves pack {port} at {}, the model {model}", differs(n, packs_at.start)));
        }
        self.counts.at_once += usize::from(model.is_ok());
        let count = model.as_ref().map(|all| (all.len() as u64) << 16).map_err(|refusal| *refusal);
        self.told(word, count).map_err(|why| format!("all at once: {why}"))
    }

    fn ask_reports(&mut self, model: &Result<Board, Refusal>) -> Result<(), String> {
        let packs: Vec<u16> = model.iter().flat_map(|board| &board.packs).map(|pack| pack.number).collect();
        for number in packs.into_iter().chain([0, 4_242]) {
            let (words, bytes) = self.buffers.port();
            let word = (self.calls.report)(words, bytes, number);
            let bits = model.as_ref().map_err(|refusal| *refusal).and_then(|board| board.report(number));
            self.told(word, bits.map(|bits| u64::from(bits) << 32)).map_err(|why| format!("report of {number}: {why}"))?;
            if let Ok(bits) = bits {
                self.counts.reports += 1;
                self.counts.bits += bits.count_ones() as usize;
            }
        }
        Ok(())
    }

    /// Holds a word of the port to the model's.
    fn told(&mut self, word: u64, model: Result<u64, Refusal>) -> Result<(), String> {
        let expected = model.unwrap_or_else(|refusal| u64::from(refusal.number()));
        if word != expected {
            return Err(format!("the port answers {}, the model {}", both::shown(word), both::shown(expected)));
        }
        if let Err(refusal) = model {
            self.counts.refused[usize::from(refusal.number())] += 1;
        }
        Ok(())
    }
}

/// An answer's word.
fn word_of(found: Option<Found>) -> u64 {
    found.map_or(NONE, |Found { place, .. }| (place.start as u64) << 16 | (place.length as u64) << 32)
}

/// A copy of the words that stands at one of the fences.
fn copied<'a>(room: &'a mut Fenced, words: &[u16], at_end: bool) -> &'a [u16] {
    let room = room.words();
    let start = if at_end { room.len() - words.len() } else { 0 };
    let place = &mut room[start..start + words.len()];
    place.copy_from_slice(words);
    place
}

fn shown(turn: &Turn) -> String {
    match turn {
        Turn::Make => "make".to_string(),
        Turn::Watch(query) => {
            format!("watch {:?} {:?}", query.name.escape_ascii().to_string(), query.class.escape_ascii().to_string())
        }
        Turn::Arrive(number, image) => format!("arrive {number} {:?}", &image.contents[..image.contents.len().min(6)]),
        Turn::Leave(number) => format!("leave {number}"),
        Turn::Word(at, word) => format!("word {at} is {word}"),
        Turn::Byte(at, byte) => format!("byte {at} is {byte}"),
    }
}

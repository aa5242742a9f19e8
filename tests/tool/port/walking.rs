//! The calls of document 02 (v) beside the model: their words, the state of a walk, and every word and byte of what is lent and
//! around it. What a walk lists, and which entry a text makes, is held to the Rust too.

use crate::both::{self, Both};
use crate::fenced::Fenced;
use crate::run::shown;
use cases::images::Image;
use cases::walks::{State, Turn};
use model::limits::ROW_WORDS;
use model::line::read_key;
use model::matching::{all_rows, positions};
use model::query::split;
use model::{adding, walking};
use records::Query;

pub type Start = fn(&[u16], &[u8], &[u8], &[u8], &mut u16, &mut u16) -> u64;
pub type Step = fn(&[u16], &[u8], &[u8], &[u8], &mut u16, u16) -> u64;
pub type Add = fn(&mut [u16], &mut [u8], &[u8]) -> u64;

/// The calls of the port, or faulty ones in their place.
#[derive(Clone, Copy)]
pub struct Calls {
    pub start: Start,
    pub step: Step,
    pub add: Add,
}

pub const PORTS: Calls = Calls { start: port::walk_start_word, step: port::walk_step_word, add: port::add_word };

/// The number of an entry, none at the end, or the refusal's number.
pub type Stepped = Result<Option<usize>, u8>;

/// The number of the added entry, or the refusal's number.
pub type Added = Result<usize, u8>;

const END: u64 = 65_535;
const REFUSALS: usize = 13;
const QUERY_PAGES: usize = 1;
const TEXT_PAGES: usize = 9;
const STATE_PAGES: usize = 1;

/// Keys and queries of up to this many parts have few alignments.
const FEW_PARTS: usize = 6;

#[derive(Default)]
pub struct Counts {
    walks: usize,
    /// Walks of which it is known what they must list, and by the Rust.
    known: usize,
    by_the_rust: usize,
    numbers: usize,
    ends: usize,
    added: usize,
    added_by_the_rust: usize,
    refused: [usize; REFUSALS],
}

impl Counts {
    /// What was compared; an error if nothing was.
    pub fn report(&self) -> Result<String, String> {
        let Self { walks, known, by_the_rust, numbers, ends, added, added_by_the_rust, refused } = self;
        let all_refused: usize = refused.iter().sum();
        if numbers + ends == 0 || numbers + added == 0 {
            return Err("too little was compared".to_string());
        }
        let by_number = refused.iter().enumerate().filter(|(_, count)| **count > 0);
        let by_number: String = by_number.map(|(number, count)| format!(", {count} by {number}")).collect();
        let rust = match cfg!(feature = "rust") {
            true => format!("{by_the_rust} walks and {added_by_the_rust} texts beside the Rust"),
            false => "none beside the Rust".to_string(),
        };
        Ok(format!(
            "{walks} walks begun, {numbers} numbers and {ends} ends, {added} entries added, {all_refused} calls refused{by_number}, \
             beside the model; {known} walks held to what they must list; {rust}"
        ))
    }
}

/// A walk that goes on.
struct Begun {
    query: Query,
    state: State,
    steps: usize,
    listed: Vec<usize>,
    /// What it must list, if that is known.
    all: Option<Vec<usize>>,
}

pub struct Walking {
    calls: Calls,
    /// Whether the model stands beside the port, or the Rust alone.
    with_model: bool,
    pub both: Both,
    name: Fenced,
    class: Fenced,
    text: Fenced,
    next: Fenced,
    count: Fenced,
    turn: usize,
    #[cfg(feature = "rust")]
    rusts: rusts::Rusts,
    pub counts: Counts,
}

impl Walking {
    pub fn new(calls: Calls) -> Self {
        Self {
            calls,
            with_model: true,
            both: Both::new(both::PORTS),
            name: Fenced::new(QUERY_PAGES),
            class: Fenced::new(QUERY_PAGES),
            text: Fenced::new(TEXT_PAGES),
            next: Fenced::new(STATE_PAGES),
            count: Fenced::new(STATE_PAGES),
            turn: 0,
            #[cfg(feature = "rust")]
            rusts: rusts::Rusts::default(),
            counts: Counts::default(),
        }
    }

    /// With the Rust alone beside the port.
    pub fn by_the_rust(calls: Calls) -> Self {
        Self { with_model: false, ..Self::new(calls) }
    }

    /// Compares one turn after another, each in what the one before left.
    pub fn see(&mut self, image: &Image, turns: &[Turn]) -> Result<(), String> {
        self.lend(image);
        let mut walk = None;
        turns.iter().enumerate().try_for_each(|(at, turn)| {
            self.play(turn, &mut walk).map_err(|why| {
                let said: Vec<String> = turns[..=at].iter().rev().take(8).rev().map(told).collect();
                format!("contents {:?}.., {} turns, the last {}: {why}", &image.contents[..11], at + 1, said.join("; "))
            })
        })
    }

    fn play(&mut self, turn: &Turn, walk: &mut Option<Begun>) -> Result<(), String> {
        match turn {
            Turn::Start(query) => {
                let state = self.start(query)?;
                *walk = state.ok().map(|state| self.begun(query, state));
                Ok(())
            }
            Turn::Step => walk.as_mut().map_or(Ok(()), |walk| self.walk_on(walk)),
            Turn::From(query, state) => self.step(query, *state).map(drop),
            Turn::Add(text) => self.add(text).map(drop),
        }
    }

    fn begun(&mut self, query: &Query, state: State) -> Begun {
        let all = self.all_aligned(query);
        self.counts.known += usize::from(all.is_some());
        Begun { query: query.clone(), state, steps: 0, listed: Vec::new(), all }
    }

    /// After so many steps, the first so many of the numbers that it must list are listed, whatever was added.
    fn walk_on(&mut self, walk: &mut Begun) -> Result<(), String> {
        let (answer, state) = self.step(&walk.query, walk.state)?;
        walk.steps += 1;
        walk.state = state;
        walk.listed.extend(answer.map_err(|number| format!("a step of a walk is refused by {number}"))?);
        let Some(all) = &walk.all else { return Ok(()) };
        if walk.listed != all[..walk.steps.min(all.len())] {
            return Err(format!("after {} steps {:?} are listed, of {all:?}", walk.steps, walk.listed));
        }
        Ok(())
    }

    /// Lends the image to both, now and then in longer buffers, and with garbage where no entries are.
    pub fn lend(&mut self, image: &Image) {
        let turn = self.turn;
        let Image { mut contents, mut bodies } = image.clone();
        if turn % 3 == 0 {
            let rows = (2 + ROW_WORDS * usize::from(contents[0])).min(contents.len());
            let used = usize::from(contents[1]).min(bodies.len());
            contents[rows..].fill(0xA5C3 ^ turn as u16);
            bodies[used..].fill(turn as u8);
        }
        if turn % 5 == 0 {
            contents.extend([0x5A5A; 9]);
            bodies.extend([b'a'; 9]);
        }
        self.lend_slices(&contents, &bodies);
    }

    /// Lends slices, which may be too short for an image.
    pub fn lend_slices(&mut self, contents: &[u16], bodies: &[u8]) {
        self.turn += 1;
        self.both.put_image(contents, bodies, self.turn % 2 == 0);
    }

    /// Compares a start: the state that it leaves, or the refusal's number.
    pub fn start(&mut self, query: &Query) -> Result<Result<State, u8>, String> {
        let lent = State { next: 0x7A31 ^ self.turn as u16, count: 0x3C17 ^ self.turn as u16 };
        let start = self.calls.start;
        let (word, left) = self.call(query, lent, |c, b, n, k, next, count| start(c, b, n, k, next, count))?;
        let answer = match word {
            0 => Ok(left),
            refused => Err(refusal(refused)?),
        };
        self.counts.walks += usize::from(answer.is_ok());
        self.count_refusal(answer.err());
        if self.with_model {
            let (contents, bodies) = self.both.models_image();
            let models = walking::start(contents, bodies, &query.name, &query.class).map_err(|refusal| refusal.number());
            let state = models.map_or(lent, |walk| State { next: walk.next as u16, count: walk.count as u16 });
            let models = models.map(|_| state);
            if (answer, left) != (models, state) {
                return Err(format!("the start gives {answer:?} and leaves {left:?}, the model's {models:?} and {state:?}"));
            }
        }
        Ok(answer)
    }

    /// Compares a step: what it gives, and the state that it leaves.
    pub fn step(&mut self, query: &Query, state: State) -> Result<(Stepped, State), String> {
        let step = self.calls.step;
        let (word, left) = self.call(query, state, |c, b, n, k, next, count| step(c, b, n, k, next, *count))?;
        let answer = match word {
            END => Ok(None),
            number if number & 0xFFFF == 0 && number >> 32 == 0 => Ok(Some((number >> 16) as usize)),
            refused => Err(refusal(refused)?),
        };
        match answer {
            Ok(Some(_)) => self.counts.numbers += 1,
            Ok(None) => self.counts.ends += 1,
            Err(number) => self.count_refusal(Some(number)),
        }
        if self.with_model {
            let (contents, bodies) = self.both.models_image();
            let mut walk = walking::Walk { next: state.next.into(), count: state.count.into() };
            let models = walking::step(contents, bodies, &query.name, &query.class, &mut walk);
            let models = models.map_err(|refusal| refusal.number());
            let after = State { next: walk.next as u16, count: walk.count as u16 };
            if (answer, left) != (models, after) {
                return Err(format!("the step gives {answer:?} and leaves {left:?}, the model's {models:?} and {after:?}"));
            }
        }
        Ok((answer, left))
    }

    /// Calls the port with a query and a state at the fences, and gives its word and the state afterwards.
    fn call(
        &mut self,
        query: &Query,
        state: State,
        call: impl FnOnce(&[u16], &[u8], &[u8], &[u8], &mut u16, &mut u16) -> u64,
    ) -> Result<(u64, State), String> {
        self.turn += 1;
        let at_end = self.turn % 2 == 0;
        let name = self.name.copy(&query.name, at_end).unwrap_or(&query.name);
        let class = self.class.copy(&query.class, at_end).unwrap_or(&query.class);
        let garbage = 0x5AC3 ^ self.turn as u16;
        let place = |words: &[u16]| if at_end { words.len() - 1 } else { 0 };
        let (next, count) = (self.next.words(), self.count.words());
        for (words, number) in [(&mut *next, state.next), (&mut *count, state.count)] {
            words.fill(garbage);
            words[place(words)] = number;
        }
        let (contents, bodies) = self.both.image();
        let at = place(next);
        let word = call(contents, bodies, name, class, &mut next[at], &mut count[at]);
        if name != query.name || class != query.class {
            return Err("the port changed what it reads".to_string());
        }
        let left = State { next: next[at], count: count[at] };
        let guarded = next.iter().chain(&*count).filter(|word| **word == garbage).count();
        let own = [left.next, left.count].iter().filter(|word| **word == garbage).count();
        if guarded != next.len() + count.len() - 2 + own {
            return Err("a word beside the state is changed".to_string());
        }
        if self.with_model {
            self.both.same_buffers()?;
        }
        Ok((word, left))
    }

    /// Compares an addition.
    pub fn add(&mut self, text: &[u8]) -> Result<Added, String> {
        self.turn += 1;
        // What is too long for the fenced memory is lent where it is.
        let lent = self.text.copy(text, self.turn % 2 == 0).unwrap_or(text);
        let (contents, bodies) = self.both.image_mut();
        let word = (self.calls.add)(contents, bodies, lent);
        if lent.len() < 65_536 && lent != text {
            return Err("the port changed what it reads".to_string());
        }
        let answer = match word {
            number if number & 0xFFFF == 0 && number >> 32 == 0 => Ok((number >> 16) as usize),
            refused => Err(refusal(refused)?),
        };
        self.counts.added += usize::from(answer.is_ok());
        self.count_refusal(answer.err());
        if self.with_model {
            let (contents, bodies) = self.both.models_image_mut();
            let models = adding::add(contents, bodies, text).map_err(|refusal| refusal.number());
            if answer != models {
                return Err(format!("the addition gives {answer:?}, the model's {models:?}"));
            }
            self.both.same_buffers()?;
        }
        #[cfg(feature = "rust")]
        {
            self.counts.added_by_the_rust += usize::from(rusts::is_added(&mut self.both, text, answer)?);
        }
        Ok(answer)
    }

    fn count_refusal(&mut self, refused: Option<u8>) {
        if let Some(number) = refused {
            self.counts.refused[usize::from(number)] += 1;
        }
    }

    /// The numbers of the entries that align: by the Rust, which finds a value in just such an entry alone; else by all alignments,
    /// where they are few.
    fn all_aligned(&mut self, query: &Query) -> Option<Vec<usize>> {
        let keys: Vec<Vec<u8>> = self.both.entries().iter().map(|(key, _)| key.to_vec()).collect();
        #[cfg(feature = "rust")]
        if let Some(all) = self.rusts.aligned(&keys, query) {
            self.counts.by_the_rust += 1;
            return Some(all);
        }
        by_all_alignments(&keys, query)
    }
}

/// The number of a refusal, if a word is one.
fn refusal(word: u64) -> Result<u8, String> {
    if (1..REFUSALS as u64).contains(&word) {
        return Ok(word as u8);
    }
    Err(format!("the word {word:#x}"))
}

fn by_all_alignments(keys: &[Vec<u8>], query: &Query) -> Option<Vec<usize>> {
    let (Some(name), Some(class)) = (split(&query.name), split(&query.class)) else { return Some(Vec::new()) };
    let positions = positions(&name, &class);
    if positions.len() > FEW_PARTS {
        return None;
    }
    let aligns = |key: &Vec<u8>| {
        let key = read_key(key).expect("a key");
        (key.len() <= FEW_PARTS).then(|| !all_rows(&key, &positions).is_empty())
    };
    let aligned: Option<Vec<bool>> = keys.iter().map(aligns).collect();
    Some(aligned?.iter().enumerate().filter(|(_, aligns)| **aligns).map(|(number, _)| number).collect())
}

fn told(turn: &Turn) -> String {
    let query = |query: &Query| format!("{}, {}", shown(&query.name), shown(&query.class));
    match turn {
        Turn::Start(of) => format!("start {}", query(of)),
        Turn::Step => "step".to_string(),
        Turn::From(of, State { next, count }) => format!("step from {next}, {count} {}", query(of)),
        Turn::Add(text) => format!("add {}", shown(&text[..text.len().min(99)])),
    }
}

#[cfg(feature = "rust")]
mod rusts {
    use super::Added;
    use crate::both::Both;
    use crate::rust::{listed, texts};
    use cases::admitted::admitted_query;
    use model::limits::{BODIES_BYTES, ENTRIES, KEY_PARTS};
    use model::line::{read_key, Part};
    use oracle::resource_manager::Database;
    use records::Query;
    use std::collections::HashMap;

    /// The Rust's database of each key alone.
    #[derive(Default)]
    pub struct Rusts(HashMap<Vec<u8>, (Database, Vec<Part>)>);

    impl Rusts {
        /// The numbers of the keys in which the Rust finds a value, or none where it is not asked.
        pub fn aligned(&mut self, keys: &[Vec<u8>], query: &Query) -> Option<Vec<usize>> {
            for key in keys {
                self.0.entry(key.clone()).or_insert_with(|| {
                    let text = [key, b":".as_slice()].concat();
                    (Database::new_from_data(&text), read_key(key).expect("a key"))
                });
            }
            admitted_query(query, keys.iter().map(|key| &self.0[key].1[..])).ok()?;
            let (name, class) = texts(query)?;
            let finds = |number: &usize| self.0[&keys[*number]].0.get_bytes(name, class).is_some();
            Some((0..keys.len()).filter(finds).collect())
        }
    }

    /// Whether an addition was held to the Rust: the entry that it reads is the one that was added, or the addition is refused for
    /// what the Rust reads.
    pub fn is_added(both: &mut Both, text: &[u8], answer: Added) -> Result<bool, String> {
        if matches!(answer, Err(8 | 2)) {
            return Ok(false);
        }
        let rusts = listed(&Database::new_from_data(text));
        let held = both.entries();
        let used: usize = held.iter().map(|(key, value)| key.len() + value.len()).sum();
        let is_so = match (&rusts[..], answer) {
            ([(key, value)], Ok(number)) => held.len() == number + 1 && held[number] == (&key[..], &value[..]) && !is_wide(key),
            ([(key, _)], Err(5)) => is_wide(key),
            ([(key, _)], Err(6)) => !is_wide(key) && held.len() == ENTRIES,
            ([(key, value)], Err(7)) => !is_wide(key) && held.len() < ENTRIES && used + key.len() + value.len() > BODIES_BYTES,
            (others, Err(12)) => others.len() != 1,
            _ => false,
        };
        match is_so {
            true => Ok(true),
            false => Err(format!("the addition gives {answer:?}, and the Rust reads {} entries", rusts.len())),
        }
    }

    fn is_wide(key: &[u8]) -> bool {
        key.iter().filter(|b| b".*".contains(b)).count() > KEY_PARTS
    }
}

//! Document 02 (vii) through the real calls: a source and the same rearranged are read, and each query's answers in both images
//! must be alike where the request says so. Elsewhere some must differ, or the run would show nothing. The same of the Rust.

use crate::asking::{said, Asking, PORTS};
use crate::both::{self, Both};
use crate::run::{describe, shown, Run, Rusts};
use cases::admitted::LeftOut;
use cases::orders::Rearranged;
use records::Query;

#[cfg(feature = "rust")]
use crate::rust::{number, texts};
#[cfg(feature = "rust")]
use cases::admitted::admitted_query;

const DEFAULT: &[u8] = b"default";

/// Answers that must be alike, and others: how many were seen, and how many of them differ.
#[derive(Default)]
struct Answers {
    alike: usize,
    others: usize,
    differ: usize,
}

impl Answers {
    fn count(&mut self, must_be: bool, are: bool) {
        if must_be {
            self.alike += 1;
        } else {
            self.others += 1;
            self.differ += usize::from(!are);
        }
    }

    fn report(&self, of: &str) -> Result<String, String> {
        let Self { alike, others, differ } = self;
        if *alike == 0 || *differ == 0 {
            return Err(format!(
                "{of}: {alike} answers must be alike, and of {others} others {differ} differ: that shows nothing"
            ));
        }
        Ok(format!("{alike} answers of {of} alike, and {differ} of {others} others differ"))
    }
}

#[derive(Default)]
pub struct Counts {
    pairs: usize,
    refused: usize,
    ports: Answers,
    rusts: Answers,
}

impl Counts {
    pub fn report(&self) -> Result<String, String> {
        let Self { pairs, refused, ports, rusts } = self;
        let rusts = if cfg!(feature = "rust") { rusts.report("the Rust")? } else { "none of the Rust".to_string() };
        Ok(format!("{pairs} sources and their rearrangements, {refused} refused; {}; {rusts}", ports.report("the port")?))
    }
}

pub struct Orders {
    first: Run,
    second: Run,
    asking: Asking,
    pub counts: Counts,
}

impl Orders {
    /// The rooms are two directories.
    pub fn new(rooms: [&str; 2]) -> Self {
        let [first, second] = rooms.map(|room| Run::new(both::PORTS, room));
        Self { first, second, asking: Asking::new(PORTS), counts: Counts::default() }
    }

    pub fn see(&mut self, pair: &Rearranged, queries: &[Query]) -> Result<(), String> {
        self.compare(pair, queries)
            .map_err(|why| format!("{}\nrearranged: {}\n{why}", describe(&pair.first), describe(&pair.second)))
    }

    /// One is accepted exactly when the other is, with as many entries and opens.
    fn compare(&mut self, pair: &Rearranged, queries: &[Query]) -> Result<(), String> {
        let (answer, rusts) = self.first.compare(&pair.first)?;
        let (other, others) = self.second.compare(&pair.second)?;
        if answer.ok() != other.ok() {
            return Err(format!("answered {answer:?}, and rearranged {other:?}"));
        }
        self.counts.pairs += 1;
        if answer.is_err() {
            self.counts.refused += 1;
            return Ok(());
        }
        for query in queries {
            let asked = |why: String| format!("name {}, class {}: {why}", shown(&query.name), shown(&query.class));
            self.ask(pair.is_alike, query).map_err(asked)?;
            self.ask_the_rust(pair.is_alike, (&rusts, &others), query).map_err(asked)?;
        }
        Ok(())
    }

    fn ask(&mut self, must_be: bool, query: &Query) -> Result<(), String> {
        let words = self.asking.compare(&mut self.first.both, query)?;
        let others = self.asking.compare(&mut self.second.both, query)?;
        if words.refused() != others.refused() {
            return Err(format!("refused by {:?}, and rearranged by {:?}", words.refused(), others.refused()));
        }
        if words.refused().is_some() {
            return Ok(());
        }
        let shows = [&mut self.first.both, &mut self.second.both].map(|both| show(both, query));
        let first = said(words, self.first.both.image().1)?;
        let second = said(others, self.second.both.image().1)?;
        let are = first == second && shows[0] == shows[1];
        if must_be && !are {
            return Err(format!("{first:?} and {:?}, and rearranged {second:?} and {:?}", shows[0], shows[1]));
        }
        self.counts.ports.count(must_be, are);
        Ok(())
    }

    #[cfg(feature = "rust")]
    fn ask_the_rust(
        &mut self,
        must_be: bool,
        (first, second): (&Result<Rusts, LeftOut>, &Result<Rusts, LeftOut>),
        query: &Query,
    ) -> Result<(), String> {
        let (Ok(first), Ok(second)) = (first, second) else { return Ok(()) };
        let keys = |rusts: &Rusts| admitted_query(query, rusts.reading.entries.iter().map(|entry| &entry.key[..])).is_ok();
        if !keys(first) || !keys(second) {
            return Ok(());
        }
        let (name, class) = texts(query).expect("an admitted query");
        let [first, second] = [&first.database, &second.database].map(|database| {
            let strings = (database.get_bytes(name, class), database.get_string(name, class));
            (strings, database.get_bool(name, class), number(database, name, class))
        });
        if must_be && first != second {
            return Err(format!("the Rust answers {first:?}, and rearranged {second:?}"));
        }
        self.counts.rusts.count(must_be, first == second);
        Ok(())
    }

    #[cfg(not(feature = "rust"))]
    fn ask_the_rust(&mut self, _: bool, _: (&Result<Rusts, LeftOut>, &Result<Rusts, LeftOut>), _: &Query) -> Result<(), String> {
        Ok(())
    }
}

/// What the show call shows.
fn show(both: &mut Both, query: &Query) -> Vec<u8> {
    let (contents, bodies) = both.image();
    let mut part = DEFAULT;
    port::show_word(contents, bodies, &query.name, &query.class, &mut part);
    part.to_vec()
}

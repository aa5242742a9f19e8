//! A run over a family of cases: every reading beside the model, and beside the Rust where document
//! 01 admits it. Says what was compared and what was left out.

use crate::both::{word_of, Answer, Both, Calls, SHAPES};
use cases::admitted::LeftOut;
use model::archive::{judge, lay_out, File};
use model::startup::StartUp;
use records::{Source, Start};
use std::collections::BTreeMap;
use std::rc::Rc;

#[cfg(feature = "rust")]
use crate::both::shown as shown_word;
#[cfg(feature = "rust")]
use crate::rust::{listed, reads_at, Room};
#[cfg(feature = "rust")]
use cases::admitted::admitted_reading;
#[cfg(feature = "rust")]
use model::reading::Reading;
#[cfg(feature = "rust")]
use oracle::resource_manager::Database;

/// What the Rust and the definition read of a source that is admitted to the run.
#[cfg(feature = "rust")]
pub struct Rusts {
    pub database: Database,
    pub reading: Reading,
}

/// There is none if the Rust is not at hand.
#[cfg(not(feature = "rust"))]
pub enum Rusts {}

#[derive(Default)]
pub struct Counts {
    readings: usize,
    refused: BTreeMap<u8, usize>,
    pub beside_the_rust: usize,
    left_out: BTreeMap<LeftOut, usize>,
}

impl Counts {
    /// What was compared; an error if nothing was.
    pub fn report(&self) -> Result<String, String> {
        if self.readings == 0 {
            return Err("nothing was compared".to_string());
        }
        let refused: Vec<String> = self.refused.iter().map(|(number, count)| format!("{count} refused by {number}")).collect();
        let refused = if refused.is_empty() { String::new() } else { format!(" ({})", refused.join(", ")) };
        let reasons: Vec<String> = self.left_out.iter().map(|(why, count)| format!("{count} {why}")).collect();
        let left_out = if reasons.is_empty() { "nothing".to_string() } else { reasons.join(", ") };
        let Self { readings, beside_the_rust, .. } = self;
        Ok(format!(
            "{readings} readings{refused} beside the model, {beside_the_rust} beside the Rust; left out there: {left_out}"
        ))
    }
}

pub struct Run {
    pub both: Both,
    pub counts: Counts,
    #[cfg(feature = "rust")]
    room: Room,
}

impl Run {
    #[cfg(feature = "rust")]
    pub fn new(calls: Calls, room: &str) -> Self {
        Self { both: Both::new(calls), counts: Counts::default(), room: Room::new(room) }
    }

    #[cfg(not(feature = "rust"))]
    pub fn new(calls: Calls, _room: &str) -> Self {
        Self { both: Both::new(calls), counts: Counts::default() }
    }

    /// Compares one reading. A difference is told with the smallest source that was found to show one.
    pub fn see(&mut self, source: &Source) -> Result<Answer, String> {
        self.compare(source).map(|(answer, _)| answer).map_err(|why| {
            let (small, why) = smaller(source.clone(), why, |less| self.compare(less).err());
            format!("{}\nthey differ: {why}", describe(&small))
        })
    }

    /// Compares one reading, and gives what the Rust read, or why it was not asked.
    pub fn compare(&mut self, source: &Source) -> Result<(Answer, Result<Rusts, LeftOut>), String> {
        let answer = self.both.compare(source)?;
        self.counts.readings += 1;
        if let Err(number) = answer {
            *self.counts.refused.entry(number).or_default() += 1;
        }
        let rusts = self.compare_with_the_rust(source, word_of(answer))?;
        match &rusts {
            Err(why) => *self.counts.left_out.entry(why.clone()).or_default() += 1,
            Ok(_) => self.counts.beside_the_rust += 1,
        }
        Ok((answer, rusts))
    }

    /// Has the port read, and compares it with the Rust alone.
    pub fn see_by_the_rust(&mut self, source: &Source) -> Result<Result<Rusts, LeftOut>, String> {
        let word = self.both.call(source, SHAPES[0])?;
        self.compare_with_the_rust(source, word)
    }

    /// Compares what the port returned and left.
    #[cfg(feature = "rust")]
    fn compare_with_the_rust(&mut self, source: &Source, word: u64) -> Result<Result<Rusts, LeftOut>, String> {
        if !reads_at(source.depth) {
            return Ok(Err("readings at depths that the Rust was not altered to".to_string()));
        }
        let reading = match admitted_reading(source) {
            Ok(reading) => reading,
            Err(why) => return Ok(Err(why)),
        };
        let (database, opens) = self.room.read(source, &reading);
        let rusts = listed(&database);
        let rusts_word = word_of(Ok((rusts.len(), opens)));
        if word != rusts_word {
            return Err(format!("the port answers {}, the Rust {}", shown_word(word), shown_word(rusts_word)));
        }
        let ports = self.both.entries();
        if ports.len() != rusts.len() {
            return Err(format!("the contents count {} entries, the Rust has {}", ports.len(), rusts.len()));
        }
        for (number, ((key, value), (rusts_key, rusts_value))) in ports.iter().zip(&rusts).enumerate() {
            if key != rusts_key || value != rusts_value {
                let said = |key: &[u8], value: &[u8]| format!("{} = {}", shown(key), shown(value));
                return Err(format!(
                    "entry {number} is {} by the port, {} by the Rust",
                    said(key, value),
                    said(rusts_key, rusts_value)
                ));
            }
        }
        Ok(Ok(Rusts { database, reading }))
    }

    #[cfg(not(feature = "rust"))]
    fn compare_with_the_rust(&mut self, _: &Source, _: u64) -> Result<Result<Rusts, LeftOut>, String> {
        Ok(Err("readings, as the Rust is not at hand".to_string()))
    }
}

/// Leaves out of a source what can be left out while a difference shows, within some patience.
pub fn smaller(mut source: Source, mut why: String, mut differ: impl FnMut(&Source) -> Option<String>) -> (Source, String) {
    let mut patience = 20_000;
    loop {
        let less = shorter(&source).take(patience).find_map(|less| {
            patience -= 1;
            differ(&less).map(|why| (less, why))
        });
        match less {
            Some(less) => (source, why) = less,
            None => return (source, why),
        }
    }
}

/// The source with a piece of a text or of a file left out, or without a file, the larger pieces first.
fn shorter(source: &Source) -> impl Iterator<Item = Source> + '_ {
    let with = |archive: Vec<u8>| Source { archive, ..source.clone() };
    let texts = shorter_starts(&source.start).map(|start| Source { start, ..source.clone() });
    let bad = judge(&source.archive).is_none().then_some(&source.archive[..]);
    let bad = bad.into_iter().flat_map(without_a_piece).map(with);
    let files = judge(&source.archive).unwrap_or_default().files;
    let good = (0..files.len()).flat_map(move |which| {
        let mut others = files.clone();
        let File { name, body } = others.remove(which);
        let put_back = {
            let others = others.clone();
            move |body| {
                let mut files = others.clone();
                files.insert(which, File { name: name.clone(), body });
                lay_out(&files)
            }
        };
        std::iter::once(lay_out(&others)).chain(without_a_piece(&body).map(put_back))
    });
    texts.chain(bad).chain(good.map(with))
}

fn shorter_starts(start: &Start) -> Box<dyn Iterator<Item = Start> + '_> {
    match start {
        Start::Text(text) => Box::new(without_a_piece(text).map(Start::Text)),
        Start::Chain(start_up) => {
            let property = without_a_piece(&start_up.property).map(|property| StartUp { property, ..start_up.clone() });
            let texts = TEXTS.into_iter().flat_map(move |(_, text)| {
                let bytes = text(&mut start_up.clone()).take();
                let less = bytes.into_iter().flat_map(|bytes| std::iter::once(None).chain(without_a_piece(&bytes).map(Some)));
                less.map(move |less| {
                    let mut changed = start_up.clone();
                    *text(&mut changed) = less;
                    changed
                })
            });
            Box::new(property.chain(texts).map(Start::Chain))
        }
    }
}

type TextOf = fn(&mut StartUp) -> &mut Option<Vec<u8>>;

/// The texts of a start-up that may be unreadable.
pub const TEXTS: [(&str, TextOf); 4] = [
    (".Xresources", |start_up| &mut start_up.xresources),
    (".Xdefaults", |start_up| &mut start_up.xdefaults),
    ("XENVIRONMENT's", |start_up| &mut start_up.xenvironment),
    ("the host's", |start_up| &mut start_up.host),
];

fn without_a_piece(bytes: &[u8]) -> impl Iterator<Item = Vec<u8>> {
    let bytes: Rc<[u8]> = bytes.into();
    let sizes = std::iter::successors(Some(bytes.len()), |size| Some(size / 2)).take_while(|size| *size > 0);
    sizes.flat_map(move |size| {
        let bytes = bytes.clone();
        (0..bytes.len()).step_by(size).map(move |at| [&bytes[..at], &bytes[(at + size).min(bytes.len())..]].concat())
    })
}

pub fn shown(bytes: &[u8]) -> String {
    let most = 300;
    let more = if bytes.len() > most { format!(".. {} bytes", bytes.len()) } else { String::new() };
    format!("\"{}\"{more}", bytes[..bytes.len().min(most)].escape_ascii())
}

pub fn describe(source: &Source) -> String {
    let start = match &source.start {
        Start::Text(text) => format!("text {}", shown(text)),
        Start::Chain(start_up) => described(start_up),
    };
    let start = format!("{start}, depth {}", source.depth);
    let Some(archive) = judge(&source.archive) else {
        return format!("{start}, archive {}", shown(&source.archive));
    };
    let files: Vec<String> = archive.files.iter().map(|file| format!("{} => {}", shown(&file.name), shown(&file.body))).collect();
    format!("{start}, files [{}]", files.join("; "))
}

fn described(start_up: &StartUp) -> String {
    let StartUp { format, property, xenvironment_set, .. } = start_up;
    let text = |(name, text): &(&str, TextOf)| match text(&mut start_up.clone()) {
        Some(bytes) => format!("{name} {}", shown(bytes)),
        None => format!("{name} unreadable"),
    };
    let set = if *xenvironment_set { "set" } else { "not set" };
    let texts = TEXTS.iter().map(text).collect::<Vec<_>>().join(", ");
    format!("property {} of format {format}, XENVIRONMENT {set}, {texts}", shown(property))
}

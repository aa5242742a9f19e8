//! Shows that the comparison tells slips in the path of an include, which finds another file then, or one that has another folder.
//! The port with a slip is the port with what it takes rewritten: each include names by dots, from the root, what the slip would
//! find, and a file of that body stands in the folder that the slip would give it. Where its lines stand is then told by the place that the
//! file had.

use crate::both::{Both, Calls, PORTS};
use crate::faults::{each_seen, status};
use crate::run::Run;
use cases::dotted;
use cases::readings::Extent;
use cases::slips::{slipped, Slip, SLIPS};
use model::archive::{judge, Archive};
use model::limits::{ARCHIVE_FILES, ROW_WORDS, TEXT_BYTES};
use model::line::{take_line, Line};
use model::paths::join;
use model::startup;
use port::{read_default_word, read_word, StartUp, Text};
use records::{archive_of, Source, Start};
use std::sync::OnceLock;

/// Slips that the Rust must tell with no model beside it: those that its part of the names can tell.
const SEEN_BY_THE_RUST: [Slip; 11] = [
    Slip::NoDots,
    Slip::NameAlone,
    Slip::DotRemoved,
    Slip::ThreeDots,
    Slip::TwoDotsBegin,
    Slip::BoundOnTheName,
    Slip::BoundOnTheWay,
    Slip::ResultCut,
    Slip::ThroughNoFolder,
    Slip::FolderOfTheWay,
    Slip::FolderOfTheText,
];

/// The rewriting by the right rule, which must not be told.
const NO_SLIP: &str = "names with dots rewritten";

/// The word with which a slip is held to the comparison of start-ups alone.
const START_UPS: &str = "start-ups";

/// The slip of this process.
static SLIP: OnceLock<Option<Slip>> = OnceLock::new();

/// Holds one slip to the comparison with the model or with the Rust, or none if there is no such slip.
pub fn one(label: &str, with: &str, room: &str) -> Option<Result<(), String>> {
    let slip = SLIPS.iter().find(|(_, of)| *of == label).map(|(slip, _)| Some(*slip));
    SLIP.set(slip.or((label == NO_SLIP).then_some(None))?).expect("one slip in a process");
    let calls = Calls { read, read_default, ..PORTS };
    Some(match with {
        "rust" => by_the_rust(calls, room),
        START_UPS => of_start_ups(calls),
        _ => of_main_texts(calls),
    })
}

/// Each slip in a process of its own, in main texts and in start-ups.
pub fn all_seen(room: &str) -> Result<String, String> {
    for with in ["both", "rust", START_UPS] {
        if status(NO_SLIP, with, room)?.code() != Some(0) {
            return Err(format!("{NO_SLIP}: another answer"));
        }
    }
    let labels = SLIPS.map(|(_, label)| label);
    let by_the_rust = SLIPS.iter().filter(|(slip, _)| SEEN_BY_THE_RUST.contains(slip)).map(|(_, label)| *label);
    let seen = each_seen(&labels, &[], &by_the_rust.collect::<Vec<_>>(), room)?;
    for label in labels {
        if status(label, START_UPS, room)?.code() != Some(1) {
            return Err(format!("not seen in start-ups: {label}"));
        }
    }
    Ok(format!("{seen}; all in start-ups too"))
}

fn of_main_texts(calls: Calls) -> Result<(), String> {
    let mut both = Both::new(calls);
    dotted::edges().iter().try_for_each(|edge| both.compare(&edge.source).map(drop))
}

/// The same texts, each as the host's.
fn of_start_ups(calls: Calls) -> Result<(), String> {
    let mut both = Both::new(calls);
    dotted::edges().iter().try_for_each(|edge| {
        let Start::Text(text) = &edge.source.start else { return Ok(()) };
        let start_up = startup::StartUp { host: Some(text.clone()), ..startup::StartUp::default() };
        both.compare(&Source::chain(start_up, edge.source.archive.clone())).map(drop)
    })
}

/// With no model: those chosen by hand, and all short names.
fn by_the_rust(calls: Calls, room: &str) -> Result<(), String> {
    let mut run = Run::new(calls, room);
    let mut see = |source: &Source| run.see_by_the_rust(source).map(drop);
    dotted::edges().iter().try_for_each(|edge| see(&edge.source))?;
    dotted::every_admitted_name(Extent { seed: 1, times: 1 }, &mut see)
}

fn read(text: &[u8], archive: &[u8], contents: &mut [u16], bodies: &mut [u8]) -> u64 {
    match rewritten(&[text], archive) {
        Some(Rewritten { texts, archive, places }) => {
            let word = read_word(&texts[0], &archive, contents, bodies);
            put_back(word, contents, &places)
        }
        None => read_word(text, archive, contents, bodies),
    }
}

fn read_default(s: &StartUp, archive: &[u8], contents: &mut [u16], bodies: &mut [u8]) -> u64 {
    let texts = [s.property, s.xresources.bytes, s.xdefaults.bytes, s.xenvironment.bytes, s.host.bytes];
    let Some(Rewritten { texts, archive, places }) = rewritten(&texts, archive) else {
        return read_default_word(s, archive, contents, bodies);
    };
    let text = |of: Text, at: usize| Text { bytes: &texts[at], ..of };
    let (xresources, xdefaults) = (text(s.xresources, 1), text(s.xdefaults, 2));
    let (xenvironment, host) = (text(s.xenvironment, 3), text(s.host, 4));
    let word = read_default_word(
        &StartUp { property: &texts[0], xresources, xdefaults, xenvironment, host, ..*s },
        &archive,
        contents,
        bodies,
    );
    put_back(word, contents, &places)
}

/// Says in each row of an accepted reading which place the file had before it was rewritten.
fn put_back(word: u64, contents: &mut [u16], places: &[u16]) -> u64 {
    if word & 0xFFFF == 0 {
        let count = usize::from(contents[0]);
        for row in contents[2..].chunks_mut(ROW_WORDS).take(count).filter(|row| row[3] != 0) {
            row[3] = places[usize::from(row[3]) - 1];
        }
    }
    word
}

struct Rewritten {
    texts: Vec<Vec<u8>>,
    archive: Vec<u8>,
    /// The place that each file had, from 1.
    places: Vec<u16>,
}

/// Texts and archive as the slip of this process finds its files; none where they do not fit.
fn rewritten(texts: &[&[u8]], archive: &[u8]) -> Option<Rewritten> {
    let mut rewriting = Rewriting { slip: *SLIP.get()?, archive: &judge(archive)?, found: Vec::new() };
    // A text that is too long is refused, or not looked at: it stays as it is.
    let is_long = |text: &[u8]| text.len() > TEXT_BYTES;
    let texts: Vec<Vec<u8>> =
        texts.iter().map(|text| if is_long(text) { text.to_vec() } else { rewriting.text(text, b"") }).collect();
    let mut files: Vec<(Vec<u8>, Vec<u8>)> = Vec::new();
    while let Some((file, folder)) = rewriting.found.get(files.len()).cloned() {
        if files.len() == ARCHIVE_FILES {
            return None;
        }
        files.push((rewriting.name(files.len()), rewriting.text(&rewriting.archive.files[file].body, &folder)));
    }
    let files: Vec<(&[u8], &[u8])> = files.iter().map(|(name, body)| (&name[..], &body[..])).collect();
    let archive = archive_of(&files);
    let place = |name: &[u8]| files.iter().position(|(of, _)| *of == name).map(|number| rewriting.found[number].0 as u16 + 1);
    let places = judge(&archive)?.files.iter().map(|file| place(&file.name)).collect::<Option<Vec<u16>>>()?;
    Some(Rewritten { texts, archive, places })
}

struct Rewriting<'a> {
    slip: Option<Slip>,
    archive: &'a Archive,
    /// The files that are found, each with a folder that it is given.
    found: Vec<(usize, Vec<u8>)>,
}

impl Rewriting<'_> {
    /// The name under which a found file stands in its folder.
    fn name(&self, number: usize) -> Vec<u8> {
        join(&self.found[number].1, format!("f{number}").as_bytes())
    }

    fn text(&mut self, text: &[u8], folder: &[u8]) -> Vec<u8> {
        let mut out = Vec::new();
        let mut rest = text;
        while !rest.is_empty() {
            let (line, after) = take_line(rest);
            match line {
                Line::Include(name) => out.extend([b"#include \"", &self.include(folder, &name)[..], b"\""].concat()),
                _ => out.extend(&rest[..rest.len() - after.len()]),
            }
            rest = after;
        }
        out
    }

    /// The name that leads to what the slip finds, or the empty one.
    fn include(&mut self, folder: &[u8], name: &[u8]) -> Vec<u8> {
        let Some((target, after)) = slipped(self.slip, self.archive, folder, name) else { return Vec::new() };
        let Some(file) = self.archive.files.iter().position(|file| file.name == target) else { return Vec::new() };
        let found = (file, after);
        let known = self.found.iter().position(|of| *of == found);
        let number = known.unwrap_or_else(|| {
            self.found.push(found);
            self.found.len() - 1
        });
        let up = folder.split(|b| *b == b'/').filter(|part| !part.is_empty()).count();
        [b"../".repeat(up), self.name(number)].concat()
    }
}

//! The definition of reading: the entries of some texts with an archive, each with its chain of
//! includes, and the opens; or the first of refusals 4 to 7 in text order. A main text is a list of one.

use crate::archive::{folder, Archive};
use crate::limits::{Refusal, BODIES_BYTES, ENTRIES, KEY_PARTS, OPENS};
use crate::line::{take_line, write_key, Line, Part};
use crate::paths::{follow, join, target, Outside};
use std::collections::BTreeSet;
use std::rc::Rc;

#[derive(Clone, Debug)]
pub struct Entry {
    pub key: Vec<Part>,
    pub value: Vec<u8>,
    /// The names of the files being read when the line was met, outermost first.
    pub chain: Vec<Rc<[u8]>>,
}

impl Entry {
    pub fn came_through(&self, name: &[u8]) -> bool {
        self.chain.iter().any(|file| **file == *name)
    }
}

#[derive(Clone, Debug, Default)]
pub struct Reading {
    pub entries: Vec<Entry>,
    pub opens: usize,
    /// The folders that includes by dots mention: the Rust finds its way by them only where they are made beforehand.
    pub folders: BTreeSet<Vec<u8>>,
    /// Why the reading stays out of the run beside the Rust, by the first include that keeps it out.
    pub outside: Option<Outside>,
}

/// Each text is at depth 0 with the empty folder, and ends at its own end. The texts at depths 0 to `depth` are read.
pub fn read(texts: &[&[u8]], archive: &Archive, depth: u64) -> Result<Reading, Refusal> {
    let mut reader = Reader { archive, depth, store: 0, chain: Vec::new(), ways: Vec::new(), reading: Reading::default() };
    texts.iter().try_for_each(|text| reader.read_text(text, b""))?;
    Ok(reader.reading)
}

struct Reader<'a> {
    archive: &'a Archive,
    depth: u64,
    /// Bytes of keys and values so far.
    store: usize,
    /// The files being read, outermost first: as many as the depth.
    chain: Vec<Rc<[u8]>>,
    /// The folder of each of these as the Rust has it: of the way by which the file was reached, with nothing reduced.
    ways: Vec<Vec<u8>>,
    reading: Reading,
}

impl Reader<'_> {
    fn read_text(&mut self, text: &[u8], folder: &[u8]) -> Result<(), Refusal> {
        let mut rest = text;
        while !rest.is_empty() {
            let (line, after) = take_line(rest);
            match line {
                Line::Nothing => {}
                Line::Include(name) => self.include(folder, &name)?,
                Line::Entry { key, value } => self.add(key, value)?,
            }
            rest = after;
        }
        Ok(())
    }

    fn include(&mut self, from: &[u8], name: &[u8]) -> Result<(), Refusal> {
        let archive = self.archive;
        let way = self.ways.last().map_or(b"".as_slice(), |way| way);
        // The empty name asks nothing of the Rust: it names a directory, which nobody can read.
        if !name.is_empty() && self.reading.outside.is_none() {
            self.reading.outside = follow(way, from, name, archive, &mut self.reading.folders).err();
        }
        let way = join(way, name);
        let Some(file) = target(from, name).and_then(|path| archive.find(&path)) else { return Ok(()) };
        if self.chain.len() as u64 == self.depth {
            return Ok(());
        }
        if self.reading.opens == OPENS {
            return Err(Refusal::ManyOpens);
        }
        self.reading.opens += 1;
        self.chain.push(file.name[..].into());
        self.ways.push(folder(&way).to_vec());
        self.read_text(&file.body, folder(&file.name))?;
        self.ways.pop();
        self.chain.pop();
        Ok(())
    }

    fn add(&mut self, key: Vec<Part>, value: Vec<u8>) -> Result<(), Refusal> {
        if key.len() > KEY_PARTS {
            return Err(Refusal::ManyKeyParts);
        }
        if self.reading.entries.len() == ENTRIES {
            return Err(Refusal::ManyEntries);
        }
        self.store += write_key(&key).len() + value.len();
        if self.store > BODIES_BYTES {
            return Err(Refusal::FullStore);
        }
        self.reading.entries.push(Entry { key, value, chain: self.chain.clone() });
        Ok(())
    }
}

//! The database image: what a reading leaves in the two lent buffers, and how an image is judged.

use crate::archive;
use crate::limits::{
    Refusal, ARCHIVE_FILES, BODIES_BYTES, CONTENTS_WORDS, ENTRIES, GREATEST_DEPTH, KEY_PARTS, OLD_ROW_WORDS, ROW_WORDS, TEXT_BYTES,
    UNKNOWN_FILE,
};
use crate::line::{ends_in_a_name, read_key, write_key, Part};
use crate::reading::{self, Entry};

/// What an accepted reading returns.
#[derive(Clone, Copy, Debug, PartialEq, Eq)]
pub struct Accepted {
    pub entries: usize,
    pub opens: usize,
}

/// The reading call, of texts one after another. Refusals 1 to 3 and 15 change nothing; 4 to 7 leave the image of no entries.
pub fn read(contents: &mut [u16], bodies: &mut [u8], texts: &[&[u8]], archive: &[u8], depth: u64) -> Result<Accepted, Refusal> {
    if are_short(contents, bodies) {
        return Err(Refusal::ShortBuffers);
    }
    if texts.iter().any(|text| text.len() > TEXT_BYTES) {
        return Err(Refusal::LongText);
    }
    let archive = archive::judge(archive).ok_or(Refusal::BadArchive)?;
    if depth > GREATEST_DEPTH {
        return Err(Refusal::TooDeep);
    }
    clear(contents, bodies);
    let reading = reading::read(texts, &archive, depth)?;
    for (number, entry) in reading.entries.iter().enumerate() {
        append(contents, bodies, number, &write_key(&entry.key), &entry.value, origin(entry, &archive));
    }
    Ok(Accepted { entries: reading.entries.len(), opens: reading.opens })
}

fn are_short(contents: &[u16], bodies: &[u8]) -> bool {
    contents.len() < CONTENTS_WORDS || bodies.len() < BODIES_BYTES
}

fn clear(contents: &mut [u16], bodies: &mut [u8]) {
    contents[..CONTENTS_WORDS].fill(0);
    bodies[..BODIES_BYTES].fill(0);
}

/// Where an entry's line stands: 0 for a text of the reading, else the place on the archive, from 1, of the last file on its chain.
fn origin(entry: &Entry, archive: &archive::Archive) -> u16 {
    let Some(last) = entry.chain.last() else { return 0 };
    1 + archive.files.iter().position(|file| file.name[..] == last[..]).expect("a file that was read is there") as u16
}

/// Writes an entry behind those of an image.
fn append(contents: &mut [u16], bodies: &mut [u8], number: usize, key: &[u8], value: &[u8], origin: u16) {
    let start = contents[1] as usize;
    let row = [start as u16, key.len() as u16, value.len() as u16, origin];
    contents[2 + ROW_WORDS * number..][..ROW_WORDS].copy_from_slice(&row);
    bodies[start..start + key.len()].copy_from_slice(key);
    bodies[start + key.len()..][..value.len()].copy_from_slice(value);
    contents[0] = number as u16 + 1;
    contents[1] = (start + key.len() + value.len()) as u16;
}

/// Carries an old image over: 8, then 1, and neither changes anything.
pub fn migrate(old_contents: &[u16], old_bodies: &[u8], contents: &mut [u16], bodies: &mut [u8]) -> Result<Accepted, Refusal> {
    let rows = judge_rows(old_contents, old_bodies, OLD_ROW_WORDS).ok_or(Refusal::NoImage)?;
    if are_short(contents, bodies) {
        return Err(Refusal::ShortBuffers);
    }
    clear(contents, bodies);
    for (number, row) in rows.iter().enumerate() {
        append(contents, bodies, number, &write_key(&row.key), row.value.of(old_bodies), UNKNOWN_FILE);
    }
    Ok(Accepted { entries: rows.len(), opens: 0 })
}

/// An entry of a judged image.
#[derive(Clone, Debug, PartialEq, Eq)]
pub struct Row {
    pub key: Vec<Part>,
    pub value: Place,
}

/// Where bytes stand in the bodies.
#[derive(Clone, Copy, Debug, PartialEq, Eq)]
pub struct Place {
    pub start: usize,
    pub length: usize,
}

impl Place {
    pub fn of<'a>(&self, bodies: &'a [u8]) -> &'a [u8] {
        &bodies[self.start..self.start + self.length]
    }
}

/// The rows of an image, or none if the buffers hold no image.
pub fn judge(contents: &[u16], bodies: &[u8]) -> Option<Vec<Row>> {
    let rows = judge_rows(contents, bodies, ROW_WORDS)?;
    let mut origins = (0..rows.len()).map(|number| contents[5 + ROW_WORDS * number]);
    origins.all(|origin| origin as usize <= ARCHIVE_FILES || origin == UNKNOWN_FILE).then_some(rows)
}

/// The same with rows of `width` words, wherever their lines stand.
fn judge_rows(contents: &[u16], bodies: &[u8], width: usize) -> Option<Vec<Row>> {
    if contents.len() < 2 + width * ENTRIES || bodies.len() < BODIES_BYTES {
        return None;
    }
    let (count, used) = (contents[0] as usize, contents[1] as usize);
    if count > ENTRIES || used > BODIES_BYTES {
        return None;
    }
    let mut rows = Vec::with_capacity(count);
    let mut packed = 0;
    for number in 0..count {
        let row = &contents[2 + width * number..][..width];
        let [start, key_length, value_length] = [row[0] as usize, row[1] as usize, row[2] as usize];
        let value = Place { start: start + key_length, length: value_length };
        let end = value.start + value.length;
        if start != packed || end > used {
            return None;
        }
        rows.push(Row { key: judge_key(&bodies[start..value.start])?, value });
        packed = end;
    }
    (packed == used).then_some(rows)
}

/// A key of 1 to 16 parts that ends in a name.
fn judge_key(bytes: &[u8]) -> Option<Vec<Part>> {
    let key = read_key(bytes)?;
    (key.len() <= KEY_PARTS && ends_in_a_name(&key)).then_some(key)
}

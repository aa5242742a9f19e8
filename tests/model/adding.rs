//! An addition, document 02 (v): the entry that a text makes, put behind those of an image.

use crate::image::judge;
use crate::limits::{Refusal, BODIES_BYTES, ENTRIES, KEY_PARTS, ROW_WORDS, TEXT_BYTES, UNKNOWN_FILE};
use crate::line::{take_line, write_key, Line, Part};

/// The number of the added entry, whose row and bytes are written with the first two words, and nothing else. 8, then 2, then
/// 12, then 5 to 7; all of these leave the image unchanged.
pub fn add(contents: &mut [u16], bodies: &mut [u8], text: &[u8]) -> Result<usize, Refusal> {
    let count = judge(contents, bodies).ok_or(Refusal::NoImage)?.len();
    if text.len() > TEXT_BYTES {
        return Err(Refusal::LongText);
    }
    let [(key, value)] = &entries(text)[..] else { return Err(Refusal::NotOneEntry) };
    if key.len() > KEY_PARTS {
        return Err(Refusal::ManyKeyParts);
    }
    if count == ENTRIES {
        return Err(Refusal::ManyEntries);
    }
    let (start, key) = (contents[1] as usize, write_key(key));
    let end = start + key.len() + value.len();
    if end > BODIES_BYTES {
        return Err(Refusal::FullStore);
    }
    let row = [start as u16, key.len() as u16, value.len() as u16, UNKNOWN_FILE];
    contents[2 + ROW_WORDS * count..][..ROW_WORDS].copy_from_slice(&row);
    bodies[start..end].copy_from_slice(&[key, value.clone()].concat());
    contents[0] = count as u16 + 1;
    contents[1] = end as u16;
    Ok(count)
}

/// The entries of a text that is read with an empty archive, where every include adds nothing.
fn entries(text: &[u8]) -> Vec<(Vec<Part>, Vec<u8>)> {
    let mut entries = Vec::new();
    let mut rest = text;
    while !rest.is_empty() {
        let (line, after) = take_line(rest);
        if let Line::Entry { key, value } = line {
            entries.push((key, value));
        }
        rest = after;
    }
    entries
}

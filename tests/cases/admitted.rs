//! Which readings and lookups document 01 admits to the run beside the Rust, with document 02 (iii)'s names, and
//! which of them the Rust can hold. Of chains those are admitted that do not name their own files, which stand beside the archive's.

use crate::chains::names_own_file;
use model::archive::judge;
use model::limits::{Refusal, GREATEST_DEPTH, TEXT_BYTES};
use model::line::{Binding, Part};
use model::lookup::{Bounds, SHELL};
use model::matching::{mark, positions, Position};
use model::query::split;
use model::reading::{read, Reading};
use records::{Query, Source, Start};

/// The Rust keeps every partial alignment of a key; past this many it is not asked.
const MOST_ALIGNMENTS: u64 = 20_000;

/// Why a case is left out of the run.
pub type LeftOut = String;

/// The model's reading of a source that the documents admit to the run.
pub fn admitted_reading(source: &Source) -> Result<Reading, LeftOut> {
    let refused = |refusal: Refusal| format!("readings refused by {}", refusal.number());
    let texts = source.texts();
    if matches!(source.start, Start::Chain(_)) && texts.iter().chain([&&source.archive[..]]).any(|bytes| names_own_file(bytes)) {
        return Err("chains that name their own files".to_string());
    }
    if texts.iter().any(|text| text.len() > TEXT_BYTES) {
        return Err(refused(Refusal::LongText));
    }
    let archive = judge(&source.archive).ok_or(refused(Refusal::BadArchive))?;
    if archive.has_file_as_folder() {
        return Err("archives with a file that is also a folder".to_string());
    }
    if source.depth > GREATEST_DEPTH {
        return Err(refused(Refusal::TooDeep));
    }
    let reading = read(&texts, &archive, source.depth).map_err(refused)?;
    match reading.outside {
        Some(why) => Err(why.to_string()),
        None => Ok(reading),
    }
}

/// Whether document 01 admits a query to the run, and the Rust can hold its alignments with the keys.
pub fn admitted_query<'a>(query: &Query, keys: impl Iterator<Item = &'a [Part]>) -> Result<(), LeftOut> {
    admitted_within(SHELL, query, keys)
}

/// The same at other bounds.
pub fn admitted_within<'a>(bounds: Bounds, query: &Query, mut keys: impl Iterator<Item = &'a [Part]>) -> Result<(), LeftOut> {
    if [&query.name, &query.class].into_iter().any(|text| std::str::from_utf8(text).is_err()) {
        return Err("queries not in UTF-8".to_string());
    }
    if query.name.len() > bounds.bytes || query.class.len() > bounds.bytes {
        return Err("queries refused by 9".to_string());
    }
    let (Some(name), Some(class)) = (split(&query.name), split(&query.class)) else { return Ok(()) };
    if name.len() > bounds.parts || class.len() > bounds.parts {
        return Err("queries refused by 10".to_string());
    }
    let positions = positions(&name, &class);
    if keys.any(|key| alignments(key, &positions) > MOST_ALIGNMENTS) {
        return Err(format!("lookups with over {MOST_ALIGNMENTS} alignments, which the Rust holds side by side"));
    }
    Ok(())
}

/// The most partial alignments of a key that stand side by side at any position.
fn alignments(key: &[Part], positions: &[Position]) -> u64 {
    let mut at = vec![0u64; key.len() + 1];
    at[0] = 1;
    let mut most = 1;
    for position in positions {
        let mut next = vec![0u64; key.len() + 1];
        for (k, part) in key.iter().enumerate() {
            if part.binding == Binding::Loose {
                next[k] = next[k].saturating_add(at[k]);
            }
            if mark(part, position).is_some() {
                next[k + 1] = next[k + 1].saturating_add(at[k]);
            }
        }
        at = next;
        most = most.max(at.iter().fold(0, |sum: u64, n| sum.saturating_add(*n)));
    }
    most
}

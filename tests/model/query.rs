//! Queries: a name or a class as parts.

use crate::line::is_name_byte;

/// The parts of a query, or none if it is malformed: names, each followed by any number of `.`.
pub fn split(text: &[u8]) -> Option<Vec<&[u8]>> {
    let good = text.first() != Some(&b'.') && text.iter().all(|&b| b == b'.' || is_name_byte(b));
    good.then(|| text.split(|&b| b == b'.').filter(|part| !part.is_empty()).collect())
}

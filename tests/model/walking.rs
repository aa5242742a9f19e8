//! A walk, document 02 (v): the entries that align with a query, lowest number first, a step at a time.

use crate::limits::Refusal;
use crate::lookup::SHELL;
use crate::matching::highest_row;

/// The walk's state: its next number, and the entry count from its start.
#[derive(Clone, Copy, Debug, PartialEq, Eq)]
pub struct Walk {
    pub next: usize,
    pub count: usize,
}

/// Begins a walk: its next number is 0 at first. Met as by a lookup: 8, 9, malformed and 10; a malformed query begins one too.
pub fn start(contents: &[u16], bodies: &[u8], name: &[u8], class: &[u8]) -> Result<Walk, Refusal> {
    let (rows, _) = SHELL.ask(contents, bodies, name, class)?;
    Ok(Walk { next: 0, count: rows.len() })
}

/// From any state the least number that aligns, not below the next and below both that count and the image's, and the next is
/// then one more; else none, which is the end, and the state stays.
pub fn step(contents: &[u16], bodies: &[u8], name: &[u8], class: &[u8], walk: &mut Walk) -> Result<Option<usize>, Refusal> {
    let (rows, Some(positions)) = SHELL.ask(contents, bodies, name, class)? else { return Ok(None) };
    let is_in_reach = |number: &usize| *number >= walk.next && *number < walk.count;
    let aligns = |number: &usize| highest_row(&rows[*number].key, &positions).is_some();
    let least = (0..rows.len()).filter(is_in_reach).find(aligns);
    if let Some(number) = least {
        walk.next = number + 1;
    }
    Ok(least)
}

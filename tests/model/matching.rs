//! Alignments of a key with a query, their rows of marks, and the entry that beats the rest.

use crate::line::{Binding, Component, Part};

/// What an alignment makes of a position, lowest first.
#[derive(Clone, Copy, Debug, PartialEq, Eq, PartialOrd, Ord)]
pub enum Mark {
    Skipped,
    AnyLoose,
    AnyTight,
    ClassLoose,
    ClassTight,
    InstanceLoose,
    InstanceTight,
}

/// Rows of one query are as long as each other, and are compared at their first difference.
pub type Row = Vec<Mark>;

/// The name's and the class's part at a position; the shorter of the two has none at the end.
#[derive(Clone, Copy, Debug)]
pub struct Position<'a> {
    pub instance: Option<&'a [u8]>,
    pub class: Option<&'a [u8]>,
}

pub fn positions<'a>(name: &[&'a [u8]], class: &[&'a [u8]]) -> Vec<Position<'a>> {
    let at = |p: usize| Position { instance: name.get(p).copied(), class: class.get(p).copied() };
    (0..name.len().max(class.len())).map(at).collect()
}

/// The mark of a part matched at a position, or none if it has no match there.
pub fn mark(part: &Part, position: &Position) -> Option<Mark> {
    let (loose, tight) = match &part.component {
        Component::Any => (Mark::AnyLoose, Mark::AnyTight),
        Component::Name(name) if position.instance == Some(name) => (Mark::InstanceLoose, Mark::InstanceTight),
        Component::Name(name) if position.class == Some(name) => (Mark::ClassLoose, Mark::ClassTight),
        Component::Name(_) => return None,
    };
    Some(if part.binding == Binding::Loose { loose } else { tight })
}

/// The rows of all alignments, one by one: the definition, for small cases only.
pub fn all_rows(key: &[Part], positions: &[Position]) -> Vec<Row> {
    let Some((position, later)) = positions.split_first() else {
        return if key.is_empty() { vec![Vec::new()] } else { Vec::new() };
    };
    let Some((part, rest)) = key.split_first() else { return Vec::new() };
    let mut rows = Vec::new();
    let mut put = |mark: Mark, tails: Vec<Row>| rows.extend(tails.into_iter().map(|tail| [vec![mark], tail].concat()));
    if part.binding == Binding::Loose {
        put(Mark::Skipped, all_rows(key, later));
    }
    if let Some(mark) = mark(part, position) {
        put(mark, all_rows(rest, later));
    }
    rows
}

/// The highest row, or none if nothing aligns. A match outranks a skip at the first position where
/// two rows differ, so the highest row matches wherever the rest can still be aligned.
pub fn highest_row(key: &[Part], positions: &[Position]) -> Option<Row> {
    let aligns = alignable(key, positions);
    if !aligns[0][0] {
        return None;
    }
    let mut row = Vec::with_capacity(positions.len());
    let mut next = 0;
    for (p, position) in positions.iter().enumerate() {
        match mark(&key[next], position) {
            Some(mark) if aligns[next + 1][p + 1] => {
                row.push(mark);
                next += 1;
            }
            _ => row.push(Mark::Skipped),
        }
    }
    Some(row)
}

/// At `[k][p]`: whether the key's parts from `k` on align with the positions from `p` on.
fn alignable(key: &[Part], positions: &[Position]) -> Vec<Vec<bool>> {
    let mut aligns = vec![vec![false; positions.len() + 1]; key.len() + 1];
    aligns[key.len()][positions.len()] = true;
    for p in (0..positions.len()).rev() {
        for k in 0..key.len() {
            let skips = key[k].binding == Binding::Loose && aligns[k][p + 1];
            let meets = aligns[k + 1][p + 1] && mark(&key[k], &positions[p]).is_some();
            aligns[k][p] = skips || meets;
        }
    }
    aligns
}

/// The number of the key that beats the rest: the last of those with the highest row.
pub fn winner<'a>(keys: impl Iterator<Item = &'a [Part]>, positions: &[Position]) -> Option<usize> {
    let mut best: Option<(usize, Row)> = None;
    for (number, key) in keys.enumerate() {
        let Some(row) = highest_row(key, positions) else { continue };
        if best.as_ref().map_or(true, |(_, highest)| row >= *highest) {
            best = Some((number, row));
        }
    }
    best.map(|(number, _)| number)
}

/// Whether key number `which` beats the rest, in the words of the definition: it aligns, ranks no
/// lower than any aligned key before it, and higher than any after it.
pub fn beats_the_rest(keys: &[&[Part]], positions: &[Position], which: usize) -> bool {
    let highest = |key: &[Part]| all_rows(key, positions).into_iter().max();
    let Some(own) = highest(keys[which]) else { return false };
    keys.iter().enumerate().all(|(number, key)| match highest(key) {
        None => true,
        Some(row) if number <= which => own >= row,
        Some(row) => own > row,
    })
}

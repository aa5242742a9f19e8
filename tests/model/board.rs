//! A board of packs, document 02 (ix): what is kept after a list of calls, without buffers; the answers of its watched queries; and how it is
//! laid out in words and bytes, as docs/DECISIONS.md says.

use crate::image::{judge, Place, Row};
use crate::limits::{
    Refusal, BOARD_BYTES, BOARD_WORDS, BODIES_BYTES, CONTENTS_WORDS, PACKS, QUERIES, QUERY_BYTES, QUERY_PARTS, ROW_WORDS,
};
use crate::matching::{positions, winner};
use crate::query::split;

/// A pack that arrived: its number, and its image up to what is used.
#[derive(Clone, Debug, PartialEq, Eq)]
pub struct Pack {
    pub number: u16,
    contents: Vec<u16>,
    bodies: Vec<u8>,
    rows: Vec<Row>,
}

/// The packs in the order of their arrival, and the watched queries.
#[derive(Clone, Debug, Default, PartialEq, Eq)]
pub struct Board {
    pub packs: Vec<Pack>,
    pub queries: Vec<(Vec<u8>, Vec<u8>)>,
}

/// The answer of a watched query.
#[derive(Clone, Copy, Debug, PartialEq, Eq)]
pub struct Found {
    pub pack: u16,
    pub place: Place,
}

impl Board {
    /// The query's number: 13, then 9, malformed (kept), 10.
    pub fn watch(&mut self, name: &[u8], class: &[u8]) -> Result<usize, Refusal> {
        if self.queries.len() == QUERIES {
            return Err(Refusal::FullBoard);
        }
        if name.len() > QUERY_BYTES || class.len() > QUERY_BYTES {
            return Err(Refusal::LongQuery);
        }
        if let (Some(name), Some(class)) = (split(name), split(class)) {
            if name.len() > QUERY_PARTS || class.len() > QUERY_PARTS {
                return Err(Refusal::ManyQueryParts);
            }
        }
        self.queries.push((name.to_vec(), class.to_vec()));
        Ok(self.queries.len() - 1)
    }

    /// 8 for the image, 13, 14; a pack arrives last.
    pub fn arrive(&mut self, number: u16, contents: &[u16], bodies: &[u8]) -> Result<(), Refusal> {
        let rows = judge(contents, bodies).ok_or(Refusal::NoImage)?;
        if self.packs.len() == PACKS {
            return Err(Refusal::FullBoard);
        }
        if number == 0 || self.packs.iter().any(|pack| pack.number == number) {
            return Err(Refusal::BadPackNumber);
        }
        let (words, bytes) = (2 + ROW_WORDS * usize::from(contents[0]), usize::from(contents[1]));
        self.packs.push(Pack { number, contents: contents[..words].to_vec(), bodies: bodies[..bytes].to_vec(), rows });
        Ok(())
    }

    /// 14; the rest keep their order.
    pub fn leave(&mut self, number: u16) -> Result<(), Refusal> {
        let before = self.packs.len();
        self.packs.retain(|pack| pack.number != number);
        match self.packs.len() < before && number != 0 {
            true => Ok(()),
            false => Err(Refusal::BadPackNumber),
        }
    }

    /// The value that a lookup finds in the joined entries, or none; none also for a malformed query and for a number with no query.
    pub fn answer(&self, query: usize) -> Option<Found> {
        let (name, class) = self.queries.get(query)?;
        let (name, class) = (split(name)?, split(class)?);
        if name.len() > QUERY_PARTS || class.len() > QUERY_PARTS {
            return None;
        }
        let joined: Vec<(u16, &Row)> =
            self.packs.iter().flat_map(|pack| pack.rows.iter().map(move |row| (pack.number, row))).collect();
        let best = winner(joined.iter().map(|(_, row)| &row.key[..]), &positions(&name, &class))?;
        Some(Found { pack: joined[best].0, place: joined[best].1.value })
    }

    /// The answers of all watched queries.
    pub fn answers(&self) -> Vec<Option<Found>> {
        (0..self.queries.len()).map(|query| self.answer(query)).collect()
    }

    /// The bytes of an answer, or none.
    pub fn value(&self, query: usize) -> Option<&[u8]> {
        let found = self.answer(query)?;
        let pack = self.packs.iter().find(|pack| pack.number == found.pack)?;
        Some(found.place.of(&pack.bodies))
    }

    /// A bit for each query whose bytes, or lack of them, change if the pack leaves; 14 as its leaving.
    pub fn report(&self, number: u16) -> Result<u32, Refusal> {
        let mut without = self.clone();
        without.leave(number)?;
        Ok((0..QUERIES).filter(|query| self.value(*query) != without.value(*query)).map(|query| 1 << query).sum())
    }
}

/// Where the parts of a board stand.
pub fn lengths_start(query: usize) -> usize {
    2 + 2 * query
}

pub fn slot_start(slot: usize) -> usize {
    2 + 2 * QUERIES + (1 + CONTENTS_WORDS) * slot
}

pub fn text_start(query: usize) -> usize {
    2 * QUERY_BYTES * query
}

pub fn body_start(slot: usize) -> usize {
    2 * QUERY_BYTES * QUERIES + BODIES_BYTES * slot
}

/// The board that the buffers hold: 1, 8.
pub fn read_board(words: &[u16], bytes: &[u8]) -> Result<Board, Refusal> {
    if words.len() < BOARD_WORDS || bytes.len() < BOARD_BYTES {
        return Err(Refusal::ShortBuffers);
    }
    let (packs, queries) = (usize::from(words[0]), usize::from(words[1]));
    if packs > PACKS || queries > QUERIES {
        return Err(Refusal::NoImage);
    }
    let mut board = Board::default();
    for slot in 0..packs {
        let at = slot_start(slot);
        let contents = &words[at + 1..slot_start(slot + 1)];
        let bodies = &bytes[body_start(slot)..body_start(slot + 1)];
        board.arrive(words[at], contents, bodies).map_err(|_| Refusal::NoImage)?;
    }
    for query in 0..queries {
        let [name, class] = [0, 1].map(|which| usize::from(words[lengths_start(query) + which]));
        if name > QUERY_BYTES || class > QUERY_BYTES {
            return Err(Refusal::NoImage);
        }
        let (name, class) = bytes[text_start(query)..][..name + class].split_at(name);
        board.queries.push((name.to_vec(), class.to_vec()));
    }
    Ok(board)
}

/// The calls on buffers. A refusal leaves both as they were; else just what a call has to write is written.
pub fn make(words: &mut [u16], bytes: &mut [u8]) -> Result<(), Refusal> {
    if words.len() < BOARD_WORDS || bytes.len() < BOARD_BYTES {
        return Err(Refusal::ShortBuffers);
    }
    words[..2].fill(0);
    Ok(())
}

pub fn watch(words: &mut [u16], bytes: &mut [u8], name: &[u8], class: &[u8]) -> Result<usize, Refusal> {
    let query = read_board(words, bytes)?.watch(name, class)?;
    words[1] = query as u16 + 1;
    words[lengths_start(query)..][..2].copy_from_slice(&[name.len() as u16, class.len() as u16]);
    bytes[text_start(query)..][..name.len() + class.len()].copy_from_slice(&[name, class].concat());
    Ok(query)
}

pub fn arrive(words: &mut [u16], bytes: &mut [u8], number: u16, contents: &[u16], bodies: &[u8]) -> Result<(), Refusal> {
    let mut board = read_board(words, bytes)?;
    board.arrive(number, contents, bodies)?;
    let slot = board.packs.len() - 1;
    let pack = &board.packs[slot];
    words[0] = slot as u16 + 1;
    words[slot_start(slot)] = number;
    words[slot_start(slot) + 1..][..pack.contents.len()].copy_from_slice(&pack.contents);
    bytes[body_start(slot)..][..pack.bodies.len()].copy_from_slice(&pack.bodies);
    Ok(())
}

/// The slots behind the one that leaves move up, whole; the last of them stays where it was too.
pub fn leave(words: &mut [u16], bytes: &mut [u8], number: u16) -> Result<(), Refusal> {
    let mut board = read_board(words, bytes)?;
    let packs = board.packs.len();
    let slot = board.packs.iter().position(|pack| pack.number == number);
    board.leave(number)?;
    let slot = slot.expect("a pack that left was there");
    words.copy_within(slot_start(slot + 1)..slot_start(packs), slot_start(slot));
    bytes.copy_within(body_start(slot + 1)..body_start(packs), body_start(slot));
    words[0] = packs as u16 - 1;
    Ok(())
}

pub fn answer(words: &[u16], bytes: &[u8], query: u16) -> Result<Option<Found>, Refusal> {
    Ok(read_board(words, bytes)?.answer(usize::from(query)))
}

pub fn answers(words: &[u16], bytes: &[u8]) -> Result<Vec<Option<Found>>, Refusal> {
    Ok(read_board(words, bytes)?.answers())
}

pub fn report(words: &[u16], bytes: &[u8], number: u16) -> Result<u32, Refusal> {
    read_board(words, bytes)?.report(number)
}

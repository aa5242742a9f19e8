//! The lookups in an image, the shell's and the dictionary window's. They test 8, 9, malformed, 10, and change no lent byte.

use crate::image::{judge, Place, Row};
use crate::limits::{Refusal, QUERY_BYTES, QUERY_PARTS, WINDOW_BYTES, WINDOW_PARTS};
use crate::matching::{positions, winner, Position};
use crate::query::split;
use crate::value;

/// How many bytes and parts a name, and a class, may each have.
#[derive(Clone, Copy, Debug, PartialEq, Eq)]
pub struct Bounds {
    pub bytes: usize,
    pub parts: usize,
}

/// Document 01's, which the shell keeps.
pub const SHELL: Bounds = Bounds { bytes: QUERY_BYTES, parts: QUERY_PARTS };

/// The dictionary window's, document 02 (vi).
pub const WINDOW: Bounds = Bounds { bytes: WINDOW_BYTES, parts: WINDOW_PARTS };

#[derive(Clone, Copy, Debug, PartialEq, Eq)]
pub enum Number {
    Is(i64),
    NotANumber,
    None,
}

impl Bounds {
    /// The rows of an image, and the positions of a query, or none for a malformed one: 8, 9, malformed, 10.
    pub fn ask<'a>(
        self,
        contents: &[u16],
        bodies: &[u8],
        name: &'a [u8],
        class: &'a [u8],
    ) -> Result<(Vec<Row>, Option<Vec<Position<'a>>>), Refusal> {
        let rows = judge(contents, bodies).ok_or(Refusal::NoImage)?;
        if name.len() > self.bytes || class.len() > self.bytes {
            return Err(Refusal::LongQuery);
        }
        let (Some(name), Some(class)) = (split(name), split(class)) else { return Ok((rows, None)) };
        if name.len() > self.parts || class.len() > self.parts {
            return Err(Refusal::ManyQueryParts);
        }
        Ok((rows, Some(positions(&name, &class))))
    }

    /// The place of the value that beats the rest, or none.
    pub fn get_bytes(self, contents: &[u16], bodies: &[u8], name: &[u8], class: &[u8]) -> Result<Option<Place>, Refusal> {
        let (rows, Some(positions)) = self.ask(contents, bodies, name, class)? else { return Ok(None) };
        let best = winner(rows.iter().map(|row| &row.key[..]), &positions);
        Ok(best.map(|number| rows[number].value))
    }

    /// The value's place if it is well-formed UTF-8.
    pub fn get_string(self, contents: &[u16], bodies: &[u8], name: &[u8], class: &[u8]) -> Result<Option<Place>, Refusal> {
        let found = self.get_bytes(contents, bodies, name, class)?;
        Ok(found.filter(|place| value::is_utf8(place.of(bodies))))
    }

    pub fn get_bool(self, contents: &[u16], bodies: &[u8], name: &[u8], class: &[u8]) -> Result<Option<bool>, Refusal> {
        let found = self.get_bytes(contents, bodies, name, class)?;
        Ok(found.and_then(|place| value::boolean(place.of(bodies))))
    }

    /// A value that is not UTF-8 gives none and not "not a number": the Rust parses strings only.
    pub fn get_value(self, contents: &[u16], bodies: &[u8], name: &[u8], class: &[u8]) -> Result<Number, Refusal> {
        let found = self.get_string(contents, bodies, name, class)?;
        Ok(match found.map(|place| value::number(place.of(bodies))) {
            Some(Some(number)) => Number::Is(number),
            Some(None) => Number::NotANumber,
            None => Number::None,
        })
    }

    /// The value's bytes or else the default's: none and refusals show the default.
    pub fn show<'a>(self, contents: &[u16], bodies: &'a [u8], name: &[u8], class: &[u8], default: &'a [u8]) -> &'a [u8] {
        match self.get_bytes(contents, bodies, name, class) {
            Ok(Some(place)) => place.of(bodies),
            _ => default,
        }
    }
}

/// The shell's lookups.
pub fn get_bytes(contents: &[u16], bodies: &[u8], name: &[u8], class: &[u8]) -> Result<Option<Place>, Refusal> {
    SHELL.get_bytes(contents, bodies, name, class)
}

pub fn get_string(contents: &[u16], bodies: &[u8], name: &[u8], class: &[u8]) -> Result<Option<Place>, Refusal> {
    SHELL.get_string(contents, bodies, name, class)
}

pub fn get_bool(contents: &[u16], bodies: &[u8], name: &[u8], class: &[u8]) -> Result<Option<bool>, Refusal> {
    SHELL.get_bool(contents, bodies, name, class)
}

pub fn get_value(contents: &[u16], bodies: &[u8], name: &[u8], class: &[u8]) -> Result<Number, Refusal> {
    SHELL.get_value(contents, bodies, name, class)
}

pub fn show<'a>(contents: &[u16], bodies: &'a [u8], name: &[u8], class: &[u8], default: &'a [u8]) -> &'a [u8] {
    SHELL.show(contents, bodies, name, class, default)
}

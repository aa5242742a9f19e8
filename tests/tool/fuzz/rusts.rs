//! The crate's answers held to the Rust's.

use crate::both::is_admitted;
use crate::files;
use crate::held::same;
use crate::rust::{listed, reads_at, Room};
use cases::admitted::admitted_reading;
use records::{Case, Kind, Query, Source};
use resource_manager::Database;

pub struct Rusts {
    room: Room,
    /// What the Rust read last.
    database: oracle::resource_manager::Database,
}

/// A comparison: a source, the number of a file that is struck off, and a query.
pub struct Struck<'a> {
    pub source: &'a Source,
    pub which: usize,
    pub name: &'a str,
    pub class: &'a str,
}

impl Rusts {
    pub fn new(room: &str) -> Self {
        Self { room: Room::new(room), database: Default::default() }
    }

    /// Compares a reading; false if the Rust was not altered to its depth, or document 01 leaves it out.
    pub fn read(&mut self, source: &Source, crates: &Database) -> Result<bool, String> {
        if !reads_at(source.depth) {
            return Ok(false);
        }
        let Ok(reading) = admitted_reading(source) else { return Ok(false) };
        let (database, opens) = self.room.read(source, &reading);
        same("entries, beside the Rust", files::listed(crates), listed(&database))?;
        same("opens, beside the Rust", crates.opens(), opens)?;
        self.database = database;
        Ok(true)
    }

    /// Compares lookups in what was read last; false if document 01 leaves them out.
    pub fn look_up(&mut self, source: &Source, crates: &Database, name: &str, class: &str) -> Result<bool, String> {
        let query = Query::new(name.as_bytes(), class.as_bytes());
        if !reads_at(source.depth) || !is_admitted(&Case::ask(Kind::Bytes, source.clone(), query)) {
            return Ok(false);
        }
        let rusts = &self.database;
        same("get_bytes, beside the Rust", crates.get_bytes(name, class), rusts.get_bytes(name, class))?;
        same("get_string, beside the Rust", crates.get_string(name, class), rusts.get_string(name, class))?;
        same("get_bool, beside the Rust", crates.get_bool(name, class), rusts.get_bool(name, class))?;
        let (numbers, rusts_numbers) = (crates.get_i64(name, class).ok(), rusts.get_value::<i64>(name, class).ok());
        same("get_i64, beside the Rust", numbers, rusts_numbers)?;
        same("get_value of i64, beside the Rust", crates.get_value::<i64>(name, class), rusts.get_value(name, class))?;
        same("get_value of u8, beside the Rust", crates.get_value::<u8>(name, class), rusts.get_value(name, class))?;
        Ok(true)
    }

    /// Compares a comparison's two values with what the Rust finds in two readings; false if document 01 leaves them out.
    pub fn compare(&mut self, case: &Struck, with_file: Option<Vec<u8>>, without_file: Option<Vec<u8>>) -> Result<bool, String> {
        let Struck { source, which, name, class } = *case;
        let query = Query::new(name.as_bytes(), class.as_bytes());
        if !reads_at(source.depth) || !is_admitted(&Case::ask(Kind::Bytes, source.clone(), query)) {
            return Ok(false);
        }
        let values = [source, &source.struck(which)].map(|source| {
            let reading = admitted_reading(source).expect("admitted, and so without a file");
            self.room.read(source, &reading).0.get_bytes(name, class).map(<[u8]>::to_vec)
        });
        same("compare_without, beside the Rust", [with_file, without_file], values)?;
        Ok(true)
    }
}

//! The seeded generator: main texts, chains, archives and queries for the tests outside Rattle.

pub mod admitted;
pub mod archives;
pub mod boards;
pub mod chains;
pub mod crowded;
pub mod damage;
pub mod dotted;
pub mod draw;
pub mod images;
pub mod limits;
pub mod lookups;
pub mod named;
pub mod named_chains;
pub mod orders;
pub mod readings;
pub mod realistic;
pub mod slips;
pub mod struck;
pub mod texts;
pub mod walks;
pub mod words;

//! The settings core as document 01 and requests (i), (iii) to (vi) and (viii) to (x) of document 02 lay it down, written for
//! reading and not for speed.
//!
//! It is a second reference beside the Rust: it has the limits, the refusals and the image, which
//! the Rust lacks, and it says which cases the documents admit to the run beside the Rust. No line
//! of it comes from the Rust.

pub mod adding;
pub mod archive;
pub mod board;
pub mod image;
pub mod limits;
pub mod line;
pub mod lookup;
pub mod matching;
pub mod paths;
pub mod query;
pub mod reading;
pub mod startup;
pub mod value;
pub mod walking;
pub mod writing;

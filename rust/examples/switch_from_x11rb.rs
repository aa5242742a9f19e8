//! Settings of a reader. A line that had to change when the program left x11rb stands below the line that x11rb had; the
//! other lines are as they were.
//!
//!     cargo run --example switch_from_x11rb

// x11rb: use x11rb_protocol::resource_manager::Database;
use resource_manager::{Archive, Database};

use std::error::Error;

const DIRECTORY: &str = concat!(env!("CARGO_MANIFEST_DIR"), "/examples/reader");

fn search_range(database: &Database) -> &str {
    database.get_string("reader.search.range", "Reader.Search.Range").unwrap_or("book")
}

fn font_family(database: &Database) -> &[u8] {
    database.get_bytes("reader.font.family", "Reader.Font.Family").unwrap_or(b"Sans")
}

fn font_size(database: &Database) -> Result<u8, Box<dyn Error>> {
    Ok(database.get_value("reader.font.size", "Reader.Font.Size")?.unwrap_or(12))
}

fn is_hyphenated(database: &Database) -> bool {
    database.get_bool("reader.hyphenation", "Reader.Hyphenation").unwrap_or(false)
}

fn main() -> Result<(), Box<dyn Error>> {
    let text = std::fs::read(format!("{DIRECTORY}/settings"))?;
    // x11rb: let database = Database::new_from_data_with_base_directory(&text, DIRECTORY);
    let database = Database::new_from_data_with_archive(&text, Archive::from_directory(DIRECTORY)?)?;

    println!("search range: {}", search_range(&database));
    println!("font family: {}", font_family(&database).escape_ascii());
    println!("font size: {}", font_size(&database)?);
    println!("hyphenated: {}", is_hyphenated(&database));
    println!("margin: {:?}", database.get_value::<i64>("reader.margin", "Reader.Margin")?);
    Ok(())
}

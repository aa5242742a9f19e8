//! A reader that starts from the default places. A line that had to change when the program left x11rb stands below the line
//! that x11rb had, and `new` marks a line that x11rb had no need of; the other lines are as they were.
//!
//!     cargo build --examples --target-dir ../target/rust
//!     cd examples/home
//!     HOME=. ../../../target/rust/debug/examples/start_from_default [FILE]
//!
//! FILE stands in for the property RESOURCE_MANAGER of an X server; without it, the server has none.

// x11rb: use x11rb_protocol::resource_manager::Database;
use resource_manager::{Archive, Database, GetPropertyReply};

use std::error::Error;
use std::ffi::OsString;

fn main() -> Result<(), Box<dyn Error>> {
    let reply = server::get_property(std::env::args().nth(1))?;
    let reply = GetPropertyReply { format: reply.format, value: reply.value }; // new
    let hostname = OsString::from("desk");
    // x11rb: let database = Database::new_from_default(&reply, hostname);
    let database = Database::new_from_default_with_archive(&reply, hostname, Archive::from_directory(".")?)?;

    println!("search range: {}", database.get_string("reader.search.range", "Reader.Search.Range").unwrap_or("book"));
    println!("font size: {}", database.get_value("reader.font.size", "Reader.Font.Size")?.unwrap_or(12));
    println!("hyphenated: {}", database.get_bool("reader.hyphenation", "Reader.Hyphenation").unwrap_or(false));
    Ok(())
}

/// Stands in for an X server. By x11rb, a program asks for the property as before: with `GET_RESOURCE_DATABASE`, or by
/// `connection.get_property(false, root, AtomEnum::RESOURCE_MANAGER, AtomEnum::STRING, 0, 100_000_000)?.reply()?`.
mod server {
    // x11rb: use x11rb_protocol::protocol::xproto::GetPropertyReply;
    use resource_manager::GetPropertyReply;

    pub fn get_property(file: Option<String>) -> std::io::Result<GetPropertyReply> {
        match file {
            Some(file) => Ok(GetPropertyReply { format: 8, value: std::fs::read(file)? }),
            None => Ok(GetPropertyReply { format: 0, value: Vec::new() }),
        }
    }
}

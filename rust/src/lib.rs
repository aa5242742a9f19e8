//! X resource databases, as `resource_manager` of the crate x11rb-protocol has them, over a library whose reading and
//! lookups are proved.
//!
//! ```
//! use resource_manager::{Archive, Database};
//!
//! let archive = Archive::from_files([("pack", "reader.font.size: 14")])?;
//! let database = Database::new_from_data_with_archive(b"#include \"pack\"\n*hyphenation: on", &archive)?;
//! assert_eq!(database.get_string("reader.font.size", "Reader.Font.Size"), Some("14"));
//! assert_eq!(database.get_bool("reader.hyphenation", "Reader.Hyphenation"), Some(true));
//! assert_eq!(database.get_bytes("reader.margin", "Reader.Margin"), None);
//! # Ok::<(), Box<dyn std::error::Error>>(())
//! ```
//!
//! # From x11rb to this crate
//!
//! | x11rb | here |
//! |---|---|
//! | `use x11rb_protocol::resource_manager::Database` | `use resource_manager::Database` |
//! | `Database::new_from_data(data)` | `Database::new_from_data(data)?` |
//! | `Database::new_from_data_with_base_directory(data, directory)` | `Database::new_from_data_with_archive(data, Archive::from_directory(directory)?)?` |
//! | `get_bytes`, `get_string`, `get_bool`, `get_value` | the same |
//! | `Database::new_from_default(&reply, hostname)` | `Database::new_from_default(&reply, hostname)?`, or with includes `Database::new_from_default_with_archive(&reply, hostname, archive)?` |
//! | `Database::new_from_get_property_reply(&reply)` | `Database::new_from_get_property_reply(&reply)?` |
//! | `reply`, as the X server gave it | `GetPropertyReply { format: reply.format, value: reply.value }` |
//! | `Database::GET_RESOURCE_DATABASE` | x11rb's own, under its full path: the request is x11rb's to send |
//!
//! What x11rb has no limits for has [`limits`] here, and what is past them is refused by an [`Error`]. A reading returns
//! it. A lookup panics with it, or returns it from the `try_get_` methods: it never passes for "no value". No included file
//! is opened: what a text includes is in an [`Archive`]. Includes are followed up to depth 20, and to x11rb's 100 by
//! [`Database::new_from_data_at_depth`] and in start-ups. [`Database::new_from_default`] opens the files of the default
//! places, as x11rb does, and [`StartUp::texts`] says which of these texts count.
//!
//! What x11rb has not: [`Database::aligned`] lists every entry that aligns with a query, and a [`Walk`] does so while
//! [`Database::add`] adds lines; [`Database::to_text`] and [`Database::write_to`] write a database out as a text; and a [`Board`]
//! keeps packs that come and go, with the answers of watched queries.
//!
//! # Proved, and not
//!
//! The library's calls are proved to meet their contracts. This crate is Rust as any other, and is tested: it owns the
//! buffers, lays archives out, reads the files of the default places and takes answers apart. All its unsafe code is in one
//! module, the calls themselves.
//!
//! # Building
//!
//! `make library`, in the repository, makes `target/staticlib/libresource_manager.a`, where the build
//! looks for it. Elsewhere, the environment variable `RESOURCE_MANAGER_LIB_DIR` says in which directory it is.

#![deny(unsafe_code, missing_docs)]

mod archive;
mod board;
mod database;
mod directory;
mod error;
mod ffi;
pub mod limits;
mod start_up;
mod walk;

pub use archive::{Archive, ArchiveError, ArchiveErrorKind};
pub use board::{Board, Watched};
pub use database::{Comparison, Database, Entries, Entry, Origin, Window};
pub use directory::DirectoryError;
pub use error::{Error, NotANumber, ValueError};
pub use start_up::{GetPropertyReply, Source, StartUp};
pub use walk::{Aligned, Walk};

/// The example of the README is a test too.
#[cfg(doctest)]
#[doc = include_str!("../README.md")]
struct Readme;

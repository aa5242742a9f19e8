//! The Rust with another greatest depth of includes, a module for each, and with nothing else of it changed: what it reads, as entries of
//! `entries_of`. The modules and the list of readers are appended by `build`.

use crate::protocol::xproto::GetPropertyReply;
use alloc::string::String;
use alloc::vec::Vec;
use std::ffi::OsString;
use std::path::Path;

pub type Entries = Vec<(Vec<(bool, Option<String>)>, Vec<u8>)>;

pub struct Reader {
    pub depth: u8,
    pub read: fn(&[u8], &Path) -> Entries,
    pub start: fn(&GetPropertyReply, OsString) -> Entries,
}

macro_rules! reader {
    ($module:ident) => {
        Reader {
            depth: $module::DEPTH,
            read: |text, directory| $module::entries_of(&$module::Database::new_from_data_with_base_directory(text, directory)),
            start: |reply, host| $module::entries_of(&$module::Database::new_from_default(reply, host)),
        }
    };
}

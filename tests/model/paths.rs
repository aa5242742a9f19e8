//! The path of an include, document 02 (iii): what it looks for on the archive, and whether the Rust, with the archive's
//! files in a directory, is admitted to look for the same.

use crate::archive::{is_built_like_a_name, is_name_part, Archive};
use crate::limits::FILE_NAME_BYTES;
use std::collections::BTreeSet;
use std::fmt;

/// Folder and name joined; the empty folder is the root.
pub fn join(folder: &[u8], name: &[u8]) -> Vec<u8> {
    if folder.is_empty() {
        return name.to_vec();
    }
    [folder, b"/", name].concat()
}

fn parts(path: &[u8]) -> Vec<&[u8]> {
    path.split(|&b| b == b'/').collect()
}

fn is_dots(part: &[u8]) -> bool {
    part == b"." || part == b".."
}

/// What an include of `name` from `folder` looks for. None: it finds nothing, whatever the archive holds.
pub fn target(folder: &[u8], name: &[u8]) -> Option<Vec<u8>> {
    let path = join(folder, name);
    let parts = parts(&path);
    if is_dots(parts[parts.len() - 1]) {
        return None;
    }
    let mut left: Vec<&[u8]> = Vec::new();
    for part in parts {
        match part {
            b"" => return None,
            b"." => {}
            b".." => drop(left.pop()?),
            _ => left.push(part),
        }
    }
    let result = left.join(&b'/');
    (result.len() <= FILE_NAME_BYTES).then_some(result)
}

/// The most bytes of a part, and of a path, that the run beside the Rust admits where there are dots.
pub const PART_BYTES: usize = 255;
pub const PATH_BYTES: usize = 4_000;

/// Why an include keeps a reading out of the run beside the Rust.
#[derive(Clone, Copy, Debug, PartialEq, Eq, PartialOrd, Ord)]
pub enum Outside {
    OddPart,
    EmptyPart,
    LongPart,
    LongPath,
    AboveTheRoot,
    ThroughAFile,
}

impl fmt::Display for Outside {
    fn fmt(&self, to: &mut fmt::Formatter) -> fmt::Result {
        to.write_str(match self {
            Self::OddPart => "includes of names not built like an archive's",
            Self::EmptyPart => "includes with an empty part",
            Self::LongPart => "includes by dots with a part over 255 bytes",
            Self::LongPath => "includes by dots and a path over 4,000 bytes",
            Self::AboveTheRoot => "includes that go above the root",
            Self::ThroughAFile => "includes by dots through a file",
        })
    }
}

/// Follows a name as a file system does, from a folder that it came to by some way, with nothing reduced, and puts the folders
/// that the name mentions. Those must be made beforehand: a file system goes by `..` only from a folder that is there.
pub fn follow(way: &[u8], folder: &[u8], name: &[u8], archive: &Archive, folders: &mut BTreeSet<Vec<u8>>) -> Result<(), Outside> {
    // Document 01 admits these, of any length: what is not found by us is not there for the Rust.
    if way == folder && is_built_like_a_name(name) {
        return Ok(());
    }
    let parts = parts(name);
    for part in parts.iter().filter(|part| !is_dots(part)) {
        match part {
            [] => return Err(Outside::EmptyPart),
            _ if !is_name_part(part) => return Err(Outside::OddPart),
            _ if part.len() > PART_BYTES => return Err(Outside::LongPart),
            _ => {}
        }
    }
    if join(way, name).len() > PATH_BYTES {
        return Err(Outside::LongPath);
    }
    let mut at: Vec<&[u8]> = folder.split(|&b| b == b'/').filter(|part| !part.is_empty()).collect();
    for (number, part) in parts.iter().enumerate() {
        match *part {
            b"." => {}
            b".." => drop(at.pop().ok_or(Outside::AboveTheRoot)?),
            // The last part is what is opened.
            _ if number + 1 == parts.len() => {}
            part => {
                at.push(part);
                let folder = at.join(&b'/');
                if archive.find(&folder).is_some() {
                    return Err(Outside::ThroughAFile);
                }
                folders.insert(folder);
            }
        }
    }
    Ok(())
}

//! The archive (document 01's shelf): a count, two lengths for each file, then names and bodies.

use crate::limits::{ARCHIVE_BYTES, ARCHIVE_FILES, FILE_NAME_BYTES};

#[derive(Clone, Debug, PartialEq, Eq)]
pub struct File {
    pub name: Vec<u8>,
    pub body: Vec<u8>,
}

/// The files of a well laid out archive, in their order.
#[derive(Clone, Debug, Default)]
pub struct Archive {
    pub files: Vec<File>,
}

impl Archive {
    pub fn find(&self, name: &[u8]) -> Option<&File> {
        self.files.iter().find(|file| file.name == name)
    }

    /// Whether one name and a `/` begin another: no directory can hold such files.
    pub fn has_file_as_folder(&self) -> bool {
        self.files.iter().any(|file| {
            let mut folder = file.name.clone();
            folder.push(b'/');
            self.files.iter().any(|other| other.name.starts_with(&folder))
        })
    }
}

/// Parts joined by single `/`, of any length in all.
pub fn is_built_like_a_name(name: &[u8]) -> bool {
    name.split(|&b| b == b'/').all(is_name_part)
}

pub fn is_name_part(part: &[u8]) -> bool {
    !part.is_empty() && part != b"." && part != b".." && part.iter().all(|&b| is_part_byte(b))
}

fn is_part_byte(b: u8) -> bool {
    b.is_ascii_alphanumeric() || b == b'_' || b == b'-' || b == b'.'
}

/// The folder of a file: its name before the last `/`, or empty.
pub fn folder(name: &[u8]) -> &[u8] {
    match name.iter().rposition(|&b| b == b'/') {
        Some(slash) => &name[..slash],
        None => &[],
    }
}

/// The files, or none if the bytes are not laid out as an archive.
pub fn judge(bytes: &[u8]) -> Option<Archive> {
    if bytes.len() > ARCHIVE_BYTES {
        return None;
    }
    let (count, mut lengths) = take_number(bytes)?;
    if count > ARCHIVE_FILES {
        return None;
    }
    let mut rest = lengths.get(4 * count..)?;
    let mut files = Vec::with_capacity(count);
    for _ in 0..count {
        let (name_length, after) = take_number(lengths)?;
        let (body_length, after) = take_number(after)?;
        lengths = after;
        let name = rest.get(..name_length)?.to_vec();
        let body = rest.get(name_length..name_length + body_length)?.to_vec();
        rest = &rest[name_length + body_length..];
        files.push(File { name, body });
    }
    let good = rest.is_empty() && files.iter().all(has_good_name) && names_rise(&files);
    good.then_some(Archive { files })
}

fn take_number(bytes: &[u8]) -> Option<(usize, &[u8])> {
    match bytes {
        [low, high, rest @ ..] => Some((*low as usize + 256 * *high as usize, rest)),
        _ => None,
    }
}

fn has_good_name(file: &File) -> bool {
    file.name.len() <= FILE_NAME_BYTES && is_built_like_a_name(&file.name)
}

/// Strictly by bytes, a prefix first.
fn names_rise(files: &[File]) -> bool {
    files.windows(2).all(|pair| pair[0].name < pair[1].name)
}

/// The bytes of an archive of these files, in the order given, good or not.
pub fn lay_out(files: &[File]) -> Vec<u8> {
    let mut bytes = number(files.len());
    for file in files {
        bytes.extend(number(file.name.len()));
        bytes.extend(number(file.body.len()));
    }
    for file in files {
        bytes.extend(&file.name);
        bytes.extend(&file.body);
    }
    bytes
}

fn number(n: usize) -> Vec<u8> {
    vec![(n % 256) as u8, (n / 256 % 256) as u8]
}

/// The archive with file number `which` struck off, done on the bytes: its two lengths, its name
/// and its body go, and the count is one lower.
pub fn strike(bytes: &[u8], which: usize) -> Vec<u8> {
    let archive = judge(bytes).expect("an archive");
    let count = archive.files.len();
    let size = |file: &File| file.name.len() + file.body.len();
    let start = 2 + 4 * count + archive.files[..which].iter().map(size).sum::<usize>();
    let end = start + size(&archive.files[which]);
    let lengths = 2 + 4 * which;
    let pieces = [&number(count - 1)[..], &bytes[2..lengths], &bytes[lengths + 4..start], &bytes[end..]];
    pieces.concat()
}

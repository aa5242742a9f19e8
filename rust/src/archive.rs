//! The files that a text may include.

use crate::limits::{ARCHIVE_BYTES, ARCHIVE_FILES, FILE_NAME_BYTES};
use std::collections::BTreeMap;
use std::error;
use std::fmt;

/// The files that a text may include, each under its name. They stand in for a directory: no file is opened in a reading.
///
/// A name is parts joined by single `/`. A part is one or more of A–Z a–z 0–9 `_` `-` `.`, and neither `.` nor `..`.
///
/// An include in a file is looked for beside that file, as in a directory. In its name `.` parts are dropped, and `..`
/// removes the part before it, folder and name taken together. What a directory would need on the way need not be there:
/// `no-such-folder/../pack` is `pack`. An include that goes above the archive's root, has an empty part (and so begins or
/// ends with `/`, or is empty), or ends in `.` or `..`, finds nothing, and adds nothing.
///
/// The archive is always laid out as a reading takes it, a layout that [`as_bytes`](Self::as_bytes) shows and that the
/// product's documents call a shelf.
///
/// ```
/// use resource_manager::{Archive, ArchiveErrorKind, Database};
///
/// let mut archive = Archive::new();
/// archive.insert("pack/settings", b"#include \"./fonts\"\n#include \"../common\"")?;
/// archive.insert("pack/fonts", b"reader.font.size: 14")?;
/// archive.insert("common", b"reader.font.face: serif")?;
/// assert_eq!(archive.insert("../etc/passwd", b"").unwrap_err().kind(), ArchiveErrorKind::BadName);
///
/// let database = Database::new_from_data_with_archive(b"#include \"pack/settings\"", &archive)?;
/// assert_eq!(database.get_string("reader.font.size", ""), Some("14"));
/// assert_eq!(database.get_string("reader.font.face", ""), Some("serif"));
/// # Ok::<(), Box<dyn std::error::Error>>(())
/// ```
#[derive(Clone, PartialEq, Eq)]
pub struct Archive {
    /// In the order of an archive: names rise by bytes.
    files: BTreeMap<String, Vec<u8>>,
    bytes: Vec<u8>,
}

impl Archive {
    /// An archive of no files.
    pub fn new() -> Self {
        let files = BTreeMap::new();
        Self { bytes: lay_out(&files), files }
    }

    /// An archive of these files, given in any order.
    ///
    /// ```
    /// use resource_manager::Archive;
    ///
    /// let archive = Archive::from_files([("q", "b: 2"), ("p", "a: 1")])?;
    /// assert_eq!(archive.names().collect::<Vec<_>>(), ["p", "q"]);
    /// # Ok::<(), resource_manager::ArchiveError>(())
    /// ```
    pub fn from_files<N, B>(files: impl IntoIterator<Item = (N, B)>) -> Result<Self, ArchiveError>
    where
        N: AsRef<str>,
        B: AsRef<[u8]>,
    {
        let mut archive = Self::new();
        for (name, body) in files {
            archive.insert(name.as_ref(), body.as_ref())?;
        }
        Ok(archive)
    }

    /// Adds a file. If it is refused, the archive is as before.
    pub fn insert(&mut self, name: &str, body: &[u8]) -> Result<(), ArchiveError> {
        match self.refusal(name, body.len()) {
            Some(kind) => Err(ArchiveError::new(name, kind)),
            None => {
                self.files.insert(name.to_string(), body.to_vec());
                self.bytes = lay_out(&self.files);
                Ok(())
            }
        }
    }

    /// Why a file cannot be added.
    fn refusal(&self, name: &str, body_bytes: usize) -> Option<ArchiveErrorKind> {
        if name.len() > FILE_NAME_BYTES {
            return Some(ArchiveErrorKind::LongName);
        }
        if !name.split('/').all(is_part) {
            return Some(ArchiveErrorKind::BadName);
        }
        if self.files.contains_key(name) {
            return Some(ArchiveErrorKind::Duplicate);
        }
        if self.files.len() == ARCHIVE_FILES {
            return Some(ArchiveErrorKind::ManyFiles);
        }
        let room = ARCHIVE_BYTES - self.bytes.len();
        let needed = body_bytes.saturating_add(name.len() + LENGTHS);
        (needed > room).then_some(ArchiveErrorKind::Large)
    }

    /// Strikes a file off, and gives its body.
    pub fn remove(&mut self, name: &str) -> Option<Vec<u8>> {
        let body = self.files.remove(name)?;
        self.bytes = lay_out(&self.files);
        Some(body)
    }

    /// How many files there are.
    pub fn len(&self) -> usize {
        self.files.len()
    }

    /// Whether there are no files.
    pub fn is_empty(&self) -> bool {
        self.files.is_empty()
    }

    /// The body of a file.
    pub fn get(&self, name: &str) -> Option<&[u8]> {
        self.files.get(name).map(Vec::as_slice)
    }

    /// The names in the order of the archive, which is that of their bytes.
    pub fn names(&self) -> impl ExactSizeIterator<Item = &str> {
        self.files.keys().map(String::as_str)
    }

    /// The archive as a reading takes it.
    pub fn as_bytes(&self) -> &[u8] {
        &self.bytes
    }
}

/// Bytes of the two lengths that an archive has for each file.
const LENGTHS: usize = 4;

fn is_part(part: &str) -> bool {
    let is_part_byte = |b: u8| b.is_ascii_alphanumeric() || matches!(b, b'_' | b'-' | b'.');
    !matches!(part, "" | "." | "..") && part.bytes().all(is_part_byte)
}

fn lay_out(files: &BTreeMap<String, Vec<u8>>) -> Vec<u8> {
    let mut bytes = number(files.len()).to_vec();
    for (name, body) in files {
        bytes.extend(number(name.len()));
        bytes.extend(number(body.len()));
    }
    for (name, body) in files {
        bytes.extend(name.as_bytes());
        bytes.extend(body);
    }
    bytes
}

/// A number as an archive has it, low byte first.
fn number(n: usize) -> [u8; 2] {
    let n = u16::try_from(n).expect("an archive's limits keep its numbers in 16 bits");
    n.to_le_bytes()
}

impl Default for Archive {
    fn default() -> Self {
        Self::new()
    }
}

impl AsRef<[u8]> for Archive {
    fn as_ref(&self) -> &[u8] {
        self.as_bytes()
    }
}

impl fmt::Debug for Archive {
    fn fmt(&self, f: &mut fmt::Formatter) -> fmt::Result {
        let files = self.files.iter().map(|(name, body)| (name, String::from_utf8_lossy(body)));
        f.debug_map().entries(files).finish()
    }
}

/// A file that an archive refuses, and why.
#[derive(Clone, Debug, PartialEq, Eq)]
pub struct ArchiveError {
    name: String,
    kind: ArchiveErrorKind,
}

impl ArchiveError {
    pub(crate) fn new(name: &str, kind: ArchiveErrorKind) -> Self {
        Self { name: name.to_string(), kind }
    }

    /// The name of the file, as it was given.
    pub fn name(&self) -> &str {
        &self.name
    }

    /// Why it is refused.
    pub fn kind(&self) -> ArchiveErrorKind {
        self.kind
    }
}

/// Why an archive refuses a file: the first of these that holds.
#[derive(Clone, Copy, Debug, PartialEq, Eq, Hash)]
pub enum ArchiveErrorKind {
    /// The name has more than [`FILE_NAME_BYTES`].
    LongName,
    /// The name is not one that an archive can have.
    BadName,
    /// There is a file of that name.
    Duplicate,
    /// There are [`ARCHIVE_FILES`] already.
    ManyFiles,
    /// The archive would have more than [`ARCHIVE_BYTES`].
    Large,
}

impl fmt::Display for ArchiveError {
    fn fmt(&self, f: &mut fmt::Formatter) -> fmt::Result {
        write!(f, "file {:?}: ", self.name)?;
        match self.kind {
            ArchiveErrorKind::LongName => write!(f, "a name of more than {FILE_NAME_BYTES} bytes"),
            ArchiveErrorKind::BadName => write!(f, "a name that is not parts of A-Z a-z 0-9 _ - . joined by /"),
            ArchiveErrorKind::Duplicate => write!(f, "a file of that name is there"),
            ArchiveErrorKind::ManyFiles => write!(f, "more than {ARCHIVE_FILES} files"),
            ArchiveErrorKind::Large => write!(f, "an archive of more than {ARCHIVE_BYTES} bytes"),
        }
    }
}

impl error::Error for ArchiveError {}

//! An archive from a directory.

use crate::archive::{Archive, ArchiveError, ArchiveErrorKind};
use crate::limits::ARCHIVE_BYTES;
use std::error;
use std::fmt;
use std::fs;
use std::io;
use std::path::{Path, PathBuf};

impl Archive {
    /// An archive of every file of a directory and of the directories below it, under its path from there.
    ///
    /// Nothing is passed over in silence: what cannot be in an archive is an error. A link to a file counts as that file;
    /// a link to a directory is an error.
    ///
    /// x11rb's `Database::new_from_data_with_base_directory(data, directory)` is here
    /// `Database::new_from_data_with_archive(data, Archive::from_directory(directory)?)?`. An include that leads out of the
    /// directory, by an absolute path or by `..`, finds nothing here.
    pub fn from_directory(directory: impl AsRef<Path>) -> Result<Self, DirectoryError> {
        let mut archive = Self::new();
        add_directory(&mut archive, directory.as_ref(), "")?;
        Ok(archive)
    }
}

/// Adds the files of a directory, each under `before` and its name.
fn add_directory(archive: &mut Archive, directory: &Path, before: &str) -> Result<(), DirectoryError> {
    let failed = |error| DirectoryError::Io(directory.to_path_buf(), error);
    for entry in fs::read_dir(directory).map_err(failed)? {
        let entry = entry.map_err(failed)?;
        let path = entry.path();
        let Some(name) = entry.file_name().to_str().map(|name| format!("{before}{name}")) else {
            return Err(DirectoryError::NotUnicode(path));
        };
        if entry.file_type().map_err(failed)?.is_dir() {
            add_directory(archive, &path, &format!("{name}/"))?;
        } else {
            add_file(archive, &path, &name)?;
        }
    }
    Ok(())
}

fn add_file(archive: &mut Archive, path: &Path, name: &str) -> Result<(), DirectoryError> {
    let failed = |error| DirectoryError::Io(path.to_path_buf(), error);
    let metadata = fs::metadata(path).map_err(failed)?;
    if !metadata.is_file() {
        return Err(DirectoryError::NotAFile(path.to_path_buf()));
    }
    // A file that is far too large is not read into memory first.
    if metadata.len() > ARCHIVE_BYTES as u64 {
        return Err(ArchiveError::new(name, ArchiveErrorKind::Large).into());
    }
    let body = fs::read(path).map_err(failed)?;
    archive.insert(name, &body).map_err(DirectoryError::Refused)
}

/// Why a directory makes no archive.
#[derive(Debug)]
pub enum DirectoryError {
    /// A directory or a file cannot be read.
    Io(PathBuf, io::Error),
    /// This is neither a file nor a directory, or is a link to a directory.
    NotAFile(PathBuf),
    /// The name is not in Unicode.
    NotUnicode(PathBuf),
    /// The archive refuses a file.
    Refused(ArchiveError),
}

impl From<ArchiveError> for DirectoryError {
    fn from(error: ArchiveError) -> Self {
        Self::Refused(error)
    }
}

impl fmt::Display for DirectoryError {
    fn fmt(&self, f: &mut fmt::Formatter) -> fmt::Result {
        match self {
            Self::Io(path, error) => write!(f, "{}: {error}", path.display()),
            Self::NotAFile(path) => write!(f, "{}: neither a file nor a directory", path.display()),
            Self::NotUnicode(path) => write!(f, "{}: a name that is not in Unicode", path.display()),
            Self::Refused(error) => error.fmt(f),
        }
    }
}

impl error::Error for DirectoryError {}

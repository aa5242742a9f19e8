//! A database from the default places, as a program starts with it.

use crate::database::{Comparison, Database};
use crate::error::Error;
use crate::ffi;
use crate::limits::TEXT_BYTES;
use crate::Archive;
use std::env::var_os;
use std::ffi::OsString;
use std::fs::File;
use std::io::Read;
use std::path::{Path, PathBuf};

/// What the X server says of the property `RESOURCE_MANAGER` of the first screen's root window: the two fields of x11rb's
/// reply that count here.
///
/// The request and the reply stay x11rb's, which this crate does not depend on. Its reply becomes this one by
///
/// ```
/// # use resource_manager::GetPropertyReply;
/// # let reply = GetPropertyReply::default();
/// let reply = GetPropertyReply { format: reply.format, value: reply.value };
/// ```
#[derive(Clone, Debug, Default, PartialEq, Eq)]
pub struct GetPropertyReply {
    /// Bits of a unit of the value: 8 for a text.
    pub format: u8,
    /// The value's bytes.
    pub value: Vec<u8>,
}

impl GetPropertyReply {
    /// Whether a start-up takes the property as its first text.
    fn is_text(&self) -> bool {
        self.format == 8 && !self.value.is_empty()
    }
}

/// What a start-up finds in the default places. [`texts`](Self::texts) says what it uses of that.
///
/// It is found by [`from_environment`](Self::from_environment), or put together by a program that has the texts. A text is
/// none if it could not be read, which is not the same as an empty one.
///
/// ```
/// use resource_manager::{Archive, Database, Source, StartUp};
///
/// let start_up = StartUp {
///     xresources: Some(b"*font: fixed\n*margin: 2".to_vec()),
///     host: Some(b"*font: 9x15".to_vec()),
///     ..StartUp::default()
/// };
/// let [first, second] = start_up.texts();
/// assert_eq!(first, (Source::Xresources, Some(&b"*font: fixed\n*margin: 2"[..])));
/// assert_eq!(second, (Source::Host, Some(&b"*font: 9x15"[..])));
///
/// let database = Database::new_from_start_up(&start_up, Archive::new())?;
/// assert_eq!(database.get_string("xterm.font", ""), Some("9x15"));
/// assert_eq!(database.get_string("xterm.margin", ""), Some("2"));
/// # Ok::<(), resource_manager::Error>(())
/// ```
#[derive(Clone, Debug, Default, PartialEq, Eq)]
pub struct StartUp {
    /// The property `RESOURCE_MANAGER`.
    pub property: GetPropertyReply,
    /// The text of `$HOME/.Xresources`.
    pub xresources: Option<Vec<u8>>,
    /// The text of `$HOME/.Xdefaults`.
    pub xdefaults: Option<Vec<u8>>,
    /// Whether the environment variable XENVIRONMENT is set.
    pub xenvironment_set: bool,
    /// The text of the file that XENVIRONMENT names.
    pub xenvironment: Option<Vec<u8>>,
    /// The text of `$HOME/.Xdefaults-HOSTNAME`.
    pub host: Option<Vec<u8>>,
}

/// One of the default places.
#[derive(Clone, Copy, Debug, PartialEq, Eq, Hash)]
pub enum Source {
    /// The property `RESOURCE_MANAGER`.
    Property,
    /// `$HOME/.Xresources`.
    Xresources,
    /// `$HOME/.Xdefaults`.
    Xdefaults,
    /// The file that XENVIRONMENT names.
    Xenvironment,
    /// `$HOME/.Xdefaults-HOSTNAME`.
    Host,
}

impl StartUp {
    /// Takes HOME and XENVIRONMENT from the environment, and reads the files that a start-up uses, in x11rb's order.
    ///
    /// As in x11rb, a file that isn't used isn't opened, and is none here: no file in HOME but the host's if the property
    /// is a text, no .Xdefaults if .Xresources could be read, no host's file if XENVIRONMENT is set. Without HOME there is
    /// neither .Xresources nor .Xdefaults, and the host's file is looked for in the current directory.
    ///
    /// Of a file that is too long only as much is read as says so.
    pub fn from_environment(reply: &GetPropertyReply, hostname: OsString) -> Self {
        let mut found = Self { property: reply.clone(), ..Self::default() };
        let home = var_os("HOME").map(PathBuf::from);
        if let (false, Some(home)) = (reply.is_text(), &home) {
            found.xresources = text_of(home.join(".Xresources"));
            if found.xresources.is_none() {
                found.xdefaults = text_of(home.join(".Xdefaults"));
            }
        }
        if let Some(path) = var_os("XENVIRONMENT") {
            found.xenvironment_set = true;
            found.xenvironment = text_of(path);
        } else {
            let mut name = OsString::from(".Xdefaults-");
            name.push(hostname);
            found.host = text_of(home.unwrap_or_default().join(name));
        }
        found
    }

    /// The two places that a start-up uses, one after the other, and the text of each; none if it could not be read, and
    /// then it adds nothing.
    ///
    /// The first is the property if its format is 8 and it isn't empty; else .Xresources if it could be read, even if it is
    /// empty; else .Xdefaults. The second is the file that XENVIRONMENT names if that is set; else the host's.
    pub fn texts(&self) -> [(Source, Option<&[u8]>); 2] {
        let first = if self.property.is_text() {
            (Source::Property, Some(&self.property.value[..]))
        } else if self.xresources.is_some() {
            (Source::Xresources, self.xresources.as_deref())
        } else {
            (Source::Xdefaults, self.xdefaults.as_deref())
        };
        let second = if self.xenvironment_set {
            (Source::Xenvironment, self.xenvironment.as_deref())
        } else {
            (Source::Host, self.host.as_deref())
        };
        [first, second]
    }
}

/// The text of a file; none if it cannot be read. One byte over the limit is enough for the refusal.
fn text_of(path: impl AsRef<Path>) -> Option<Vec<u8>> {
    let mut text = Vec::new();
    File::open(path).ok()?.take(TEXT_BYTES as u64 + 1).read_to_end(&mut text).ok()?;
    Some(text)
}

/// # From the default places
///
/// Most programs start so: from the property `RESOURCE_MANAGER` or a file in HOME, and then from a file that XENVIRONMENT
/// names or that belongs to the host.
impl Database {
    /// Reads the texts of the default places: [`StartUp::from_environment`] finds them. An include finds nothing. What it has
    /// found is read at another depth than x11rb's by [`new_from_start_up_at_depth`](Self::new_from_start_up_at_depth).
    ///
    /// ```
    /// # std::env::set_var("HOME", "/no/such/directory");
    /// # std::env::remove_var("XENVIRONMENT");
    /// use resource_manager::{Database, GetPropertyReply};
    ///
    /// # let reply = GetPropertyReply { format: 8, value: b"Xft.dpi: 96".to_vec() };
    /// # let hostname = std::ffi::OsString::from("desk");
    /// // `reply` is the X server's, as x11rb has it, and `hostname` the system's.
    /// let reply = GetPropertyReply { format: reply.format, value: reply.value };
    /// let database = Database::new_from_default(&reply, hostname)?;
    /// assert_eq!(database.get_value::<u32>("Xft.dpi", ""), Ok(Some(96)));
    /// # Ok::<(), resource_manager::Error>(())
    /// ```
    ///
    /// # Not as in x11rb
    ///
    /// - Includes: x11rb opens the files that a text includes: those of the property in the current directory, those of any
    ///   other text in the directory of its file. Here they find nothing, or are in the one archive that
    ///   [`new_from_default_with_archive`](Self::new_from_default_with_archive) takes.
    /// - Limits: those on opens, entries, keys and values run over both texts. A text that is used has at most
    ///   [`TEXT_BYTES`](crate::limits::TEXT_BYTES); one that isn't used is not looked at.
    /// - What is past them is an error, and not a shorter database.
    pub fn new_from_default(reply: &GetPropertyReply, hostname: OsString) -> Result<Self, Error> {
        Self::new_from_default_with_archive(reply, hostname, Archive::new())
    }

    /// As [`new_from_default`](Self::new_from_default), with the files of an archive where a text includes them.
    ///
    /// Whatever its place, a text includes from the archive's root: `#include "pack"` is the file `pack` of the archive. If
    /// all the texts that include are in one directory of few files, [`Archive::from_directory`] has these; a home has too
    /// many, and [`Archive::from_files`] takes those that are meant.
    pub fn new_from_default_with_archive(
        reply: &GetPropertyReply,
        hostname: OsString,
        archive: impl AsRef<[u8]>,
    ) -> Result<Self, Error> {
        Self::new_from_start_up(&StartUp::from_environment(reply, hostname), archive)
    }

    /// Reads what a start-up has found, and the files of an archive where a text includes them, at x11rb's depth,
    /// [`GREATEST_DEPTH`](crate::limits::GREATEST_DEPTH). No file is opened.
    pub fn new_from_start_up(start_up: &StartUp, archive: impl AsRef<[u8]>) -> Result<Self, Error> {
        Self::read(|contents, bodies| ffi::read_default(start_up, archive.as_ref(), contents, bodies))
    }

    /// The same at another depth.
    pub fn new_from_start_up_at_depth(start_up: &StartUp, archive: impl AsRef<[u8]>, depth: u64) -> Result<Self, Error> {
        Self::read(|contents, bodies| ffi::read_default_depth(start_up, archive.as_ref(), depth, contents, bodies))
    }

    /// Reads the property `RESOURCE_MANAGER`; none if its format is not 8 or it is empty. An include finds nothing; for a
    /// property that includes, see [`new_from_data_with_archive`](Self::new_from_data_with_archive).
    ///
    /// ```
    /// use resource_manager::{Database, GetPropertyReply};
    ///
    /// let reply = GetPropertyReply { format: 8, value: b"Xft.dpi: 96".to_vec() };
    /// let database = Database::new_from_get_property_reply(&reply)?.unwrap_or_default();
    /// assert_eq!(database.get_string("Xft.dpi", ""), Some("96"));
    /// # Ok::<(), resource_manager::Error>(())
    /// ```
    pub fn new_from_get_property_reply(reply: &GetPropertyReply) -> Result<Option<Self>, Error> {
        reply.is_text().then(|| Self::new_from_data(&reply.value)).transpose()
    }

    /// As [`compare_without`](Self::compare_without), for a start-up: what one file of an archive changes for a query.
    ///
    /// ```
    /// # use resource_manager::{Archive, Database, StartUp};
    /// let archive = Archive::from_files([("pack", "reader.search.range: chapter")])?;
    /// let start_up = StartUp {
    ///     xdefaults: Some(b"*search.range: book".to_vec()),
    ///     host: Some(b"#include \"pack\"".to_vec()),
    ///     ..StartUp::default()
    /// };
    /// let compared = Database::compare_default_without(&start_up, &archive, "pack", "reader.search.range", "")?;
    /// let comparison = compared.expect("a file");
    /// assert_eq!(comparison.with_file.as_deref(), Some(&b"chapter"[..]));
    /// assert_eq!(comparison.without_file.as_deref(), Some(&b"book"[..]));
    /// # Ok::<(), Box<dyn std::error::Error>>(())
    /// ```
    pub fn compare_default_without(
        start_up: &StartUp,
        archive: &Archive,
        file: &str,
        resource_name: &str,
        resource_class: &str,
    ) -> Result<Option<Comparison>, Error> {
        let call = |question: ffi::Question, room: ffi::Room| ffi::compare_default_without(start_up, question, room);
        Self::compare(call, archive, file, resource_name, resource_class)
    }
}

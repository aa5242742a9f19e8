//! A database: read from a text, looked up, listed, added to, and written out.

use crate::error::{Error, NotANumber, ValueError};
use crate::ffi::{self, Bounds, Image, ImageMut, Question, Room};
use crate::limits::{BODIES_BYTES, CONTENTS_WORDS, UNKNOWN_FILE, WRITTEN_BYTES};
use crate::{Aligned, Archive, Walk};
use std::fmt;
use std::io;
use std::slice::ChunksExact;
use std::str::FromStr;

/// The words of an entry's row: its start, the lengths of its key and of its value, and where its line stands.
const ROW_WORDS: usize = 4;

/// The low 16 bits of an answer that is a value, and of one that is none.
pub(crate) const FOUND: u64 = 0;
pub(crate) const NONE: u64 = 65_535;
/// Of `get_value`: there is a value, and it is not a number.
const NOT_A_NUMBER: u64 = 65_534;

/// A database of X resources.
///
/// It is made from a text by [`new_from_data`](Self::new_from_data), with files for its includes by
/// [`new_from_data_with_archive`](Self::new_from_data_with_archive), or from the default places of X by
/// [`new_from_default`](Self::new_from_default). Lines are added by [`add`](Self::add), and all of it is written out again by
/// [`to_text`](Self::to_text). It owns its memory, some 37 kilobytes.
///
/// # Queries
///
/// A lookup takes a resource name and a resource class: components joined by `.`, of A–Z a–z 0–9 `_` `-`. The class may be
/// empty. A malformed query finds nothing. If several entries match, X's rules of precedence say which one counts.
///
/// # Refused lookups
///
/// A query over [`QUERY_BYTES`](crate::limits::QUERY_BYTES) or [`QUERY_PARTS`](crate::limits::QUERY_PARTS) is refused, and
/// that is not the same as finding nothing. The `get_` methods have the shape of x11rb's, with no room for a refusal:
/// there it is a panic. A program whose queries are constants uses these. One whose queries are made as it runs uses the
/// `try_get_` methods, which return the refusal. It is the same with [`aligned`](Self::aligned) and [`walk`](Self::walk).
#[derive(Clone)]
pub struct Database {
    contents: Box<[u16]>,
    bodies: Box<[u8]>,
    opens: usize,
}

impl Database {
    /// Reads a text such as `Some.Entry: Value`. A line that is no resource is skipped. An include finds nothing.
    ///
    /// ```
    /// use resource_manager::{Database, Error};
    ///
    /// let database = Database::new_from_data(b"*font: fixed\nxterm*font: 9x15")?;
    /// assert_eq!(database.get_string("xterm.vt100.font", "XTerm.VT100.Font"), Some("9x15"));
    ///
    /// let too_long = vec![b'\n'; 32_769];
    /// assert_eq!(Database::new_from_data(&too_long).unwrap_err(), Error::LongText);
    /// # Ok::<(), Error>(())
    /// ```
    pub fn new_from_data(data: &[u8]) -> Result<Self, Error> {
        Self::new_from_data_with_archive(data, Archive::new())
    }

    /// Reads a text, and the files of an archive where the text includes them, at depth
    /// [`DEFAULT_DEPTH`](crate::limits::DEFAULT_DEPTH).
    ///
    /// The archive is an [`Archive`], or bytes that are laid out as one.
    ///
    /// ```
    /// use resource_manager::{Archive, Database};
    ///
    /// let archive = Archive::from_files([("pack", "*search.range: chapter")])?;
    /// let text = b"#include \"pack\"\nreader.search.range: book";
    /// let database = Database::new_from_data_with_archive(text, &archive)?;
    /// assert_eq!(database.get_string("reader.search.range", ""), Some("book"));
    /// assert_eq!(database.get_string("viewer.search.range", ""), Some("chapter"));
    /// # Ok::<(), Box<dyn std::error::Error>>(())
    /// ```
    pub fn new_from_data_with_archive(data: &[u8], archive: impl AsRef<[u8]>) -> Result<Self, Error> {
        Self::read(|contents, bodies| ffi::read(data, archive.as_ref(), contents, bodies))
    }

    /// The same at another depth: x11rb's is [`GREATEST_DEPTH`](crate::limits::GREATEST_DEPTH), and at 0 no include finds a file.
    ///
    /// ```
    /// use resource_manager::limits::GREATEST_DEPTH;
    /// use resource_manager::{Archive, Database, Error};
    ///
    /// // A file that includes itself is read as often as the depth allows.
    /// let archive = Archive::from_files([("p", "#include \"p\"\n*margin: 2")])?;
    /// let opens = |depth| Database::new_from_data_at_depth(b"#include \"p\"", &archive, depth).map(|database| database.opens());
    /// assert_eq!(opens(0), Ok(0));
    /// assert_eq!(opens(3), Ok(3));
    /// assert_eq!(opens(GREATEST_DEPTH), Ok(100));
    /// assert_eq!(opens(GREATEST_DEPTH + 1), Err(Error::TooDeep));
    /// assert_eq!(Database::new_from_data_with_archive(b"#include \"p\"", &archive)?.opens(), 20);
    /// # Ok::<(), Box<dyn std::error::Error>>(())
    /// ```
    pub fn new_from_data_at_depth(data: &[u8], archive: impl AsRef<[u8]>, depth: u64) -> Result<Self, Error> {
        Self::read(|contents, bodies| ffi::read_depth(data, archive.as_ref(), depth, contents, bodies))
    }

    /// The database that a reading call leaves in the buffers that it is given.
    pub(crate) fn read(call: impl FnOnce(&mut [u16], &mut [u8]) -> u64) -> Result<Self, Error> {
        let mut database = Self::default();
        let answer = call(&mut database.contents, &mut database.bodies);
        if answer & 0xFFFF != FOUND {
            return Err(Error::of_answer(answer));
        }
        database.opens = (answer >> 32) as usize;
        Ok(database)
    }

    /// The value of a query, as bytes.
    ///
    /// ```
    /// # use resource_manager::Database;
    /// fn pointer_shape(database: &Database) -> &[u8] {
    ///     database.get_bytes("XTerm.vt100.pointerShape", "XTerm.VT100.Cursor").unwrap_or(b"xterm")
    /// }
    /// # assert_eq!(pointer_shape(&Database::default()), b"xterm");
    /// ```
    ///
    /// # Panics
    ///
    /// If the query is [refused](Self#refused-lookups).
    #[track_caller]
    pub fn get_bytes(&self, resource_name: &str, resource_class: &str) -> Option<&[u8]> {
        unrefused(self.try_get_bytes(resource_name, resource_class))
    }

    /// The value of a query, as bytes, or else the default: where there is no value, and where the query is
    /// [refused](Self#refused-lookups). It never panics.
    ///
    /// ```
    /// # use resource_manager::Database;
    /// let database = Database::new_from_data(b"*family: Serif\n*slant:")?;
    /// assert_eq!(database.get_bytes_or("font.family", "", b"Sans"), b"Serif");
    /// assert_eq!(database.get_bytes_or("font.slant", "", b"upright"), b"");
    /// assert_eq!(database.get_bytes_or("font.weight", "", b"normal"), b"normal");
    /// # Ok::<(), resource_manager::Error>(())
    /// ```
    pub fn get_bytes_or<'a>(&'a self, resource_name: &str, resource_class: &str, default: &'a [u8]) -> &'a [u8] {
        self.lookups(Bounds::Shell).show(resource_name, resource_class, default)
    }

    /// The value of a query, as a string; none if it is not UTF-8.
    ///
    /// # Panics
    ///
    /// If the query is [refused](Self#refused-lookups).
    #[track_caller]
    pub fn get_string(&self, resource_name: &str, resource_class: &str) -> Option<&str> {
        unrefused(self.try_get_string(resource_name, resource_class))
    }

    /// The value of a query, as a boolean; none if it is neither a decimal number in the range of `i64`, which is true if
    /// it is not 0, nor, in any case of letters, `true`, `on`, `yes`, `false`, `off` or `no`.
    ///
    /// ```
    /// # use resource_manager::Database;
    /// let database = Database::new_from_data(b"*hyphenation: Yes")?;
    /// assert_eq!(database.get_bool("reader.hyphenation", ""), Some(true));
    /// # Ok::<(), resource_manager::Error>(())
    /// ```
    ///
    /// # Panics
    ///
    /// If the query is [refused](Self#refused-lookups).
    #[track_caller]
    pub fn get_bool(&self, resource_name: &str, resource_class: &str) -> Option<bool> {
        unrefused(self.try_get_bool(resource_name, resource_class))
    }

    /// The string of a query, parsed by the type's own [`FromStr`]; none if there is no such string.
    ///
    /// The lookup is the library's, the parsing is not. For a number that the library parses, see
    /// [`get_i64`](Self::get_i64).
    ///
    /// ```
    /// # use resource_manager::Database;
    /// let database = Database::new_from_data(b"Xft.dpi: 96")?;
    /// assert_eq!(database.get_value::<u32>("Xft.dpi", ""), Ok(Some(96)));
    /// assert_eq!(database.get_value::<u32>("Xft.rgba", ""), Ok(None));
    /// # Ok::<(), resource_manager::Error>(())
    /// ```
    ///
    /// # Panics
    ///
    /// If the query is [refused](Self#refused-lookups).
    #[track_caller]
    pub fn get_value<T: FromStr>(&self, resource_name: &str, resource_class: &str) -> Result<Option<T>, T::Err> {
        self.get_string(resource_name, resource_class).map(T::from_str).transpose()
    }

    /// The value of a query, as a number: what `get_value::<i64>` gives, parsed by the library.
    ///
    /// ```
    /// # use resource_manager::{Database, NotANumber};
    /// let database = Database::new_from_data(b"*size: 14\n*family: Serif")?;
    /// assert_eq!(database.get_i64("font.size", ""), Ok(Some(14)));
    /// assert_eq!(database.get_i64("font.family", ""), Err(NotANumber));
    /// assert_eq!(database.get_i64("font.slant", ""), Ok(None));
    /// # Ok::<(), resource_manager::Error>(())
    /// ```
    ///
    /// # Panics
    ///
    /// If the query is [refused](Self#refused-lookups).
    #[track_caller]
    pub fn get_i64(&self, resource_name: &str, resource_class: &str) -> Result<Option<i64>, NotANumber> {
        match self.try_get_i64(resource_name, resource_class) {
            Ok(number) => Ok(number),
            Err(ValueError::Parse(not_a_number)) => Err(not_a_number),
            Err(ValueError::Refused(error)) => unrefused(Err(error)),
        }
    }

    /// As [`get_bytes`](Self::get_bytes), with the refusal if the query is refused.
    ///
    /// ```
    /// # use resource_manager::{Database, Error};
    /// let database = Database::default();
    /// assert_eq!(database.try_get_bytes("a", ""), Ok(None));
    /// assert_eq!(database.try_get_bytes(&"a".repeat(1_025), ""), Err(Error::LongQuery));
    /// assert_eq!(database.try_get_bytes(&"a.".repeat(33), ""), Err(Error::ManyQueryParts));
    /// ```
    pub fn try_get_bytes(&self, resource_name: &str, resource_class: &str) -> Result<Option<&[u8]>, Error> {
        self.lookups(Bounds::Shell).bytes(resource_name, resource_class)
    }

    /// As [`get_string`](Self::get_string), with the refusal if the query is refused.
    pub fn try_get_string(&self, resource_name: &str, resource_class: &str) -> Result<Option<&str>, Error> {
        self.lookups(Bounds::Shell).string(resource_name, resource_class)
    }

    /// As [`get_bool`](Self::get_bool), with the refusal if the query is refused.
    pub fn try_get_bool(&self, resource_name: &str, resource_class: &str) -> Result<Option<bool>, Error> {
        self.lookups(Bounds::Shell).boolean(resource_name, resource_class)
    }

    /// As [`get_value`](Self::get_value), with the refusal if the query is refused.
    pub fn try_get_value<T: FromStr>(&self, resource_name: &str, resource_class: &str) -> Result<Option<T>, ValueError<T::Err>> {
        let string = self.try_get_string(resource_name, resource_class)?;
        string.map(T::from_str).transpose().map_err(ValueError::Parse)
    }

    /// As [`get_i64`](Self::get_i64), with the refusal if the query is refused.
    pub fn try_get_i64(&self, resource_name: &str, resource_class: &str) -> Result<Option<i64>, ValueError<NotANumber>> {
        self.lookups(Bounds::Shell).number(resource_name, resource_class)
    }

    /// The entries in the order in which they were read.
    ///
    /// ```
    /// # use resource_manager::{Database, Entry};
    /// let database = Database::new_from_data(b"a.b: x\n*c: yes")?;
    /// let entries: Vec<Entry> = database.entries().collect();
    /// assert_eq!(entries, [Entry { key: b".a.b", value: b"x" }, Entry { key: b"*c", value: b"yes" }]);
    /// # Ok::<(), resource_manager::Error>(())
    /// ```
    pub fn entries(&self) -> Entries<'_> {
        let count = usize::from(self.contents[0]);
        Entries { rows: self.contents[2..2 + ROW_WORDS * count].chunks_exact(ROW_WORDS), bodies: &self.bodies }
    }

    /// Where the line of an entry stands, by the entry's number; none if there are no more than so many.
    ///
    /// ```
    /// # use resource_manager::{Archive, Database, Origin};
    /// let archive = Archive::from_files([("pack", "*range: book"), ("school", "#include \"pack\"\n*font: large")])?;
    /// let mut database = Database::new_from_data_with_archive(b"#include \"school\"\nreader.range: chapter", &archive)?;
    /// database.add(b"*font: small")?;
    /// let origins: Vec<Origin> = (0..).map_while(|number| database.origin(number)).collect();
    /// assert_eq!(origins, [Origin::File(1), Origin::File(2), Origin::MainText, Origin::Unknown]);
    /// assert_eq!(origins[0].name_in(&archive), Some("pack"));
    /// assert_eq!(origins[2].name_in(&archive), None);
    /// # Ok::<(), Box<dyn std::error::Error>>(())
    /// ```
    pub fn origin(&self, number: usize) -> Option<Origin> {
        let count = usize::from(self.contents[0]);
        (number < count).then(|| Origin::of(usize::from(self.contents[2 + ROW_WORDS * number + 3])))
    }

    /// The database of an old image, whose rows do not say where a line stands: contents of [`OLD_CONTENTS_WORDS`] words or more. Its
    /// entries, values and answers are those of the old image, and each entry's origin is unknown. [`Error::NoImage`] if the buffers hold no
    /// old image.
    ///
    /// [`OLD_CONTENTS_WORDS`]: crate::limits::OLD_CONTENTS_WORDS
    ///
    /// ```
    /// # use resource_manager::{limits, Database, Error, Origin};
    /// let (mut contents, mut bodies) = (vec![0; limits::OLD_CONTENTS_WORDS], vec![0; limits::BODIES_BYTES]);
    /// contents[..5].copy_from_slice(&[1, 3, 0, 2, 1]);
    /// bodies[..3].copy_from_slice(b".ax");
    /// let database = Database::migrate(&contents, &bodies)?;
    /// assert_eq!(database.get_bytes("a", ""), Some(&b"x"[..]));
    /// assert_eq!(database.origin(0), Some(Origin::Unknown));
    /// assert_eq!(Database::migrate(&contents[1..], &bodies).err(), Some(Error::NoImage));
    /// # Ok::<(), Error>(())
    /// ```
    pub fn migrate(old_contents: &[u16], old_bodies: &[u8]) -> Result<Self, Error> {
        Self::read(|contents, bodies| ffi::migrate(old_contents, old_bodies, contents, bodies))
    }

    /// The entry of a number, from 0, in the order in which they were read and added; none if there are no more than so many.
    ///
    /// ```
    /// # use resource_manager::{Database, Entry};
    /// let database = Database::new_from_data(b"a.b: x\n*c: yes")?;
    /// assert_eq!(database.entry(1), Some(Entry { key: b"*c", value: b"yes" }));
    /// assert_eq!(database.entry(2), None);
    /// # Ok::<(), resource_manager::Error>(())
    /// ```
    pub fn entry(&self, number: usize) -> Option<Entry<'_>> {
        self.entries().nth(number)
    }

    /// The entries that align with a query, lowest number first, each with its number: all that a settings page would list, and
    /// not only the one whose value counts.
    ///
    /// The database is borrowed meanwhile. To list while lines are added, begin a [`walk`](Self::walk).
    ///
    /// ```
    /// # use resource_manager::Database;
    /// let database = Database::new_from_data(b"*range: page\nreader.font: Serif\nreader*range: book")?;
    /// let listed: Vec<String> =
    ///     database.aligned("reader.search.range", "").map(|(number, entry)| format!("{number} {entry:?}")).collect();
    /// assert_eq!(listed, ["0 \"*range: page\"", "2 \".reader*range: book\""]);
    /// assert_eq!(database.get_string("reader.search.range", ""), Some("book"));
    /// # Ok::<(), resource_manager::Error>(())
    /// ```
    ///
    /// # Panics
    ///
    /// If the query is [refused](Self#refused-lookups).
    #[track_caller]
    pub fn aligned(&self, resource_name: &str, resource_class: &str) -> Aligned<'_> {
        unrefused(self.try_aligned(resource_name, resource_class))
    }

    /// As [`aligned`](Self::aligned), with the refusal if the query is refused.
    pub fn try_aligned(&self, resource_name: &str, resource_class: &str) -> Result<Aligned<'_>, Error> {
        Ok(Aligned { walk: self.try_walk(resource_name, resource_class)?, database: self })
    }

    /// Begins a walk over the entries that align with a query, which goes on while lines are added: see [`Walk`].
    ///
    /// # Panics
    ///
    /// If the query is [refused](Self#refused-lookups).
    #[track_caller]
    pub fn walk(&self, resource_name: &str, resource_class: &str) -> Walk {
        unrefused(self.try_walk(resource_name, resource_class))
    }

    /// As [`walk`](Self::walk), with the refusal if the query is refused.
    pub fn try_walk(&self, resource_name: &str, resource_class: &str) -> Result<Walk, Error> {
        Walk::begin(self, resource_name, resource_class)
    }

    /// Adds a line: the entry that a text makes is put behind those of the database, and its number is returned. An include finds
    /// nothing. Comments, and lines that are no resource, may stand beside the entry.
    ///
    /// ```
    /// # use resource_manager::{Database, Error};
    /// let mut database = Database::new_from_data(b"*size: 12")?;
    /// assert_eq!(database.add(b"! larger print\nreader*size: 18"), Ok(1));
    /// assert_eq!(database.get_string("reader.font.size", ""), Some("18"));
    /// assert_eq!(database.add(b"*size: 12\n*size: 18"), Err(Error::NotOneEntry));
    /// assert_eq!(database.add(b"not a resource"), Err(Error::NotOneEntry));
    /// # Ok::<(), Error>(())
    /// ```
    ///
    /// # Errors
    ///
    /// The database is then as it was. Of these the first that holds: [`LongText`](Error::LongText);
    /// [`NotOneEntry`](Error::NotOneEntry) for no entry or more than one, whatever they are;
    /// [`ManyEntryParts`](Error::ManyEntryParts); [`ManyEntries`](Error::ManyEntries) or [`FullStore`](Error::FullStore) if the
    /// database has no room for it.
    pub fn add(&mut self, text: &[u8]) -> Result<usize, Error> {
        let answer = ffi::add(self.image_mut(), text);
        if answer & 0xFFFF != FOUND {
            return Err(Error::of_answer(answer));
        }
        Ok((answer >> 16) as usize)
    }

    /// How many times the reading read an included file.
    pub fn opens(&self) -> usize {
        self.opens
    }

    /// The database as a text, which [`new_from_data`](Self::new_from_data) reads back: a line for each entry, in their order.
    ///
    /// A line is the key, `: ` and the value. In the value a backslash is doubled, a newline is `\n`, and a space or tab that
    /// begins it has a backslash before it; all other bytes stand as they are, so that the text need not be UTF-8. No include is
    /// left: what was read from an archive stands in the text itself.
    ///
    /// Two databases have the same text just where they have the same entries. A text of more than
    /// [`TEXT_BYTES`](crate::limits::TEXT_BYTES), which a database of long values may have, is not read back; none has more than
    /// [`WRITTEN_BYTES`](crate::limits::WRITTEN_BYTES).
    ///
    /// ```
    /// # use resource_manager::{Archive, Database};
    /// let archive = Archive::from_files([("pack", "*hyphenation:on")])?;
    /// let database = Database::new_from_data_with_archive(b"#include \"pack\"\n! of a lesson\nreader..title:\\ A\\nB", &archive)?;
    /// let text = database.to_text();
    /// assert_eq!(text, b"*hyphenation: on\n.reader.title: \\ A\\nB\n");
    /// assert!(Database::new_from_data(&text)?.entries().eq(database.entries()));
    /// # Ok::<(), Box<dyn std::error::Error>>(())
    /// ```
    pub fn to_text(&self) -> Vec<u8> {
        let mut text = vec![0; WRITTEN_BYTES];
        let answer = ffi::write(self.image(), &mut text);
        // Neither 8 nor 11 can come up: a database is an image, and no text is longer than the buffer.
        assert_eq!(answer & 0xFFFF, FOUND, "a writing is refused");
        let length = (answer >> 32) as usize;
        text.truncate(length);
        text.shrink_to_fit();
        text
    }

    /// Writes the database out as a text, as [`to_text`](Self::to_text) gives it, to a file or another writer.
    ///
    /// ```
    /// # use resource_manager::Database;
    /// # fn save(database: &Database, path: &std::path::Path) -> std::io::Result<()> {
    /// database.write_to(std::fs::File::create(path)?)
    /// # }
    /// # let path = std::env::temp_dir().join(format!("settings-{}", std::process::id()));
    /// # let database = Database::new_from_data(b"a: 1").unwrap();
    /// # save(&database, &path).unwrap();
    /// # assert_eq!(std::fs::read(&path).unwrap(), b".a: 1\n");
    /// # std::fs::remove_file(path).unwrap();
    /// ```
    pub fn write_to<W: io::Write>(&self, mut writer: W) -> io::Result<()> {
        writer.write_all(&self.to_text())
    }

    /// What one file of an archive changes: the value of a query as it is read with the file, and as it is read with the
    /// file struck off, both at depth [`DEFAULT_DEPTH`](crate::limits::DEFAULT_DEPTH). None if the archive has no such file.
    ///
    /// ```
    /// # use resource_manager::{Archive, Comparison, Database};
    /// let archive = Archive::from_files([("pack", "reader.search.range: chapter")])?;
    /// let text = b"*search.range: book\n#include \"pack\"";
    /// let comparison = Database::compare_without(text, &archive, "pack", "reader.search.range", "")?.expect("a file");
    /// assert_eq!(comparison.with_file.as_deref(), Some(&b"chapter"[..]));
    /// assert_eq!(comparison.without_file.as_deref(), Some(&b"book"[..]));
    /// assert!(!comparison.is_same());
    /// # Ok::<(), Box<dyn std::error::Error>>(())
    /// ```
    pub fn compare_without(
        data: &[u8],
        archive: &Archive,
        file: &str,
        resource_name: &str,
        resource_class: &str,
    ) -> Result<Option<Comparison>, Error> {
        let call = |question: Question, room: Room| ffi::compare_without(data, question, room);
        Self::compare(call, archive, file, resource_name, resource_class)
    }

    /// The same at another depth, which is that of both readings.
    pub fn compare_without_at_depth(
        data: &[u8],
        archive: &Archive,
        depth: u64,
        file: &str,
        resource_name: &str,
        resource_class: &str,
    ) -> Result<Option<Comparison>, Error> {
        let call = |question: Question, room: Room| ffi::compare_without_depth(data, depth, question, room);
        Self::compare(call, archive, file, resource_name, resource_class)
    }

    /// What a comparing call answers to a query, with a file of an archive and without it.
    pub(crate) fn compare(
        call: impl FnOnce(Question, Room) -> u64,
        archive: &Archive,
        file: &str,
        resource_name: &str,
        resource_class: &str,
    ) -> Result<Option<Comparison>, Error> {
        let question = Question {
            archive: archive.as_bytes(),
            // A name that is not there gets a number that no file has: the library says so, after its other refusals.
            file: archive.names().position(|name| name == file).unwrap_or(archive.len()),
            name: resource_name.as_bytes(),
            class: resource_class.as_bytes(),
        };
        let (mut first, mut second) = (Self::default(), Self::default());
        let mut struck = vec![0; archive.as_bytes().len()];
        let (mut with_it, mut without) = (NONE, NONE);
        let room = Room {
            struck: &mut struck,
            first: first.image_mut(),
            second: second.image_mut(),
            with_it: &mut with_it,
            without: &mut without,
        };
        match call(question, room) {
            FOUND => {}
            NONE => return Ok(None),
            refused => return Err(Error::of_answer(refused)),
        }
        let (with_file, without_file) =
            (first.lookups(Bounds::Shell).value(with_it)?, second.lookups(Bounds::Shell).value(without)?);
        Ok(Some(Comparison { with_file: with_file.map(<[u8]>::to_vec), without_file: without_file.map(<[u8]>::to_vec) }))
    }

    fn image_mut(&mut self) -> ImageMut<'_> {
        ImageMut { contents: &mut self.contents, bodies: &mut self.bodies }
    }

    pub(crate) fn image(&self) -> Image<'_> {
        Image { contents: &self.contents, bodies: &self.bodies }
    }

    fn lookups(&self, bounds: Bounds) -> Lookups<'_> {
        Lookups { bounds, image: self.image() }
    }

    /// The lookups of the dictionary window, at its smaller limits.
    ///
    /// ```
    /// # use resource_manager::{Database, Error};
    /// let database = Database::new_from_data(b"*search.range: book")?;
    /// let window = database.window();
    /// assert_eq!(window.try_get_string("reader.search.range", "")?, Some("book"));
    /// assert_eq!(window.try_get_bytes(&"a".repeat(129), ""), Err(Error::LongQuery));
    /// assert_eq!(window.try_get_bytes(&"a.".repeat(9), ""), Err(Error::ManyQueryParts));
    /// # Ok::<(), resource_manager::Error>(())
    /// ```
    pub fn window(&self) -> Window<'_> {
        Window(self.lookups(Bounds::Window))
    }
}

/// The lookups of the library in an image, at one of two bounds.
#[derive(Clone, Copy)]
struct Lookups<'a> {
    bounds: Bounds,
    image: Image<'a>,
}

impl<'a> Lookups<'a> {
    fn value(self, answer: u64) -> Result<Option<&'a [u8]>, Error> {
        match answer & 0xFFFF {
            FOUND => {
                let (place, length) = ((answer >> 16 & 0xFFFF) as usize, (answer >> 32) as usize);
                Ok(Some(&self.image.bodies[place..place + length]))
            }
            NONE => Ok(None),
            _ => Err(Error::of_answer(answer)),
        }
    }

    fn bytes(self, name: &str, class: &str) -> Result<Option<&'a [u8]>, Error> {
        self.value(ffi::get_bytes(self.bounds, self.image, name.as_bytes(), class.as_bytes()))
    }

    fn show(self, name: &str, class: &str, default: &'a [u8]) -> &'a [u8] {
        ffi::show(self.bounds, self.image, name.as_bytes(), class.as_bytes(), default)
    }

    fn string(self, name: &str, class: &str) -> Result<Option<&'a str>, Error> {
        let value = self.value(ffi::get_string(self.bounds, self.image, name.as_bytes(), class.as_bytes()))?;
        // The library has judged the bytes; they are judged once more, as the way around that is unsafe.
        Ok(value.map(|bytes| std::str::from_utf8(bytes).expect("get_string gives UTF-8")))
    }

    fn boolean(self, name: &str, class: &str) -> Result<Option<bool>, Error> {
        match ffi::get_bool(self.bounds, self.image, name.as_bytes(), class.as_bytes()) {
            65_536 => Ok(Some(true)),
            0 => Ok(Some(false)),
            NONE => Ok(None),
            refused => Err(Error::of_answer(refused)),
        }
    }

    fn number(self, name: &str, class: &str) -> Result<Option<i64>, ValueError<NotANumber>> {
        let mut number = 0;
        match ffi::get_value(self.bounds, self.image, name.as_bytes(), class.as_bytes(), &mut number) {
            FOUND => Ok(Some(number)),
            NOT_A_NUMBER => Err(ValueError::Parse(NotANumber)),
            NONE => Ok(None),
            refused => Err(ValueError::Refused(Error::of_answer(refused))),
        }
    }
}

/// A database as the dictionary window asks it: [`Database::window`]. It has little stack, and its queries are of at most
/// [`WINDOW_BYTES`](crate::limits::WINDOW_BYTES) and [`WINDOW_PARTS`](crate::limits::WINDOW_PARTS). A query within these gets the
/// answer that the database itself gives.
#[derive(Clone, Copy)]
pub struct Window<'a>(Lookups<'a>);

impl fmt::Debug for Window<'_> {
    fn fmt(&self, f: &mut fmt::Formatter<'_>) -> fmt::Result {
        f.debug_struct("Window").finish_non_exhaustive()
    }
}

impl<'a> Window<'a> {
    /// As [`Database::try_get_bytes`].
    pub fn try_get_bytes(&self, resource_name: &str, resource_class: &str) -> Result<Option<&'a [u8]>, Error> {
        self.0.bytes(resource_name, resource_class)
    }

    /// As [`Database::get_bytes_or`]: it never panics.
    pub fn get_bytes_or(&self, resource_name: &str, resource_class: &str, default: &'a [u8]) -> &'a [u8] {
        self.0.show(resource_name, resource_class, default)
    }

    /// As [`Database::try_get_string`].
    pub fn try_get_string(&self, resource_name: &str, resource_class: &str) -> Result<Option<&'a str>, Error> {
        self.0.string(resource_name, resource_class)
    }

    /// As [`Database::try_get_bool`].
    pub fn try_get_bool(&self, resource_name: &str, resource_class: &str) -> Result<Option<bool>, Error> {
        self.0.boolean(resource_name, resource_class)
    }

    /// As [`Database::try_get_i64`].
    pub fn try_get_i64(&self, resource_name: &str, resource_class: &str) -> Result<Option<i64>, ValueError<NotANumber>> {
        self.0.number(resource_name, resource_class)
    }
}

#[track_caller]
fn unrefused<T>(answer: Result<T, Error>) -> T {
    match answer {
        Ok(answer) => answer,
        Err(error) => panic!("lookup refused: {error}"),
    }
}

/// A database of no entries.
impl Default for Database {
    fn default() -> Self {
        Self { contents: vec![0; CONTENTS_WORDS].into(), bodies: vec![0; BODIES_BYTES].into(), opens: 0 }
    }
}

impl fmt::Debug for Database {
    fn fmt(&self, f: &mut fmt::Formatter) -> fmt::Result {
        f.debug_list().entries(self.entries()).finish()
    }
}

/// A query's values with a file and without it: see [`Database::compare_without`].
#[derive(Clone, Debug, PartialEq, Eq)]
pub struct Comparison {
    /// The value if the file is in the archive.
    pub with_file: Option<Vec<u8>>,
    /// The value if the file is struck off.
    pub without_file: Option<Vec<u8>>,
}

impl Comparison {
    /// Whether the file changes nothing for the query.
    pub fn is_same(&self) -> bool {
        self.with_file == self.without_file
    }
}

/// The entries of a database: see [`Database::entries`].
#[derive(Clone, Debug)]
pub struct Entries<'a> {
    /// For each entry its start, the lengths of its key and of its value, and where its line stands.
    rows: ChunksExact<'a, u16>,
    bodies: &'a [u8],
}

impl<'a> Iterator for Entries<'a> {
    type Item = Entry<'a>;

    fn next(&mut self) -> Option<Entry<'a>> {
        self.rows.next().map(|row| Entry::of(row, self.bodies))
    }

    fn nth(&mut self, n: usize) -> Option<Entry<'a>> {
        self.rows.nth(n).map(|row| Entry::of(row, self.bodies))
    }

    fn size_hint(&self) -> (usize, Option<usize>) {
        self.rows.size_hint()
    }
}

impl ExactSizeIterator for Entries<'_> {}

/// Where the line of an entry stands: see [`Database::origin`].
#[derive(Clone, Copy, Debug, PartialEq, Eq, Hash)]
pub enum Origin {
    /// In the main text, or in a text of a start-up.
    MainText,
    /// In the file of that place in the archive, from 1, in the order of names.
    File(usize),
    /// In no file that is known: the line was added, or the image was carried over from an old one.
    Unknown,
}

impl Origin {
    fn of(word: usize) -> Self {
        match word {
            0 => Self::MainText,
            UNKNOWN_FILE => Self::Unknown,
            place => Self::File(place),
        }
    }

    /// The name of the file, in the archive that was read; none if the line stands in no file of it. An archive that has changed since may
    /// give another file's name.
    pub fn name_in(self, archive: &Archive) -> Option<&str> {
        match self {
            Self::File(place) => archive.names().nth(place.checked_sub(1)?),
            Self::MainText | Self::Unknown => None,
        }
    }
}

/// An entry of a database.
#[derive(Clone, Copy, PartialEq, Eq, Hash)]
pub struct Entry<'a> {
    /// Each component after its binding: `.` if it is tight, `*` if it is loose.
    pub key: &'a [u8],
    /// The value, with its escapes undone.
    pub value: &'a [u8],
}

impl<'a> Entry<'a> {
    /// The entry of a row, wherever its line stands.
    fn of(row: &[u16], bodies: &'a [u8]) -> Self {
        let [start, key, value] = [row[0], row[1], row[2]].map(usize::from);
        let (key, value) = bodies[start..start + key + value].split_at(key);
        Self { key, value }
    }
}

impl fmt::Debug for Entry<'_> {
    fn fmt(&self, f: &mut fmt::Formatter) -> fmt::Result {
        write!(f, "\"{}: {}\"", self.key.escape_ascii(), self.value.escape_ascii())
    }
}

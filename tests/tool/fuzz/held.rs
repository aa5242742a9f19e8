//! The crate's answers held to the model's, and to the Rust's by `rusts.rs`.

use model::image;
use model::limits::{OLD_ROW_WORDS, ROW_WORDS, TEXT_BYTES};
use model::lookup::{get_bool, get_bytes, get_string, get_value, show, Number, WINDOW};
use model::walking::{self, Walk};
use model::{adding, writing};
use records::{Query, Source, Start};
use resource_manager::{Archive, Database, Entry, Error, Origin, ValueError};
use std::any::Any;
use std::fmt::Debug;
use std::panic::{catch_unwind, AssertUnwindSafe};

use crate::files;
#[cfg(feature = "rust")]
use crate::rusts::Rusts;
use crate::starts::{self, Home};

#[derive(Default)]
pub struct Counts {
    pub archives: usize,
    pub refused_files: usize,
    pub readings: usize,
    pub refused_readings: usize,
    /// Readings of the texts of a start-up.
    pub starts: usize,
    pub refused_starts: usize,
    /// Databases written out, and read again.
    pub texts: usize,
    pub lookups: usize,
    pub refused_lookups: usize,
    /// Lists of what aligns with a query, and lines added meanwhile.
    pub lists: usize,
    pub additions: usize,
    pub refused_additions: usize,
    pub comparisons: usize,
    /// Comparisons with another answer without the file.
    pub moved: usize,
    pub rusts_readings: usize,
    pub rusts_starts: usize,
    pub rusts_lookups: usize,
    pub rusts_comparisons: usize,
}

impl Counts {
    /// What was compared; an error if some of it was not.
    pub fn report(&self) -> Result<String, String> {
        let Self { archives, refused_files, readings, refused_readings, starts, refused_starts, .. } = self;
        let Self { texts, lookups, refused_lookups, lists, additions, refused_additions, comparisons, moved, .. } = self;
        let reading_counts = [archives, refused_files, readings, refused_readings, starts, refused_starts];
        if reading_counts.contains(&&0)
            || [texts, lookups, refused_lookups, lists, additions, refused_additions, comparisons, moved].contains(&&0)
        {
            return Err("too little was compared".to_string());
        }
        Ok(format!(
            "{archives} archives built ({refused_files} files refused), {readings} readings ({refused_readings} refused), \
             {starts} start-ups ({refused_starts} refused), {texts} databases written out, {lookups} lookups ({refused_lookups} refused), {lists} \
             lists, {additions} additions ({refused_additions} refused) and {comparisons} comparisons ({moved} moved) beside the model, {}",
            self.beside_the_rust()?
        ))
    }

    fn count_reading(&mut self, is_start: bool, is_refused: bool) {
        let [all, refused] = match is_start {
            true => [&mut self.starts, &mut self.refused_starts],
            false => [&mut self.readings, &mut self.refused_readings],
        };
        *all += 1;
        *refused += usize::from(is_refused);
    }

    fn beside_the_rust(&self) -> Result<String, String> {
        let Self { rusts_readings, rusts_starts, rusts_lookups, rusts_comparisons, .. } = self;
        if cfg!(not(feature = "rust")) {
            return Ok("none beside the Rust, which is not at hand".to_string());
        }
        if [rusts_readings, rusts_starts, rusts_lookups, rusts_comparisons].contains(&&0) {
            return Err("too little was compared with the Rust".to_string());
        }
        Ok(format!("{rusts_readings}, {rusts_starts}, {rusts_lookups} and {rusts_comparisons} of them beside the Rust"))
    }
}

pub struct Held {
    contents: Vec<u16>,
    bodies: Vec<u8>,
    home: Home,
    #[cfg(feature = "rust")]
    rusts: Rusts,
    pub counts: Counts,
}

impl Held {
    pub fn new(room: &str) -> Self {
        let (contents, bodies) = records::buffers();
        Self {
            contents,
            bodies,
            home: Home::new(room),
            #[cfg(feature = "rust")]
            rusts: Rusts::new(room),
            counts: Counts::default(),
        }
    }

    /// Builds an archive of files, each accepted or refused as the model would.
    pub fn build(&mut self, files: &[(String, Vec<u8>)]) -> Result<(), String> {
        self.counts.refused_files += files::build(files)?;
        self.counts.archives += 1;
        Ok(())
    }

    /// Compares a reading, and lookups in what it left.
    pub fn ask(&mut self, source: &Source, queries: &[Query]) -> Result<(), String> {
        let why = |why: String| format!("{why}\n{}", files::described(source));
        let Some(database) = self.read(source).map_err(why)? else { return Ok(()) };
        for query in queries {
            let (name, class) = (String::from_utf8_lossy(&query.name), String::from_utf8_lossy(&query.class));
            let why = |w| why(format!("{w}\nname {name:?}, class {class:?}"));
            self.look_up(&database, source, &name, &class).map_err(why)?;
            self.list(&database, &name, &class).map_err(why)?;
            // Not every query, as a comparison takes each side two readings.
            if self.counts.lookups % 3 == 0 {
                self.compare(source, &name, &class).map_err(why)?;
            }
        }
        Ok(())
    }

    /// Compares what the file that is next in turn changes for a query; one turn is that of a file that is not there.
    fn compare(&mut self, source: &Source, name: &str, class: &str) -> Result<(), String> {
        let Some(archive) = files::archive(source)? else { return Ok(()) };
        let which = self.counts.comparisons % (archive.len() + 1);
        let file = archive.names().nth(which).unwrap_or("not/there");
        let answer = starts::compare(source, &archive, file, name, class);
        let answer = answer.map_err(Error::number).map(|found| found.map(|both| (both.with_file, both.without_file)));
        let models = files::compared(source, which, name.as_bytes(), class.as_bytes());
        same(&format!("comparison without {file:?}"), &answer, &models)?;
        self.counts.comparisons += 1;
        if let Ok(Some((with_file, without_file))) = answer {
            self.counts.moved += usize::from(with_file != without_file);
            #[cfg(feature = "rust")]
            {
                let case = crate::rusts::Struck { source, which, name, class };
                self.counts.rusts_comparisons += usize::from(self.rusts.compare(&case, with_file, without_file)?);
            }
        }
        Ok(())
    }

    /// The crate's reading, or none if it is refused.
    fn read(&mut self, source: &Source) -> Result<Option<Database>, String> {
        let archive = files::archive(source)?;
        let bytes = archive.as_ref().map_or(&source.archive[..], |archive| archive.as_bytes());
        let models = image::read(&mut self.contents, &mut self.bodies, &source.texts(), &source.archive, source.depth);
        let models = models.map(|accepted| (accepted.entries, accepted.opens)).map_err(|refusal| refusal.number());
        let mut last = None;
        for read in self.home.readings(source, bytes)? {
            let answer = read.as_ref().map(|database| (database.entries().len(), database.opens())).map_err(|e| e.number());
            same("reading", answer, models)?;
            last = read.ok();
            if let Some(database) = &last {
                same("entries", files::listed(database), records::listed(&self.contents, &self.bodies))?;
                self.stand(database, archive.as_ref(), &source.archive)?;
                self.migrate(database)?;
                self.write(database)?;
            }
        }
        let is_start = matches!(source.start, Start::Chain(_));
        self.counts.count_reading(is_start, last.is_none());
        #[cfg(feature = "rust")]
        if let Some(database) = &last {
            let compared = usize::from(self.rusts.read(source, database)?);
            *(if is_start { &mut self.counts.rusts_starts } else { &mut self.counts.rusts_readings }) += compared;
        }
        Ok(last)
    }

    /// Compares where the lines stand, and the names of their files.
    fn stand(&self, database: &Database, archive: Option<&Archive>, bytes: &[u8]) -> Result<(), String> {
        let rows = self.contents[2..].chunks_exact(ROW_WORDS).take(usize::from(self.contents[0]));
        let models: Vec<usize> = rows.map(|row| usize::from(row[ROW_WORDS - 1])).collect();
        let origins: Vec<Origin> = (0..).map_while(|number| database.origin(number)).collect();
        same("origins", origins.iter().map(|origin| word(*origin)).collect(), models)?;
        let Some(archive) = archive else { return Ok(()) };
        let files = model::archive::judge(bytes).expect("an archive that was read").files;
        let names = origins.iter().map(|origin| origin.name_in(archive).map(|name| name.as_bytes().to_vec())).collect::<Vec<_>>();
        let models = origins.iter().map(|origin| word(*origin).checked_sub(1).map(|file| files[file].name.clone())).collect();
        same("names of files", names, models)
    }

    /// Compares the same image with rows of three words, carried over, and one whose bytes in use are miscounted, which is none.
    fn migrate(&self, database: &Database) -> Result<(), String> {
        let rows = self.contents[2..].chunks_exact(ROW_WORDS).flat_map(|row| &row[..OLD_ROW_WORDS]);
        let mut old: Vec<u16> = self.contents[..2].iter().chain(rows).copied().collect();
        let carried = Database::migrate(&old, &self.bodies).map_err(|e| format!("an old image is refused: {e}"))?;
        same("entries carried over", files::listed(&carried), files::listed(database))?;
        let unknown = (0..).map_while(|number| carried.origin(number)).all(|origin| origin == Origin::Unknown);
        same("all their files are unknown", unknown, true)?;
        old[1] += 1;
        same("no old image", Database::migrate(&old, &self.bodies).map(|_| ()).map_err(Error::number), Err(8))
    }

    /// Compares the text that a database is written out as, and what that is read as.
    fn write(&mut self, database: &Database) -> Result<(), String> {
        let text = database.to_text();
        same("text", Ok(&text), writing::text(&self.contents, &self.bodies).map_err(|r| r.number()).as_ref())?;
        let again = Database::new_from_data(&text).map(|again| files::listed(&again)).map_err(Error::number);
        same("text read again", again, if text.len() > TEXT_BYTES { Err(2) } else { Ok(files::listed(database)) })?;
        self.counts.texts += 1;
        Ok(())
    }

    /// Compares what is listed of a query, in a copy to which a line is added after the first step, and an entry by its number.
    fn list(&mut self, database: &Database, name: &str, class: &str) -> Result<(), String> {
        let (n, c) = (name.as_bytes(), class.as_bytes());
        let (mut contents, mut bodies) = (self.contents.clone(), self.bodies.clone());
        let models = walking::start(&contents, &bodies, n, c).map_err(|r| r.number());
        let listed = database.try_aligned(name, class).map_err(Error::number);
        let listed = listed.map(|all| all.map(|(number, entry)| (number, owned(entry))).collect::<Vec<_>>());
        let Ok(mut walk) = models else { return same("aligned", listed, Err(models.expect_err("a refusal"))) };
        let step = |contents: &[u16], bodies: &[u8], walk: &mut Walk| walking::step(contents, bodies, n, c, walk).ok().flatten();
        let mut state = walk;
        let all: Vec<usize> = std::iter::from_fn(|| step(&contents, &bodies, &mut state)).collect();
        let entries = records::listed(&contents, &bodies);
        same("aligned", listed, Ok(all.iter().map(|number| (*number, entries[*number].clone())).collect()))?;
        let mut grown = database.clone();
        let mut page = database.walk(name, class);
        let first = page.next(&grown).map(|(number, _)| number);
        same("the first of a walk", first, step(&contents, &bodies, &mut walk))?;
        let text = self.addition(n);
        let added = adding::add(&mut contents, &mut bodies, &text).map_err(|r| r.number());
        same("an addition", grown.add(&text).map_err(Error::number), added)?;
        same("entries with it", files::listed(&grown), records::listed(&contents, &bodies))?;
        let rest: Vec<usize> = std::iter::from_fn(|| page.next(&grown)).map(|(number, _)| number).collect();
        same("the rest of a walk", rest, std::iter::from_fn(|| step(&contents, &bodies, &mut walk)).collect())?;
        let last = added.ok().and_then(|number| grown.entry(number)).map(owned);
        same("the added entry", last, added.ok().map(|number| records::listed(&contents, &bodies)[number].clone()))?;
        self.counts.lists += 1;
        self.counts.additions += 1;
        self.counts.refused_additions += usize::from(added.is_err());
        Ok(())
    }

    /// A text to add: a line that aligns with the name, a line that does not, two, or none.
    fn addition(&self, name: &[u8]) -> Vec<u8> {
        match self.counts.lists % 5 {
            0 => b"other: 1".to_vec(),
            1 => b"a:\nb:".to_vec(),
            2 => b"! none".to_vec(),
            _ => [b"! a comment\n", name, b": \\101"].concat(),
        }
    }

    fn look_up(&mut self, database: &Database, _source: &Source, name: &str, class: &str) -> Result<(), String> {
        let (contents, bodies) = (&self.contents, &self.bodies);
        let (n, c) = (name.as_bytes(), class.as_bytes());
        let bytes = get_bytes(contents, bodies, n, c).map(|found| found.map(|place| place.of(bodies)));
        let string = get_string(contents, bodies, n, c).map(|found| found.map(|place| place.of(bodies)));
        let refused = bytes.is_err();
        same("get_bytes_or", database.get_bytes_or(name, class, n), show(contents, bodies, n, c, n))?;
        same("get_bytes", database.try_get_bytes(name, class).map_err(Error::number), bytes.map_err(|r| r.number()))?;
        let strings = database.try_get_string(name, class).map(|found| found.map(str::as_bytes));
        same("get_string", strings.map_err(Error::number), string.map_err(|r| r.number()))?;
        let boolean = get_bool(contents, bodies, n, c).map_err(|r| r.number());
        same("get_bool", database.try_get_bool(name, class).map_err(Error::number), boolean)?;
        let number = get_value(contents, bodies, n, c).map_err(|r| r.number());
        same("get_i64", number_of(database.try_get_i64(name, class)), number)?;
        in_the_shape_of_x11rb(database, name, class)?;
        self.look_up_in_the_window(database, name, class)?;
        self.counts.lookups += 1;
        self.counts.refused_lookups += usize::from(refused);
        #[cfg(feature = "rust")]
        {
            self.counts.rusts_lookups += usize::from(self.rusts.look_up(_source, database, name, class)?);
        }
        Ok(())
    }

    /// The same at the dictionary window's bounds.
    fn look_up_in_the_window(&self, database: &Database, name: &str, class: &str) -> Result<(), String> {
        let (contents, bodies) = (&self.contents, &self.bodies);
        let (n, c) = (name.as_bytes(), class.as_bytes());
        let window = database.window();
        let bytes = WINDOW.get_bytes(contents, bodies, n, c).map(|found| found.map(|place| place.of(bodies)));
        let string = WINDOW.get_string(contents, bodies, n, c).map(|found| found.map(|place| place.of(bodies)));
        same("the window's get_bytes_or", window.get_bytes_or(name, class, n), WINDOW.show(contents, bodies, n, c, n))?;
        same("the window's get_bytes", window.try_get_bytes(name, class).map_err(Error::number), bytes.map_err(|r| r.number()))?;
        let strings = window.try_get_string(name, class).map(|found| found.map(str::as_bytes));
        same("the window's get_string", strings.map_err(Error::number), string.map_err(|r| r.number()))?;
        let boolean = WINDOW.get_bool(contents, bodies, n, c).map_err(|r| r.number());
        same("the window's get_bool", window.try_get_bool(name, class).map_err(Error::number), boolean)?;
        let number = WINDOW.get_value(contents, bodies, n, c).map_err(|r| r.number());
        same("the window's get_i64", number_of(window.try_get_i64(name, class)), number)
    }
}

fn owned(entry: Entry) -> (Vec<u8>, Vec<u8>) {
    (entry.key.to_vec(), entry.value.to_vec())
}

/// Each `get_` method gives what its `try_get_` gives, and panics where that gives a refusal.
fn in_the_shape_of_x11rb(database: &Database, name: &str, class: &str) -> Result<(), String> {
    let refusal = |error: Error| format!("lookup refused: {error}");
    same("get_bytes", caught(|| database.get_bytes(name, class)), database.try_get_bytes(name, class).map_err(refusal))?;
    same("get_string", caught(|| database.get_string(name, class)), database.try_get_string(name, class).map_err(refusal))?;
    same("get_bool", caught(|| database.get_bool(name, class)), database.try_get_bool(name, class).map_err(refusal))?;
    let numbers = match database.try_get_i64(name, class) {
        Ok(number) => Ok(Ok(number)),
        Err(ValueError::Parse(error)) => Ok(Err(error)),
        Err(ValueError::Refused(error)) => Err(refusal(error)),
    };
    same("get_i64", caught(|| database.get_i64(name, class)), numbers)?;
    let values = match database.try_get_value::<i8>(name, class) {
        Ok(number) => Ok(Ok(number)),
        Err(ValueError::Parse(error)) => Ok(Err(error)),
        Err(ValueError::Refused(error)) => Err(refusal(error)),
    };
    same("get_value", caught(|| database.get_value::<i8>(name, class)), values)
}

/// What a call gives, or the words of its panic.
fn caught<T>(call: impl FnOnce() -> T) -> Result<T, String> {
    catch_unwind(AssertUnwindSafe(call)).map_err(|panic| words(&*panic))
}

/// The words of a panic.
pub fn words(panic: &(dyn Any + Send)) -> String {
    let string = panic.downcast_ref::<String>().cloned();
    string.or_else(|| panic.downcast_ref::<&str>().map(|words| words.to_string())).unwrap_or_default()
}

fn number_of<E>(answer: Result<Option<i64>, ValueError<E>>) -> Result<Number, u8> {
    match answer {
        Ok(Some(number)) => Ok(Number::Is(number)),
        Ok(None) => Ok(Number::None),
        Err(ValueError::Parse(_)) => Ok(Number::NotANumber),
        Err(ValueError::Refused(error)) => Err(error.number()),
    }
}

pub fn same<T: Debug + PartialEq>(what: &str, crates: T, others: T) -> Result<(), String> {
    if crates == others {
        return Ok(());
    }
    Err(format!("{what}: {crates:?} by the crate, and not {others:?}"))
}

/// The fourth word of a row that says so.
fn word(origin: Origin) -> usize {
    match origin {
        Origin::MainText => 0,
        Origin::File(place) => place,
        Origin::Unknown => 65_535,
    }
}

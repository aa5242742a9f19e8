//! The Rust's side: archives written out as files, and the Rust's answers as the records have them.

#[path = "start.rs"]
pub mod start;

use cases::admitted::admitted_reading;
use model::archive::{judge, Archive};
use model::lookup::Number;
use model::paths::PATH_BYTES;
use model::reading::Reading;
use model::startup::StartUp;
use oracle::altered::{Entries, Reader, READERS};
use oracle::resource_manager::{database_of, entries_of, Database, DEPTH};
use records::{answer_fields, hex, Answer, Case, Kind, Query, Source, Start};
use start::{lay_out, start_here, Setting};
use std::collections::BTreeSet;
use std::fs;
use std::path::{Path, PathBuf};
use std::process::Command;

/// The most bytes of a path that Linux takes, with a zero byte after it.
const SYSTEMS_PATH_BYTES: usize = 4_096;

/// A directory in which each archive gets a directory of its own, removed when the next one comes.
pub struct Room {
    root: PathBuf,
    made: usize,
    /// The archive that is written out, and where.
    current: Option<(Vec<u8>, PathBuf)>,
    /// The folders that were made there for names with dots.
    folders: BTreeSet<Vec<u8>>,
    /// How many chains were read.
    chains: usize,
}

impl Room {
    pub fn new(root: &str) -> Self {
        Self { root: PathBuf::from(root), made: 0, current: None, folders: BTreeSet::new(), chains: 0 }
    }

    /// The directory that holds the files of a good archive, and these folders.
    fn directory(&mut self, archive: &[u8], folders: &BTreeSet<Vec<u8>>) -> PathBuf {
        if self.current.as_ref().is_none_or(|(bytes, _)| bytes != archive) {
            self.clear();
            let directory = self.root.join(self.made.to_string());
            assert!(directory.as_os_str().len() + 1 + PATH_BYTES < SYSTEMS_PATH_BYTES, "a shorter place for the archives");
            self.made += 1;
            write_out(&judge(archive).expect("an archive"), &directory);
            self.current = Some((archive.to_vec(), directory));
        }
        let (_, directory) = self.current.as_ref().expect("a directory");
        for folder in folders {
            if self.folders.insert(folder.clone()) {
                fs::create_dir_all(directory.join(ascii(folder))).expect("a folder that names mention");
            }
        }
        directory.clone()
    }

    fn clear(&mut self) {
        self.folders.clear();
        if let Some((_, directory)) = self.current.take() {
            fs::remove_dir_all(directory).expect("a directory of its own can be removed");
        }
    }

    /// The Rust's reading of a source and its opens, where the model's reading says which folders must be there. Chains are set up in one
    /// way after the other.
    pub fn read(&mut self, source: &Source, reading: &Reading) -> (Database, usize) {
        match &source.start {
            Start::Text(text) => {
                let directory = self.directory(&source.archive, &reading.folders);
                let plain = || Database::new_from_data_with_base_directory(text, &directory);
                read_at(source.depth, plain, |reader| (reader.read)(text, &directory))
            }
            Start::Chain(start_up) => {
                self.chains += 1;
                let setting = Setting::nth(self.chains, start_up);
                let directory = self.chains_directory(start_up, source, reading, setting);
                let read = start_here(source.depth, start_up, &directory, setting);
                self.clear();
                read
            }
        }
    }

    /// A directory that holds a chain's own files too.
    fn chains_directory(&mut self, start_up: &StartUp, source: &Source, reading: &Reading, setting: Setting) -> PathBuf {
        let directory = self.directory(&source.archive, &reading.folders);
        lay_out(start_up, &directory, setting);
        directory
    }

    /// What a process of its own says of a chain: this program, begun as `start DEPTH FORMAT PROPERTY` in the chain's directory,
    /// with HOME and XENVIRONMENT alone in its environment.
    pub fn start(&mut self, start_up: &StartUp, source: &Source, reading: &Reading, setting: Setting) -> String {
        let directory = self.chains_directory(start_up, source, reading, setting);
        let environment = setting.environment(start_up, &directory);
        let mut command = Command::new(std::env::current_exe().expect("this program"));
        command.args(["start", &source.depth.to_string(), &start_up.format.to_string(), &hex(&start_up.property)]).env_clear();
        command.envs(environment.into_iter().filter_map(|(name, value)| Some((name, value?))));
        let output = command.current_dir(directory).output().expect("a process");
        self.clear();
        let said = String::from_utf8_lossy(if output.status.success() { &output.stdout } else { &output.stderr });
        said.trim_end().to_string()
    }

    /// The Rust's answer to a case that is admitted to the run.
    pub fn answer(&mut self, case: &Case) -> Answer {
        let reading = admitted_reading(&case.source).expect("an admitted case");
        let (database, opens) = self.read(&case.source, &reading);
        let (name, class) = texts(&case.query).expect("a query in UTF-8");
        match case.kind {
            Kind::Read => Answer::Read { opens, entries: listed(&database) },
            Kind::Bytes => Answer::Bytes(database.get_bytes(name, class).map(<[u8]>::to_vec)),
            Kind::String => Answer::Bytes(database.get_string(name, class).map(|text| text.as_bytes().to_vec())),
            Kind::Bool => Answer::Bool(database.get_bool(name, class)),
            Kind::Value => Answer::Value(number(&database, name, class)),
        }
    }
}

impl Drop for Room {
    fn drop(&mut self) {
        self.clear();
    }
}

/// The Rust that was altered to read at a depth.
fn altered(depth: u64) -> Option<&'static Reader> {
    READERS.iter().find(|reader| u64::from(reader.depth) == depth)
}

/// Whether there is a Rust for a depth: its own, or one that it was altered to.
pub fn reads_at(depth: u64) -> bool {
    depth == DEPTH.into() || altered(depth).is_some()
}

/// What the Rust reads at a depth, and its opens: as it is at its own; else the Rust that was altered to it, whose entries are put into a
/// database of the Rust as it is, for the lookups.
fn read_at(depth: u64, plain: impl FnOnce() -> Database, by: impl FnOnce(&Reader) -> Entries) -> (Database, usize) {
    assert!(reads_at(depth), "no Rust for depth {depth}");
    match altered(depth) {
        None => oracle::count_opens(DEPTH, plain),
        Some(reader) => oracle::count_opens(reader.depth, || database_of(by(reader))),
    }
}

/// What the process of a chain says: opens, and the entries.
pub fn said_of_start(depth: u64, format: u8, property: &[u8]) -> String {
    let (database, opens) = start::start(depth, format, property);
    answer_fields(&Answer::Read { opens, entries: listed(&database) }).join(" ")
}

fn write_out(archive: &Archive, directory: &Path) {
    fs::create_dir(directory).expect("a fresh directory");
    for file in &archive.files {
        let path = directory.join(ascii(&file.name));
        fs::create_dir_all(path.parent().expect("a file stands in a directory")).expect("a folder for a file");
        fs::write(path, &file.body).expect("room for a file");
    }
}

fn ascii(name: &[u8]) -> &str {
    std::str::from_utf8(name).expect("names of files and of their folders are ASCII")
}

/// The query as the Rust takes it, or none if it is not UTF-8.
pub fn texts(query: &Query) -> Option<(&str, &str)> {
    Some((std::str::from_utf8(&query.name).ok()?, std::str::from_utf8(&query.class).ok()?))
}

/// The Rust's entries, with keys as the image writes them.
pub fn listed(database: &Database) -> Vec<(Vec<u8>, Vec<u8>)> {
    entries_of(database).into_iter().map(|(key, value)| (written(&key), value)).collect()
}

fn written(key: &[(bool, Option<String>)]) -> Vec<u8> {
    let mut bytes = Vec::new();
    for (loose, name) in key {
        bytes.push(if *loose { b'*' } else { b'.' });
        bytes.extend(name.as_deref().unwrap_or("?").as_bytes());
    }
    bytes
}

pub fn number(database: &Database, name: &str, class: &str) -> Number {
    match database.get_value::<i64>(name, class) {
        Ok(Some(number)) => Number::Is(number),
        Ok(None) => Number::None,
        Err(_) => Number::NotANumber,
    }
}

//! Start-ups: the crate's readings of a chain whose texts it is given, and of one that it finds by HOME and XENVIRONMENT. These
//! and the current directory are the process's, which has no other thread.

use crate::held::same;
use cases::chains::OWN_FILES;
use model::image;
use model::limits::DEFAULT_DEPTH;
use model::startup::StartUp as Chain;
use records::{Source, Start};
use resource_manager::{Archive, Comparison, Database, Error, GetPropertyReply, StartUp};
use std::env;
use std::fs;
use std::path::PathBuf;

/// A directory in which the chains' files stand one after the other: HOME, and the current directory.
pub struct Home {
    directory: PathBuf,
    turns: usize,
}

impl Home {
    pub fn new(room: &str) -> Self {
        let directory = PathBuf::from(room).join("home");
        fs::create_dir(&directory).expect("a fresh directory");
        env::set_current_dir(&directory).expect("a directory");
        Self { directory, turns: 0 }
    }

    /// Every reading that the crate has for a source. All must give the same.
    pub fn readings(&mut self, source: &Source, archive: &[u8]) -> Result<Vec<Result<Database, Error>>, String> {
        match &source.start {
            Start::Text(text) => {
                let mut readings = vec![Database::new_from_data_at_depth(text, archive, source.depth)];
                if source.depth == DEFAULT_DEPTH {
                    readings.push(Database::new_from_data_with_archive(text, archive));
                }
                Ok(readings)
            }
            Start::Chain(chain) => {
                texts_used(chain)?;
                property_alone(chain)?;
                let chain_given = given(chain);
                let at_depth = Database::new_from_start_up_at_depth(&chain_given, archive, source.depth);
                Ok(vec![at_depth, Database::new_from_start_up(&chain_given, archive), self.start(chain, archive)])
            }
        }
    }

    /// What the crate reads where HOME and XENVIRONMENT lead to a chain's texts.
    fn start(&mut self, chain: &Chain, archive: &[u8]) -> Result<Database, Error> {
        self.turns += 1;
        let turn = self.turns;
        let is_homeless = turn % 3 == 0 && chain.xresources.is_none() && chain.xdefaults.is_none();
        // Relative to the current directory in turn.
        let home = if turn % 2 == 0 { PathBuf::new() } else { self.directory.clone() };
        let named = if turn / 2 % 2 == 0 { PathBuf::new() } else { self.directory.clone() }.join(OWN_FILES[2]);
        set("HOME", (!is_homeless).then_some(home));
        set("XENVIRONMENT", chain.xenvironment_set.then_some(named));
        // Where HOME is not set, these are not looked for.
        let decoy = is_homeless.then(|| b"decoy:".to_vec());
        let in_home = |text: &Option<Vec<u8>>| decoy.clone().or(text.clone());
        let texts = [in_home(&chain.xresources), in_home(&chain.xdefaults), chain.xenvironment.clone(), chain.host.clone()];
        for (name, text) in OWN_FILES.into_iter().zip(texts) {
            self.put(name, text);
        }
        let host = OWN_FILES[3].strip_prefix(".Xdefaults-").expect("the host's file");
        Database::new_from_default_with_archive(&reply(chain), host.into(), archive)
    }

    /// A file, or in turn a directory and nothing where it cannot be read.
    fn put(&self, name: &str, text: Option<Vec<u8>>) {
        let path = self.directory.join(name);
        if path.is_dir() {
            fs::remove_dir(&path).expect("an empty directory");
        } else if path.exists() {
            fs::remove_file(&path).expect("a file");
        }
        match text {
            Some(text) => fs::write(&path, text).expect("room for a text"),
            None if self.turns % 5 < 2 => fs::create_dir(&path).expect("room for a directory"),
            None => {}
        }
    }
}

fn set(name: &str, value: Option<PathBuf>) {
    match value {
        Some(value) => env::set_var(name, value),
        None => env::remove_var(name),
    }
}

fn reply(chain: &Chain) -> GetPropertyReply {
    GetPropertyReply { format: chain.format, value: chain.property.clone() }
}

/// A chain as the crate takes it.
fn given(chain: &Chain) -> StartUp {
    let Chain { xresources, xdefaults, xenvironment_set, xenvironment, host, .. } = chain.clone();
    StartUp { property: reply(chain), xresources, xdefaults, xenvironment_set, xenvironment, host }
}

/// The texts that the crate says are used.
fn texts_used(chain: &Chain) -> Result<(), String> {
    let start_up = given(chain);
    let texts: Vec<&[u8]> = start_up.texts().into_iter().filter_map(|(_, text)| text).collect();
    same("texts", texts, chain.texts())
}

/// The property, and no other text.
fn property_alone(chain: &Chain) -> Result<(), String> {
    let read = Database::new_from_get_property_reply(&reply(chain)).map_err(Error::number);
    let entries = read.map(|database| database.map(|database| database.entries().len()));
    let alone = Chain { format: chain.format, property: chain.property.clone(), ..Chain::default() };
    let (mut contents, mut bodies) = records::buffers();
    let models = image::read(&mut contents, &mut bodies, &alone.texts(), Archive::new().as_bytes(), DEFAULT_DEPTH);
    let models = models.map(|accepted| (!alone.texts().is_empty()).then_some(accepted.entries));
    same("the property alone", entries, models.map_err(|refusal| refusal.number()))
}

/// What a file of an archive changes, by the crate's comparing call for the source.
pub fn compare(source: &Source, archive: &Archive, file: &str, name: &str, class: &str) -> Result<Option<Comparison>, Error> {
    match &source.start {
        Start::Text(text) if source.depth == DEFAULT_DEPTH => Database::compare_without(text, archive, file, name, class),
        Start::Text(text) => Database::compare_without_at_depth(text, archive, source.depth, file, name, class),
        Start::Chain(chain) => Database::compare_default_without(&given(chain), archive, file, name, class),
    }
}

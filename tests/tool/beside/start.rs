//! The Rust's own `new_from_default`: a chain's texts laid out as files beside those of the archive, in the
//! directory that is HOME, the folder of XENVIRONMENT's file, and the current directory.
//!
//! Environment and current directory are the process's, which must have no other thread.

use super::read_at;
use cases::chains::OWN_FILES;
use model::startup::StartUp;
use oracle::protocol::xproto::GetPropertyReply;
use oracle::resource_manager::Database;
use std::env;
use std::ffi::OsString;
use std::fs;
use std::path::Path;

/// How a chain is laid before the Rust, in what document 02 leaves open.
#[derive(Clone, Copy, Debug)]
pub struct Setting {
    /// Which of the own files that cannot be read are directories; the others are not there.
    pub directories: [bool; 4],
    pub home: Home,
    pub named: Named,
}

#[derive(Clone, Copy, Debug, PartialEq)]
pub enum Home {
    Absolute,
    /// An empty path, which is the current directory.
    Empty,
    /// Neither .Xresources nor .Xdefaults is looked for, and the host's stands in the current directory.
    Unset,
}

/// How XENVIRONMENT names its file.
#[derive(Clone, Copy, Debug, PartialEq)]
pub enum Named {
    Absolute,
    Bare,
    /// With no name at all, if it cannot be read.
    Empty,
}

impl Setting {
    /// The settings in turn, those that fit the start-up.
    pub fn nth(turn: usize, start_up: &StartUp) -> Self {
        let homeless = start_up.xresources.is_none() && start_up.xdefaults.is_none();
        let home = match turn / 16 % 3 {
            0 => Home::Absolute,
            1 => Home::Empty,
            _ if homeless => Home::Unset,
            _ => Home::Absolute,
        };
        Self {
            directories: [0, 1, 2, 3].map(|which| turn >> which & 1 == 1),
            home,
            named: [Named::Absolute, Named::Bare, Named::Empty][turn % 3],
        }
    }

    fn home(&self, directory: &Path) -> Option<OsString> {
        match self.home {
            Home::Absolute => Some(directory.into()),
            Home::Empty => Some(OsString::new()),
            Home::Unset => None,
        }
    }

    fn xenvironment(&self, start_up: &StartUp, directory: &Path) -> Option<OsString> {
        let file = OWN_FILES[2];
        start_up.xenvironment_set.then(|| match self.named {
            Named::Absolute => directory.join(file).into(),
            Named::Empty if start_up.xenvironment.is_none() => OsString::new(),
            _ => file.into(),
        })
    }

    /// The two variables that the Rust asks for; none is one that is not set.
    pub fn environment(&self, start_up: &StartUp, directory: &Path) -> [(&'static str, Option<OsString>); 2] {
        [("HOME", self.home(directory)), ("XENVIRONMENT", self.xenvironment(start_up, directory))]
    }
}

/// Puts the chain's own files into a directory that holds the archive's.
pub fn lay_out(start_up: &StartUp, directory: &Path, setting: Setting) {
    let StartUp { xresources, xdefaults, xenvironment, host, .. } = start_up;
    let decoy = Some(b"decoy: where HOME is not set".to_vec());
    let [xresources, xdefaults] = [xresources, xdefaults].map(|text| if setting.home == Home::Unset { &decoy } else { text });
    let texts = [xresources, xdefaults, xenvironment, host];
    for ((name, text), is_directory) in OWN_FILES.iter().zip(texts).zip(setting.directories) {
        match text {
            Some(text) => fs::write(directory.join(name), text).expect("room for a text"),
            None if is_directory => fs::create_dir(directory.join(name)).expect("a name of its own"),
            None => {}
        }
    }
}

/// What the Rust reads at a depth with the environment and the current directory as they are, and its opens.
pub fn start(depth: u64, format: u8, property: &[u8]) -> (Database, usize) {
    let host = || OWN_FILES[3].strip_prefix(".Xdefaults-").expect("the host's file").into();
    let reply = GetPropertyReply { format, value: property.to_vec() };
    read_at(depth, || Database::new_from_default(&reply, host()), |reader| (reader.start)(&reply, host()))
}

/// Sets this process up for a start-up whose files are laid out, has the Rust read, and goes back.
pub fn start_here(depth: u64, start_up: &StartUp, directory: &Path, setting: Setting) -> (Database, usize) {
    for (name, value) in setting.environment(start_up, directory) {
        match value {
            Some(value) => env::set_var(name, value),
            None => env::remove_var(name),
        }
    }
    let back = env::current_dir().expect("a current directory");
    env::set_current_dir(directory).expect("a directory");
    let read = start(depth, start_up.format, &start_up.property);
    env::set_current_dir(back).expect("the directory before");
    read
}

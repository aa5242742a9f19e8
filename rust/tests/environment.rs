//! Start-ups from the environment: HOME, XENVIRONMENT, and files on a disk.

use resource_manager::limits::TEXT_BYTES;
use resource_manager::{Archive, Database, Error, GetPropertyReply, StartUp};
use std::env;
use std::fs;
use std::path::{Path, PathBuf};
use std::sync::{Mutex, MutexGuard};

/// HOME, XENVIRONMENT and the current directory belong to the process: one test at a time has them.
static ENVIRONMENT: Mutex<()> = Mutex::new(());

const FILES: [&str; 4] = [".Xresources", ".Xdefaults", "named", ".Xdefaults-desk"];

/// A fresh directory, which is HOME and the current directory, and XENVIRONMENT is not set.
struct Home {
    root: PathBuf,
    _turn: MutexGuard<'static, ()>,
}

impl Home {
    fn new(name: &str) -> Self {
        let turn = ENVIRONMENT.lock().unwrap_or_else(|poisoned| poisoned.into_inner());
        let root = Path::new(env!("CARGO_TARGET_TMPDIR")).join(name);
        if root.exists() {
            fs::remove_dir_all(&root).expect("a directory of its own can be removed");
        }
        fs::create_dir(&root).expect("a fresh directory");
        env::set_current_dir(&root).expect("a directory");
        env::set_var("HOME", &root);
        env::remove_var("XENVIRONMENT");
        Self { root, _turn: turn }
    }

    fn write(&self, name: &str, text: impl AsRef<[u8]>) {
        fs::write(self.root.join(name), text).expect("a file");
    }

    fn put(&self, name: &str, place: Place) {
        let path = self.root.join(name);
        let _ = fs::remove_file(&path);
        let _ = fs::remove_dir(&path);
        match place {
            Place::Absent => {}
            Place::Directory => fs::create_dir(path).expect("a directory"),
            Place::Empty => self.write(name, ""),
            // Without a newline: the text ends there.
            Place::Text => self.write(name, format!("{name}: 1").replace('.', "")),
        }
    }
}

/// What stands in the place of a file.
#[derive(Clone, Copy, Debug, PartialEq)]
enum Place {
    Absent,
    Directory,
    Empty,
    Text,
}

impl Place {
    const ALL: [Self; 4] = [Self::Absent, Self::Directory, Self::Empty, Self::Text];

    fn can_be_read(self) -> bool {
        matches!(self, Self::Empty | Self::Text)
    }
}

fn no_property() -> GetPropertyReply {
    GetPropertyReply::default()
}

fn start(reply: &GetPropertyReply) -> Result<Database, Error> {
    Database::new_from_default(reply, "desk".into())
}

/// The keys of a start-up's database.
fn keys(reply: &GetPropertyReply) -> String {
    let database = start(reply).expect("within the limits");
    database.entries().map(|entry| String::from_utf8_lossy(entry.key).into_owned()).collect()
}

/// The files that are used, by number: the first is .Xresources if it can be read, else .Xdefaults.
fn files_used(is_property: bool, places: [Place; 4], is_set: bool) -> Vec<usize> {
    let first = if places[0].can_be_read() { 0 } else { 1 };
    let second = if is_set { 2 } else { 3 };
    if is_property {
        vec![second]
    } else {
        vec![first, second]
    }
}

/// One start-up with these files.
fn check(home: &Home, reply: &GetPropertyReply, places: [Place; 4], is_set: bool) {
    let is_property = reply.format == 8 && !reply.value.is_empty();
    let used = files_used(is_property, places, is_set);
    let read: Vec<usize> = used.iter().copied().filter(|&file| places[file].can_be_read()).collect();
    let mut expected = if is_property { ".property".to_string() } else { String::new() };
    for &file in read.iter().filter(|&&file| places[file] == Place::Text) {
        expected += &format!(".{}", FILES[file].replace('.', ""));
    }
    let case = format!("{reply:?}, {places:?}, XENVIRONMENT {is_set}");
    assert_eq!(keys(reply), expected, "{case}");

    let found = StartUp::from_environment(reply, "desk".into());
    assert_eq!((&found.property, found.xenvironment_set), (reply, is_set), "{case}");
    let texts = [&found.xresources, &found.xdefaults, &found.xenvironment, &found.host];
    for (file, text) in texts.into_iter().enumerate() {
        let on_disk = read.contains(&file).then(|| fs::read(home.root.join(FILES[file])).expect("a text"));
        assert_eq!(*text, on_disk, "{}: {case}", FILES[file]);
    }
}

#[test]
fn all_combinations() {
    let home = Home::new("combinations");
    let property = |format: u8, value: &str| GetPropertyReply { format, value: value.into() };
    let replies = [no_property(), property(8, ""), property(8, "property: 1"), property(16, "property: 1"), property(32, "p:1")];
    let mut count = 0;
    for number in 0..256 {
        let places = [0, 1, 2, 3].map(|file| Place::ALL[number >> (2 * file) & 3]);
        for (name, place) in FILES.into_iter().zip(places) {
            home.put(name, place);
        }
        for is_set in [false, true] {
            match is_set {
                true => env::set_var("XENVIRONMENT", home.root.join("named")),
                false => env::remove_var("XENVIRONMENT"),
            }
            for reply in &replies {
                check(&home, reply, places, is_set);
                count += 1;
            }
        }
    }
    assert_eq!(count, 2_560);
}

#[test]
fn without_home_only_the_hosts_file_is_looked_for_in_the_current_directory() {
    let home = Home::new("homeless");
    for name in FILES {
        home.put(name, Place::Text);
    }
    env::remove_var("HOME");
    assert_eq!(keys(&no_property()), ".Xdefaults-desk");
    // An empty HOME is set: the paths are relative then.
    env::set_var("HOME", "");
    assert_eq!(keys(&no_property()), ".Xresources.Xdefaults-desk");
    env::set_var("HOME", "/no/such/directory");
    assert_eq!(keys(&no_property()), "");
}

#[test]
fn a_relative_home_and_a_relative_xenvironment() {
    let home = Home::new("relative");
    fs::create_dir(home.root.join("d")).unwrap();
    home.write("d/.Xdefaults", "inner: 1");
    home.write("d/named", "named: 1");
    home.put(".Xresources", Place::Text);
    env::set_var("HOME", "d/");
    env::set_var("XENVIRONMENT", "d/../d/named");
    assert_eq!(keys(&no_property()), ".inner.named");
}

#[test]
fn an_empty_xenvironment_is_set() {
    let home = Home::new("set");
    home.put(".Xdefaults-desk", Place::Text);
    env::set_var("XENVIRONMENT", "");
    assert_eq!(keys(&no_property()), "");
    let found = StartUp::from_environment(&no_property(), "desk".into());
    assert_eq!((found.xenvironment_set, found.xenvironment, found.host), (true, None, None));
}

#[test]
fn the_hosts_name_is_part_of_the_path() {
    let home = Home::new("hosts");
    home.write(".Xdefaults-", "nameless: 1");
    home.write(".Xdefaults-desk.local", "local: 1");
    fs::create_dir(home.root.join(".Xdefaults-a")).unwrap();
    home.write(".Xdefaults-a/b", "below: 1");
    let key = |host: &str| {
        let database = Database::new_from_default(&no_property(), host.into()).unwrap();
        let key = database.entries().next().map(|entry| String::from_utf8_lossy(entry.key).into_owned());
        key.unwrap_or_default()
    };
    assert_eq!(["", "desk", "desk.local", "a/b", "a"].map(key), [".nameless", "", ".local", ".below", ""]);
}

#[test]
fn includes_come_from_the_archive_alone() {
    let home = Home::new("includes");
    home.write("pack", "disk: 1");
    home.write(".Xresources", "#include \"pack\"\na: 1");
    fs::create_dir(home.root.join("d")).unwrap();
    home.write("d/named", "#include \"pack\"");
    home.write("d/pack", "d: 1");
    env::set_var("XENVIRONMENT", home.root.join("d/named"));
    assert_eq!(keys(&no_property()), ".a");
    let archive = Archive::from_files([("pack", "archive: 1"), ("d/pack", "d: 1")]).unwrap();
    let database = Database::new_from_default_with_archive(&no_property(), "desk".into(), &archive).unwrap();
    let keys: Vec<&[u8]> = database.entries().map(|entry| entry.key).collect();
    assert_eq!(keys, [&b".archive"[..], b".a", b".archive"]);
    assert_eq!(database.opens(), 2);
    assert_eq!(Database::new_from_default_with_archive(&no_property(), "desk".into(), b"").unwrap_err(), Error::BadArchive);
}

#[test]
fn the_archive_of_a_small_home() {
    let home = Home::new("small");
    home.write("pack", "a: 1");
    home.write(".Xdefaults-desk", "#include \"pack\"");
    let archive = Archive::from_directory(&home.root).unwrap();
    let database = Database::new_from_default_with_archive(&no_property(), "desk".into(), archive).unwrap();
    assert_eq!(database.get_string("a", ""), Some("1"));
}

#[test]
fn a_long_file_that_is_used_is_refused() {
    let home = Home::new("long");
    for name in FILES {
        if name == "named" {
            env::set_var("XENVIRONMENT", home.root.join("named"));
        }
        home.write(name, "\n".repeat(TEXT_BYTES));
        assert_eq!(start(&no_property()).map(drop), Ok(()), "{name}");
        home.write(name, "\n".repeat(TEXT_BYTES + 1));
        assert_eq!(start(&no_property()).unwrap_err(), Error::LongText, "{name}");
        home.put(name, Place::Absent);
        env::remove_var("XENVIRONMENT");
    }
}

#[test]
fn a_long_file_that_is_not_used_is_not_looked_at() {
    let home = Home::new("unused");
    let long = "\n".repeat(TEXT_BYTES + 1);
    home.put(".Xresources", Place::Empty);
    home.write(".Xdefaults", &long);
    home.write(".Xdefaults-desk", &long);
    env::set_var("XENVIRONMENT", home.root.join("named"));
    assert_eq!(start(&no_property()).map(drop), Ok(()));
    home.write(".Xresources", &long);
    assert_eq!(start(&GetPropertyReply { format: 8, value: b"a:1".to_vec() }).map(drop), Ok(()));
    assert_eq!(start(&GetPropertyReply { format: 16, value: b"a:1".to_vec() }).unwrap_err(), Error::LongText);
    home.put(".Xresources", Place::Empty);
    assert_eq!(start(&GetPropertyReply { format: 16, value: long.into() }).map(drop), Ok(()));
}

/// A file of four gigabytes, none of them on the disk.
#[test]
fn a_huge_file_is_not_read_whole() {
    let home = Home::new("huge");
    fs::File::create(home.root.join(".Xresources")).unwrap().set_len(1 << 32).unwrap();
    let found = StartUp::from_environment(&no_property(), "desk".into());
    assert_eq!(found.xresources.map(|text| text.len()), Some(TEXT_BYTES + 1));
    assert_eq!(start(&no_property()).unwrap_err(), Error::LongText);
}

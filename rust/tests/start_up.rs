//! Start-ups whose texts the program gives: which texts count, where each ends, and the limits over both.

use resource_manager::limits::{BODIES_BYTES, ENTRIES, OPENS, TEXT_BYTES};
use resource_manager::{Archive, Comparison, Database, Error, GetPropertyReply, Source, StartUp};

fn text(bytes: impl AsRef<[u8]>) -> Option<Vec<u8>> {
    Some(bytes.as_ref().to_vec())
}

fn reply(format: u8, value: impl AsRef<[u8]>) -> GetPropertyReply {
    GetPropertyReply { format, value: value.as_ref().to_vec() }
}

/// .Xresources and the host's text.
fn chain(first: impl AsRef<[u8]>, second: impl AsRef<[u8]>) -> StartUp {
    StartUp { xresources: text(first), host: text(second), ..StartUp::default() }
}

fn read(start_up: &StartUp) -> Result<Database, Error> {
    Database::new_from_start_up(start_up, Archive::new())
}

fn listed(database: &Database) -> Vec<(Vec<u8>, Vec<u8>)> {
    database.entries().map(|entry| (entry.key.to_vec(), entry.value.to_vec())).collect()
}

/// Every text there is, each with an entry of its own name.
fn everything() -> StartUp {
    StartUp {
        property: reply(8, "property: 1"),
        xresources: text("xresources: 1"),
        xdefaults: text("xdefaults: 1"),
        xenvironment_set: true,
        xenvironment: text("xenvironment: 1"),
        host: text("host: 1"),
    }
}

/// The sources that are said to count, and the keys that the reading left.
fn used(start_up: &StartUp) -> ([Source; 2], String) {
    let database = read(start_up).expect("within the limits");
    let keys: Vec<String> = database.entries().map(|entry| String::from_utf8_lossy(entry.key).into_owned()).collect();
    (start_up.texts().map(|(source, _)| source), keys.concat())
}

/// Changes of everything, one after the other; then the sources that count, and the keys of their texts.
fn each_start_up(see: impl Fn(&StartUp, [Source; 2], &str)) {
    use Source::{Host, Property, Xdefaults, Xenvironment, Xresources};
    let mut start_up = everything();
    let mut then = |change: fn(&mut StartUp), sources: [Source; 2], keys: &str| {
        change(&mut start_up);
        see(&start_up, sources, keys);
    };
    then(|_| (), [Property, Xenvironment], ".property.xenvironment");
    then(|s| s.xenvironment = text(""), [Property, Xenvironment], ".property");
    then(|s| s.xenvironment = None, [Property, Xenvironment], ".property");
    then(|s| s.xenvironment_set = false, [Property, Host], ".property.host");
    then(|s| s.property.format = 16, [Xresources, Host], ".xresources.host");
    then(|s| s.property.format = 0, [Xresources, Host], ".xresources.host");
    then(|s| s.property = reply(8, ""), [Xresources, Host], ".xresources.host");
    then(|s| s.host = None, [Xresources, Host], ".xresources");
    then(|s| s.xresources = text(""), [Xresources, Host], "");
    then(|s| s.xresources = None, [Xdefaults, Host], ".xdefaults");
    then(|s| s.xdefaults = None, [Xdefaults, Host], "");
}

#[test]
fn texts_that_count() {
    each_start_up(|start_up, sources, keys| assert_eq!(used(start_up), (sources, keys.to_string()), "{start_up:?}"));
}

#[test]
fn a_text_that_could_not_be_read_is_told() {
    let start_up = StartUp { xenvironment_set: true, ..StartUp::default() };
    assert_eq!(start_up.texts(), [(Source::Xdefaults, None), (Source::Xenvironment, None)]);
    let start_up = chain("", "a:1");
    assert_eq!(start_up.texts(), [(Source::Xresources, Some(&b""[..])), (Source::Host, Some(&b"a:1"[..]))]);
}

/// Texts that another could seem to go on with, and such others.
const UNFINISHED: [&str; 12] =
    ["a:1\\", "a:\\", "a:1\\1", "a:\\12", "a:x\\\n", "a", "a:", "a.", "! a", "#include \"p\"", "#include \"p", "#"];
const GOING_ON: [&str; 7] = ["2", "b:2", ":2", "\n", "\"", "01: 2", "#include \"p\""];

#[test]
fn a_text_ends_at_its_end() {
    let archive = Archive::from_files([("p", "c: 3")]).unwrap();
    for first in UNFINISHED {
        for second in GOING_ON {
            let alone = |text: &str| listed(&Database::new_from_data_with_archive(text.as_bytes(), &archive).unwrap());
            let expected = [alone(first), alone(second)].concat();
            let database = Database::new_from_start_up(&chain(first, second), &archive).unwrap();
            assert_eq!(listed(&database), expected, "{first:?}, then {second:?}");
        }
    }
}

#[test]
fn bytes_of_each_text_that_counts() {
    let (most, long) = ("\n".repeat(TEXT_BYTES), "\n".repeat(TEXT_BYTES + 1));
    type With = fn(Vec<u8>) -> StartUp;
    let places: [(&str, With); 5] = [
        ("property", |text| StartUp { property: reply(8, text), ..StartUp::default() }),
        ("xresources", |text| StartUp { xresources: Some(text), ..StartUp::default() }),
        ("xdefaults", |text| StartUp { xdefaults: Some(text), ..StartUp::default() }),
        ("xenvironment", |text| StartUp { xenvironment_set: true, xenvironment: Some(text), ..StartUp::default() }),
        ("host", |text| StartUp { host: Some(text), ..StartUp::default() }),
    ];
    for (place, start_up) in places {
        assert_eq!(read(&start_up(most.clone().into())).map(drop), Ok(()), "{place}");
        let too_long = start_up(long.clone().into());
        assert_eq!(read(&too_long).map(drop), Err(Error::LongText), "{place}");
        // Before the archive is judged.
        assert_eq!(Database::new_from_start_up(&too_long, b"").map(drop), Err(Error::LongText), "{place}");
    }
    assert_eq!(read(&chain(&most, &most)).map(drop), Ok(()));
    assert_eq!(read(&chain(&long, "")).map(drop), Err(Error::LongText));
    assert_eq!(read(&chain("", &long)).map(drop), Err(Error::LongText));
}

#[test]
fn a_long_text_that_does_not_count() {
    let long = "\n".repeat(TEXT_BYTES + 1);
    type Change = fn(&mut StartUp, &str);
    let unused: [(Change, &str); 5] = [
        (|s, long| s.property = reply(16, long), ".xresources.xenvironment"),
        (|s, long| s.xresources = text(long), ".property.xenvironment"),
        (|s, long| s.xdefaults = text(long), ".property.xenvironment"),
        (|s, long| s.host = text(long), ".property.xenvironment"),
        (|s, long| (s.xenvironment_set, s.xenvironment) = (false, text(long)), ".property.host"),
    ];
    for (change, keys) in unused {
        let mut start_up = everything();
        change(&mut start_up, &long);
        assert_eq!(used(&start_up).1, keys);
    }
    let mut start_up = everything();
    start_up.property = reply(8, "");
    start_up.xdefaults = text(&long);
    assert_eq!(used(&start_up).1, ".xresources.xenvironment");
}

#[test]
fn entries_of_both_texts() {
    let entries = |first: usize, second: usize| read(&chain("a:\n".repeat(first), "b:\n".repeat(second)));
    assert_eq!(entries(ENTRIES - 200, 200).unwrap().entries().len(), ENTRIES);
    assert_eq!(entries(ENTRIES - 200, 201).unwrap_err(), Error::ManyEntries);
    assert_eq!(entries(ENTRIES, 1).unwrap_err(), Error::ManyEntries);
}

#[test]
fn opens_of_both_texts() {
    let archive = Archive::from_files([("p", "#include \"q\"\n".repeat(15)), ("q", String::new())]).unwrap();
    let opens = |first: usize, second: &str| {
        let start_up = chain("#include \"p\"\n".repeat(first), second);
        Database::new_from_start_up(&start_up, &archive).map(|database| database.opens())
    };
    assert_eq!(opens(OPENS / 16 - 1, "#include \"p\""), Ok(OPENS));
    assert_eq!(opens(OPENS / 16 - 1, "#include \"p\"\n#include \"q\""), Err(Error::ManyOpens));
    assert_eq!(opens(OPENS / 16, "#include \"q\""), Err(Error::ManyOpens));
}

#[test]
fn bytes_of_keys_and_values_of_both_texts() {
    let half = format!("a:{}", "z".repeat(BODIES_BYTES / 2 - 2));
    let database = read(&chain(&half, &half)).unwrap();
    assert_eq!(database.entries().map(|entry| entry.key.len() + entry.value.len()).sum::<usize>(), BODIES_BYTES);
    assert_eq!(read(&chain(&half, half.clone() + "z")).unwrap_err(), Error::FullStore);
}

#[test]
fn refusals_in_the_order_of_the_texts() {
    let (parts, entries) = (vec!["a"; 17].join(".") + ":", "a:\n".repeat(ENTRIES + 1));
    assert_eq!(read(&chain(&parts, &entries)).unwrap_err(), Error::ManyEntryParts);
    assert_eq!(read(&chain(&entries, &parts)).unwrap_err(), Error::ManyEntries);
    assert_eq!(Database::new_from_start_up(&chain(&parts, ""), b"").unwrap_err(), Error::BadArchive);
}

#[test]
fn both_texts_include_from_the_root() {
    let archive = Archive::from_files([("d/p", "#include \"q\""), ("d/q", "a: inner"), ("q", "a: outer")]).unwrap();
    let database = Database::new_from_start_up(&chain("#include \"d/p\"", "#include \"q\"\nb: 1"), &archive).unwrap();
    let entry = |key: &str, value: &str| (key.as_bytes().to_vec(), value.as_bytes().to_vec());
    assert_eq!(listed(&database), [entry(".a", "inner"), entry(".a", "outer"), entry(".b", "1")]);
    assert_eq!(database.opens(), 3);
}

#[test]
fn a_property_alone() {
    let keys = |format: u8, value: &str| {
        let database = Database::new_from_get_property_reply(&reply(format, value));
        database.map(|database| database.map(|database| database.entries().len()))
    };
    assert_eq!(keys(8, "a:1\n#include \"p\"\nb:2"), Ok(Some(2)));
    assert_eq!(keys(8, "\n"), Ok(Some(0)));
    assert_eq!(keys(8, ""), Ok(None));
    for format in [0, 1, 7, 9, 16, 32, 255] {
        assert_eq!(keys(format, "a:1"), Ok(None), "{format}");
        assert_eq!(keys(format, &"\n".repeat(TEXT_BYTES + 1)), Ok(None), "{format}");
    }
    assert_eq!(keys(8, &"\n".repeat(TEXT_BYTES + 1)), Err(Error::LongText));
}

fn archive() -> Archive {
    Archive::from_files([("p", "a: 1\nb: 1\nc: 1"), ("q", "a: 2\nb: 1\n#include \"r\""), ("r", "d: 1")]).unwrap()
}

fn compare(start_up: &StartUp, file: &str, name: &str) -> Result<Option<Comparison>, Error> {
    Database::compare_default_without(start_up, &archive(), file, name, "")
}

#[test]
fn what_a_file_changes() {
    let values = |file: &str, name: &str| {
        let comparison = compare(&chain("#include \"p\"", "#include \"q\""), file, name).unwrap().expect("a file");
        let shown = |value: Option<Vec<u8>>| value.map(|bytes| String::from_utf8(bytes).unwrap()).unwrap_or("none".to_string());
        [shown(comparison.with_file), shown(comparison.without_file)].join(" ")
    };
    assert_eq!(values("q", "a"), "2 1");
    assert_eq!(values("p", "a"), "2 2");
    assert_eq!(values("q", "b"), "1 1");
    assert_eq!(values("p", "c"), "1 none");
    assert_eq!(values("q", "d"), "1 none");
    assert_eq!(values("r", "d"), "1 none");
    assert_eq!(values("r", "e"), "none none");
}

#[test]
fn comparisons_of_texts_that_count() {
    each_start_up(|start_up, _, keys| {
        for name in ["property", "xresources", "xdefaults", "xenvironment", "host"] {
            let comparison = compare(start_up, "p", name).unwrap().expect("a file");
            let value = keys.split('.').any(|key| key == name).then(|| b"1".to_vec());
            assert_eq!(comparison, Comparison { with_file: value.clone(), without_file: value }, "{name}, {start_up:?}");
        }
    });
}

#[test]
fn refused_comparisons() {
    let start_up = chain("#include \"p\"", "#include \"q\"");
    assert_eq!(compare(&start_up, "s", "a"), Ok(None));
    assert_eq!(compare(&start_up, "p", &"a".repeat(1_025)), Err(Error::LongQuery));
    assert_eq!(compare(&start_up, "p", &"a.".repeat(33)), Err(Error::ManyQueryParts));
    assert_eq!(compare(&chain("", "\n".repeat(TEXT_BYTES + 1)), "p", "a"), Err(Error::LongText));
    assert_eq!(compare(&chain("a:\n".repeat(ENTRIES), "b:"), "p", "a"), Err(Error::ManyEntries));
}

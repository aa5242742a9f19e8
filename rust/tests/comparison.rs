//! What one file of an archive changes.

use resource_manager::{Archive, Comparison, Database, Error};

const TEXT: &[u8] = b"#include \"p\"\n#include \"q\"";

fn archive() -> Archive {
    Archive::from_files([("p", "a: 1\nb: 1\nc: 1"), ("q", "a: 2\nb: 1\n#include \"r\""), ("r", "d: 1")]).unwrap()
}

fn compare(file: &str, name: &str) -> Result<Option<Comparison>, Error> {
    Database::compare_without(TEXT, &archive(), file, name, "")
}

#[test]
fn values_with_a_file_and_without_it() {
    let values = |file: &str, name: &str| {
        let Comparison { with_file, without_file } = compare(file, name).unwrap().expect("a file");
        let shown = |value: Option<Vec<u8>>| value.map(|bytes| String::from_utf8(bytes).unwrap()).unwrap_or("none".to_string());
        [shown(with_file), shown(without_file)].join(" ")
    };
    assert_eq!(values("q", "a"), "2 1");
    assert_eq!(values("p", "a"), "2 2");
    assert_eq!(values("q", "b"), "1 1");
    assert_eq!(values("p", "c"), "1 none");
    assert_eq!(values("q", "d"), "1 none");
    assert_eq!(values("r", "d"), "1 none");
    assert_eq!(values("r", "e"), "none none");
}

#[test]
fn same_values_are_told_from_others() {
    let is_same = |file: &str, name: &str| compare(file, name).unwrap().expect("a file").is_same();
    assert!(is_same("q", "b"));
    assert!(is_same("r", "e"));
    assert!(!is_same("q", "a"));
    assert!(!is_same("p", "c"));
}

#[test]
fn a_file_that_is_not_there() {
    assert_eq!(compare("s", "a"), Ok(None));
    assert_eq!(compare("", "a"), Ok(None));
    assert_eq!(Database::compare_without(b"", &Archive::new(), "p", "a", ""), Ok(None));
}

#[test]
fn refusals() {
    assert_eq!(compare("p", &"a".repeat(1_025)), Err(Error::LongQuery));
    assert_eq!(compare("p", &"a.".repeat(33)), Err(Error::ManyQueryParts));
    let refused = |text: String| Database::compare_without(text.as_bytes(), &archive(), "s", "a", "");
    assert_eq!(refused("\n".repeat(32_769)), Err(Error::LongText));
    assert_eq!(refused("a:\n".repeat(513)), Err(Error::ManyEntries));
}

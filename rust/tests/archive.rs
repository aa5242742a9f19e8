//! What an archive accepts and refuses, and that a reading accepts every archive.

use resource_manager::limits::{ARCHIVE_BYTES, ARCHIVE_FILES, FILE_NAME_BYTES};
use resource_manager::ArchiveErrorKind::{BadName, Duplicate, Large, LongName, ManyFiles};
use resource_manager::{Archive, ArchiveErrorKind, Database};

/// Adds a file to a copy. What is refused leaves the copy as it was, and what is accepted can be read.
fn insert(archive: &Archive, name: &str, body: &[u8]) -> Result<Archive, ArchiveErrorKind> {
    let mut copy = archive.clone();
    match copy.insert(name, body) {
        Ok(()) => {
            assert_eq!(copy.get(name), Some(body));
            assert_eq!(Database::new_from_data_with_archive(b"", &copy).map(drop), Ok(()), "{name}");
            Ok(copy)
        }
        Err(error) => {
            assert_eq!(error.name(), name);
            assert_eq!(&copy, archive);
            Err(error.kind())
        }
    }
}

fn numbered(count: usize) -> Archive {
    Archive::from_files((0..count).map(|n| (format!("p{n:03}"), ""))).expect("within the limits")
}

#[test]
fn names() {
    let empty = Archive::new();
    for good in ["p", "P9_-.", "...", "a/b/c", ".a", "a.", "..a/.b"] {
        assert_eq!(insert(&empty, good, b"a:1").map(drop), Ok(()), "{good}");
    }
    for bad in ["", "/", "/a", "a/", "a//b", ".", "..", "a/..", "./a", "a b", "a\n", "a\0", "\u{e9}", "a*"] {
        assert_eq!(insert(&empty, bad, b"").unwrap_err(), BadName, "{bad:?}");
    }
    assert_eq!(insert(&empty, &"p".repeat(FILE_NAME_BYTES), b"").map(drop), Ok(()));
    assert_eq!(insert(&empty, &"p".repeat(FILE_NAME_BYTES + 1), b"").unwrap_err(), LongName);
}

#[test]
fn names_that_reading_refuses_are_the_ones_refused_here() {
    for byte in 0..=127u8 {
        let name = char::from(byte).to_string();
        let raw = [b"\x01\0\x01\0\0\0".as_slice(), &[byte]].concat();
        let accepted = Database::new_from_data_with_archive(b"", raw).is_ok();
        assert_eq!(insert(&Archive::new(), &name, b"").is_ok(), accepted, "{name:?}");
    }
}

#[test]
fn a_name_is_there_once() {
    let archive = insert(&Archive::new(), "p", b"a:1").unwrap();
    assert_eq!(insert(&archive, "p", b"a:2").unwrap_err(), Duplicate);
}

#[test]
fn number_of_files() {
    let most = numbered(ARCHIVE_FILES);
    assert_eq!(Database::new_from_data_with_archive(b"", &most).map(drop), Ok(()));
    assert_eq!(insert(&most, "q", b"").unwrap_err(), ManyFiles);
    assert_eq!(insert(&numbered(ARCHIVE_FILES - 1), "q", b"").map(|archive| archive.len()), Ok(ARCHIVE_FILES));
}

#[test]
fn bytes_in_all() {
    let body = vec![b'\n'; ARCHIVE_BYTES];
    let most = ARCHIVE_BYTES - 7;
    let full = insert(&Archive::new(), "p", &body[..most]).unwrap();
    assert_eq!(full.as_bytes().len(), ARCHIVE_BYTES);
    assert_eq!(insert(&Archive::new(), "p", &body[..most + 1]).unwrap_err(), Large);
    assert_eq!(insert(&full, "q", b"").unwrap_err(), Large);
    let almost = insert(&Archive::new(), "p", &body[..most - 5]).unwrap();
    assert_eq!(insert(&almost, "q", b"").map(drop), Ok(()));
    assert_eq!(insert(&almost, "q", b"\n").unwrap_err(), Large);
}

#[test]
fn layout() {
    let archive = Archive::from_files([("b", "2"), ("a/c", "33"), ("a", "")]).unwrap();
    assert_eq!(archive.as_bytes(), b"\x03\0\x01\0\0\0\x03\0\x02\0\x01\0\x01\0aa/c33b2");
    assert_eq!(Archive::new().as_bytes(), b"\0\0");
    assert_eq!(Archive::default(), Archive::new());
}

#[test]
fn a_file_struck_off() {
    let mut archive = Archive::from_files([("p", "a:1"), ("q", "a:2")]).unwrap();
    assert_eq!(archive.remove("q"), Some(b"a:2".to_vec()));
    assert_eq!(archive.remove("q"), None);
    assert_eq!(archive, Archive::from_files([("p", "a:1")]).unwrap());
    assert!(!archive.is_empty());
}

#[test]
fn words_of_a_refusal() {
    let error = Archive::new().insert("a b", b"").unwrap_err();
    assert_eq!(error.to_string(), "file \"a b\": a name that is not parts of A-Z a-z 0-9 _ - . joined by /");
}

/// The value of `a` in a main text that includes `name`, with a file `d/p` that includes `include`.
fn included(name: &str, include: &str) -> Option<String> {
    let mut archive = Archive::new();
    for (file, body) in [("d/e/q", "a:3"), ("d/q", "a:2"), ("q", "a:1")] {
        archive.insert(file, body.as_bytes()).unwrap();
    }
    archive.insert("d/p", format!("#include \"{include}\"").as_bytes()).unwrap();
    let text = format!("#include \"{name}\"");
    let database = Database::new_from_data_with_archive(text.as_bytes(), &archive).unwrap();
    database.get_string("a", "").map(String::from)
}

#[test]
fn dots_in_the_name_of_an_include() {
    for (include, value) in [("q", "2"), ("./q", "2"), ("../q", "1"), ("e/q", "3"), ("e/../q", "2"), ("x/../../d/./e/q", "3")] {
        assert_eq!(included("d/p", include).as_deref(), Some(value), "{include}");
        assert_eq!(included("./x/../d/p", include).as_deref(), Some(value), "{include}");
    }
    for include in ["../../q", "../../d/q", "", "/q", ".//q", "q/", ".", "..", "q/.", "q/..", "e/q/.."] {
        assert_eq!(included("d/p", include), None, "{include}");
    }
}

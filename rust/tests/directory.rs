//! Archives from directories. Each test has a directory of its own below cargo's directory for tests.

use resource_manager::{Archive, ArchiveErrorKind, DirectoryError};
use std::fs;
use std::os::unix::fs::symlink;
use std::path::{Path, PathBuf};

/// A fresh directory with these files.
fn directory(name: &str, files: &[(&str, &str)]) -> PathBuf {
    let root = Path::new(env!("CARGO_TARGET_TMPDIR")).join(name);
    if root.exists() {
        fs::remove_dir_all(&root).expect("a directory of its own can be removed");
    }
    fs::create_dir(&root).expect("a fresh directory");
    for (name, body) in files {
        let path = root.join(name);
        fs::create_dir_all(path.parent().unwrap()).expect("a folder");
        fs::write(path, body).expect("a file");
    }
    root
}

#[test]
fn files_stand_under_their_paths() {
    let files = [("a", "1"), ("d/a", "2"), ("d/e/b", "3"), (".c", "")];
    let root = directory("files", &files);
    fs::create_dir(root.join("empty")).unwrap();
    assert_eq!(Archive::from_directory(&root).unwrap(), Archive::from_files(files).unwrap());
}

#[test]
fn a_link_to_a_file_is_the_file() {
    let root = directory("link", &[("a", "1")]);
    symlink(root.join("a"), root.join("b")).unwrap();
    assert_eq!(Archive::from_directory(&root).unwrap(), Archive::from_files([("a", "1"), ("b", "1")]).unwrap());
}

#[test]
fn a_link_to_a_directory_is_refused() {
    let root = directory("loop", &[("a", "1")]);
    symlink(&root, root.join("d")).unwrap();
    let error = Archive::from_directory(&root).unwrap_err();
    assert!(matches!(&error, DirectoryError::NotAFile(path) if *path == root.join("d")), "{error}");
}

#[test]
fn a_name_that_no_archive_has_is_refused() {
    let root = directory("names", &[("d/a b", "1")]);
    let error = Archive::from_directory(root).unwrap_err();
    let DirectoryError::Refused(refused) = error else { panic!("{error}") };
    assert_eq!((refused.name(), refused.kind()), ("d/a b", ArchiveErrorKind::BadName));
}

#[test]
fn a_large_file_is_refused() {
    for bytes in [65_530, 65_537] {
        let root = directory("large", &[("p", &"\n".repeat(bytes))]);
        let error = Archive::from_directory(root).unwrap_err();
        assert!(matches!(&error, DirectoryError::Refused(refused) if refused.kind() == ArchiveErrorKind::Large), "{error}");
    }
    let root = directory("large", &[("p", &"\n".repeat(65_529))]);
    assert_eq!(Archive::from_directory(root).unwrap().as_bytes().len(), 65_536);
}

#[test]
fn a_directory_that_is_not_there_is_an_error() {
    let root = directory("gone", &[]).join("p");
    let error = Archive::from_directory(&root).unwrap_err();
    assert!(matches!(&error, DirectoryError::Io(path, _) if *path == root), "{error}");
}

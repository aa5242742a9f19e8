//! Where the line of an entry stands, and old images carried over.

use resource_manager::limits::{BODIES_BYTES, ENTRIES, OLD_CONTENTS_WORDS};
use resource_manager::{Archive, Database, Error, Origin, StartUp};

/// `q` is the third of the files, and includes the first.
fn archive() -> Archive {
    Archive::from_files([("base/a", "in: a"), ("p", "#include \"q\"\nin: p"), ("q", "#include \"./base/a\"\nin: q")]).unwrap()
}

fn origins(database: &Database) -> Vec<Origin> {
    (0..database.entries().len()).map(|number| database.origin(number).unwrap()).collect()
}

fn names(database: &Database) -> Vec<Option<String>> {
    origins(database).into_iter().map(|origin| origin.name_in(&archive()).map(str::to_string)).collect()
}

#[test]
fn the_file_where_a_line_stands() {
    let database = Database::new_from_data_with_archive(b"a: 1\n#include \"p\"\nb: 2", archive()).unwrap();
    let wanted = [Origin::MainText, Origin::File(1), Origin::File(3), Origin::File(2), Origin::MainText];
    assert_eq!(origins(&database), wanted);
    assert_eq!(names(&database), [None, Some("base/a".into()), Some("q".into()), Some("p".into()), None]);
    assert_eq!((database.origin(5), database.origin(usize::MAX)), (None, None));
    assert_eq!(Database::default().origin(0), None);
}

#[test]
fn the_texts_of_a_start_up_are_the_main_text() {
    let text = |text: &[u8]| Some(text.to_vec());
    let start_up =
        StartUp { xresources: text(b"#include \"q\"\na:"), host: text(b"b:\n#include \"base/a\""), ..StartUp::default() };
    let database = Database::new_from_start_up(&start_up, archive()).unwrap();
    assert_eq!(origins(&database), [Origin::File(1), Origin::File(3), Origin::MainText, Origin::MainText, Origin::File(1)]);
}

#[test]
fn an_added_line_is_of_no_known_file() {
    let mut database = Database::new_from_data(b"a: 1").unwrap();
    database.add(b"a: 2").unwrap();
    assert_eq!(origins(&database), [Origin::MainText, Origin::Unknown]);
    assert_eq!(names(&database), [None, None]);
}

#[test]
fn a_place_that_an_archive_does_not_have() {
    let database = Database::new_from_data_with_archive(b"#include \"q\"", archive()).unwrap();
    assert_eq!(database.origin(1), Some(Origin::File(3)));
    assert_eq!(database.origin(1).unwrap().name_in(&Archive::new()), None);
    assert_eq!((Origin::File(4).name_in(&archive()), Origin::File(0).name_in(&archive())), (None, None));
}

#[test]
fn without_a_file_those_behind_it_have_other_places() {
    let without = Archive::from_files([("base/a", "in: a"), ("q", "#include \"./base/a\"\nin: q")]).unwrap();
    let database = Database::new_from_data_with_archive(b"#include \"base/a\"\n#include \"q\"", &without).unwrap();
    assert_eq!(origins(&database), [Origin::File(1), Origin::File(1), Origin::File(2)]);
    assert_eq!(database.origin(2).unwrap().name_in(&without), Some("q"));
}

/// An old image of entries with these keys and values.
fn old_image(entries: &[(&str, &str)]) -> (Vec<u16>, Vec<u8>) {
    let (mut contents, mut bodies) = (vec![0, 0], Vec::new());
    for (key, value) in entries {
        contents.extend([bodies.len(), key.len(), value.len()].map(|number| number as u16));
        bodies.extend([key.as_bytes(), value.as_bytes()].concat());
    }
    (contents[0], contents[1]) = (entries.len() as u16, bodies.len() as u16);
    contents.resize(OLD_CONTENTS_WORDS, 7);
    bodies.resize(BODIES_BYTES, 7);
    (contents, bodies)
}

#[test]
fn an_old_image_answers_as_it_did() {
    let (contents, bodies) = old_image(&[(".a.b", "1"), ("*b", " 2\n"), (".a*b", "")]);
    let database = Database::migrate(&contents, &bodies).unwrap();
    let read = Database::new_from_data(b"a.b: 1\n*b: \\ 2\\n\na*b:").unwrap();
    assert_eq!(database.entries().collect::<Vec<_>>(), read.entries().collect::<Vec<_>>());
    for name in ["a.b", "b", "x.b", "a.x.b", "c", ".a"] {
        assert_eq!(database.get_bytes(name, ""), read.get_bytes(name, ""), "{name}");
        assert_eq!(database.window().try_get_bytes(name, "").unwrap(), read.get_bytes(name, ""), "{name}");
    }
    let aligned = |database: &Database| database.aligned("a.b", "").map(|(number, _)| number).collect::<Vec<_>>();
    assert_eq!(aligned(&database), aligned(&read));
    assert_eq!(origins(&database), [Origin::Unknown; 3]);
    assert_eq!(database.opens(), 0);
}

#[test]
fn old_images_full_and_empty() {
    let full = old_image(&vec![(".a", "x"); ENTRIES]);
    let database = Database::migrate(&full.0, &full.1).unwrap();
    assert_eq!((database.entries().len(), database.origin(ENTRIES - 1)), (ENTRIES, Some(Origin::Unknown)));
    let none = old_image(&[]);
    assert_eq!(Database::migrate(&none.0, &none.1).unwrap().entries().len(), 0);
}

#[test]
fn what_is_no_old_image_is_refused() {
    let (contents, bodies) = old_image(&[(".a", "x"), (".b", "y")]);
    let refused = |contents: &[u16], bodies: &[u8]| Database::migrate(contents, bodies).err();
    assert_eq!(refused(&contents, &bodies), None);
    assert_eq!(refused(&contents[..OLD_CONTENTS_WORDS - 1], &bodies), Some(Error::NoImage));
    assert_eq!(refused(&contents, &bodies[1..]), Some(Error::NoImage));
    for (word, value) in [(0, ENTRIES as u16 + 1), (1, 7), (2, 1), (3, 1), (5, 4)] {
        let mut changed = contents.clone();
        changed[word] = value;
        assert_eq!(refused(&changed, &bodies), Some(Error::NoImage), "word {word}");
    }
    // rows of four words are no rows of three
    let rows = [2, 6, 0, 2, 1, 65_535, 3, 2, 1, 65_535].into_iter().chain(std::iter::repeat(0));
    assert_eq!(refused(&rows.take(2 * OLD_CONTENTS_WORDS).collect::<Vec<_>>(), &bodies), Some(Error::NoImage));
}

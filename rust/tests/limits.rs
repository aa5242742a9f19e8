//! Readings and lookups at each limit: what is within it is accepted, and one more is refused.

use resource_manager::limits::*;
use resource_manager::{Archive, Database, Error, NotANumber, StartUp, ValueError};
use std::panic::{catch_unwind, UnwindSafe};

/// Entries and opens, or the refusal.
fn read(text: impl AsRef<[u8]>, files: &[(&str, &str)]) -> Result<(usize, usize), Error> {
    let archive = Archive::from_files(files.iter().copied()).expect("an archive within its limits");
    let database = Database::new_from_data_with_archive(text.as_ref(), archive)?;
    Ok((database.entries().len(), database.opens()))
}

fn parts(count: usize) -> String {
    vec!["a"; count].join(".")
}

#[test]
fn bytes_of_a_text() {
    assert_eq!(read("\n".repeat(TEXT_BYTES), &[]), Ok((0, 0)));
    assert_eq!(read("\n".repeat(TEXT_BYTES + 1), &[]), Err(Error::LongText));
}

#[test]
fn opens_of_a_reading() {
    let sixteen = "#include \"q\"\n".repeat(15);
    let files = [("p", sixteen.as_str()), ("q", "")];
    let text = "#include \"p\"\n".repeat(OPENS / 16);
    assert_eq!(read(&text, &files), Ok((0, OPENS)));
    assert_eq!(read(text + "#include \"q\"", &files), Err(Error::ManyOpens));
}

#[test]
fn depth_of_includes() {
    let archive = Archive::from_files([("p", "#include \"p\"\na:1")]).expect("an archive");
    let text = b"#include \"p\"";
    let counts = |database: Database| (database.entries().len() as u64, database.opens() as u64);
    let at = |depth| Database::new_from_data_at_depth(text, &archive, depth).map(counts);
    let plain = Database::new_from_data_with_archive(text, &archive).map(counts);
    assert_eq!(plain, Ok((DEFAULT_DEPTH, DEFAULT_DEPTH)));
    for depth in [0, 1, DEFAULT_DEPTH, GREATEST_DEPTH] {
        assert_eq!(at(depth), Ok((depth, depth)));
    }
    for depth in [GREATEST_DEPTH + 1, 1 << 32, u64::MAX] {
        assert_eq!(at(depth), Err(Error::TooDeep));
    }
    let start_up = StartUp { xresources: Some(text.to_vec()), host: Some(text.to_vec()), ..StartUp::default() };
    let started = Database::new_from_start_up(&start_up, &archive).map(counts);
    assert_eq!(started, Ok((2 * GREATEST_DEPTH, 2 * GREATEST_DEPTH)));
    let started_at = |depth| Database::new_from_start_up_at_depth(&start_up, &archive, depth).map(counts);
    assert_eq!(started_at(3), Ok((6, 6)));
    assert_eq!(started_at(GREATEST_DEPTH + 1), Err(Error::TooDeep));
    let compared =
        |depth| Database::compare_without_at_depth(text, &archive, depth, "p", "a", "").map(|both| both.expect("a file"));
    assert_eq!(compared(0).map(|both| both.with_file), Ok(None));
    assert_eq!(compared(1).map(|both| (both.with_file, both.without_file)), Ok((Some(b"1".to_vec()), None)));
    assert_eq!(compared(GREATEST_DEPTH + 1), Err(Error::TooDeep));
}

#[test]
fn parts_of_an_entry() {
    assert_eq!(read(parts(ENTRY_PARTS) + ":", &[]), Ok((1, 0)));
    assert_eq!(read(parts(ENTRY_PARTS + 1) + ":", &[]), Err(Error::ManyEntryParts));
}

#[test]
fn entries_of_a_database() {
    assert_eq!(read("a:\n".repeat(ENTRIES), &[]), Ok((ENTRIES, 0)));
    assert_eq!(read("a:\n".repeat(ENTRIES + 1), &[]), Err(Error::ManyEntries));
}

#[test]
fn bytes_of_keys_and_values() {
    let half = format!("a:{}", "z".repeat(BODIES_BYTES / 2 - 2));
    let files = [("p", half.as_str())];
    assert_eq!(read("#include \"p\"\n".repeat(2), &files), Ok((2, 2)));
    let one_more = format!("#include \"p\"\n{half}z");
    assert_eq!(read(one_more, &files), Err(Error::FullStore));
}

#[test]
fn a_value_at_the_end_of_a_full_store() {
    let text = format!("a:{}\n#include \"p\"", "z".repeat(BODIES_BYTES - 1_002));
    let archive = Archive::from_files([("p", format!("b:{}\nc:", "y".repeat(996)))]).unwrap();
    let database = Database::new_from_data_with_archive(text.as_bytes(), archive).unwrap();
    assert_eq!(database.entries().map(|entry| entry.key.len() + entry.value.len()).sum::<usize>(), BODIES_BYTES);
    assert_eq!(database.get_bytes("a", "").map(<[u8]>::len), Some(BODIES_BYTES - 1_002));
    assert_eq!(database.get_string("b", ""), Some("y".repeat(996).as_str()));
    assert_eq!(database.get_bytes("c", ""), Some(&[][..]));
}

#[test]
fn archives_that_are_none() {
    let read = |archive: &[u8]| Database::new_from_data_with_archive(b"a:", archive).map(drop);
    let good = Archive::from_files([("p", "b:1")]).unwrap();
    assert_eq!(good.as_bytes(), b"\x01\0\x01\0\x03\0pb:1");
    assert_eq!(read(good.as_bytes()), Ok(()));
    assert_eq!(read(b""), Err(Error::BadArchive));
    assert_eq!(read(&good.as_bytes()[..9]), Err(Error::BadArchive));
    assert_eq!(read(&[good.as_bytes(), b"\0"].concat()), Err(Error::BadArchive));
}

/// Each `try_get_` method's refusal, or none where it finds nothing.
fn refusals(database: &Database, name: &str, class: &str) -> [Option<Error>; 5] {
    [
        database.try_get_bytes(name, class).map(|found| assert_eq!(found, None)).err(),
        database.try_get_string(name, class).map(|found| assert_eq!(found, None)).err(),
        database.try_get_bool(name, class).map(|found| assert_eq!(found, None)).err(),
        refusal(database.try_get_i64(name, class)),
        refusal(database.try_get_value::<u8>(name, class)),
    ]
}

fn refusal<T: std::fmt::Debug, E: std::fmt::Debug>(answer: Result<Option<T>, ValueError<E>>) -> Option<Error> {
    match answer {
        Ok(None) => None,
        Err(ValueError::Refused(error)) => Some(error),
        other => panic!("{other:?}"),
    }
}

#[test]
fn bytes_and_parts_of_a_query() {
    let database = Database::new_from_data(b"b: 1").unwrap();
    let cases = [
        ("a".repeat(QUERY_BYTES), None),
        ("a".repeat(QUERY_BYTES + 1), Some(Error::LongQuery)),
        (parts(QUERY_PARTS), None),
        (parts(QUERY_PARTS + 1), Some(Error::ManyQueryParts)),
        (parts(QUERY_BYTES), Some(Error::LongQuery)),
        (".b".to_string(), None),
        ("\u{e9}".to_string(), None),
    ];
    for (query, expected) in cases {
        assert_eq!(refusals(&database, &query, ""), [expected; 5], "name {query}");
        assert_eq!(refusals(&database, "a", &query), [expected; 5], "class {query}");
    }
}

/// The words with which a lookup panics.
fn panic_of<T>(lookup: impl FnOnce() -> T + UnwindSafe) -> String {
    let panic = catch_unwind(lookup).map(drop).expect_err("a panic");
    panic.downcast_ref::<String>().expect("words").clone()
}

#[test]
fn a_refused_lookup_is_a_panic_in_the_shape_of_x11rb() {
    let database = &Database::default();
    let query = &parts(QUERY_PARTS + 1);
    let panics = [
        panic_of(|| database.get_bytes(query, "").is_none()),
        panic_of(|| database.get_string(query, "").is_none()),
        panic_of(|| database.get_bool(query, "").is_none()),
        panic_of(|| database.get_value::<i64>(query, "").is_err()),
        panic_of(|| database.get_i64(query, "").is_err()),
    ];
    for words in panics {
        assert!(words.ends_with("more than 32 parts (refused by 10)"), "{words}");
    }
}

#[test]
fn range_of_a_number() {
    let number = |value: &str| Database::new_from_data(format!("a: {value}").as_bytes()).unwrap().get_i64("a", "");
    assert_eq!(number("9223372036854775807"), Ok(Some(i64::MAX)));
    assert_eq!(number("9223372036854775808"), Err(NotANumber));
    assert_eq!(number("-9223372036854775808"), Ok(Some(i64::MIN)));
    assert_eq!(number("-9223372036854775809"), Err(NotANumber));
    assert_eq!(number("+5"), Ok(Some(5)));
    assert_eq!(number("-"), Err(NotANumber));
    assert_eq!(number("\\377"), Ok(None));
}

//! Entries listed by a query, entries by number, and lines that are added, also while a walk goes on.

use resource_manager::limits::{BODIES_BYTES, ENTRIES, ENTRY_PARTS, QUERY_BYTES, QUERY_PARTS, TEXT_BYTES};
use resource_manager::{Archive, Database, Entry, Error, Walk};

/// Entries 0, 1, 3 and 4 align with the name `a.b`.
const SIX: &[u8] = b"a.b:0\n*b:1\nc:2\na*b:3\n?.b:4\nb.a:5";

fn read(text: &[u8]) -> Database {
    Database::new_from_data(text).unwrap()
}

fn numbers(database: &Database, name: &str, class: &str) -> Vec<usize> {
    database.aligned(name, class).map(|(number, _)| number).collect()
}

/// What is left of a walk.
fn rest(walk: &mut Walk, database: &Database) -> Vec<usize> {
    std::iter::from_fn(|| walk.next(database)).map(|(number, _)| number).collect()
}

fn parts(count: usize) -> String {
    vec!["a"; count].join(".")
}

#[test]
fn what_aligns_is_listed_lowest_number_first() {
    let database = read(SIX);
    assert_eq!(numbers(&database, "a.b", ""), [0, 1, 3, 4]);
    assert_eq!(numbers(&database, "x.b", "a.x"), [0, 1, 3, 4]);
    assert_eq!(numbers(&database, "", "b.a"), [5]);
    assert_eq!(numbers(&database, "d", ""), []);
    assert_eq!(numbers(&database, "", ""), []);
    assert_eq!(numbers(&Database::default(), "a", ""), []);
}

#[test]
fn each_comes_with_its_key_and_value() {
    let database = read(b"a.b:\\ x\\n\nc:\n*b:");
    let listed: Vec<(usize, Entry)> = database.aligned("a.b", "").collect();
    assert_eq!(listed, [(0, Entry { key: b".a.b", value: b" x\n" }), (2, Entry { key: b"*b", value: b"" })]);
    assert!(listed.iter().all(|(number, entry)| database.entry(*number) == Some(*entry)));
}

#[test]
fn entries_by_number() {
    let database = read(SIX);
    let all: Vec<Entry> = database.entries().collect();
    for (number, entry) in all.iter().enumerate() {
        assert_eq!(database.entry(number), Some(*entry));
        assert_eq!(database.entries().nth(number), Some(*entry));
    }
    assert_eq!((database.entry(6), database.entry(usize::MAX)), (None, None));
    assert_eq!(Database::default().entry(0), None);
    assert_eq!(database.entries().skip(4).map(|entry| entry.value).collect::<Vec<_>>(), [b"4", b"5"]);
}

#[test]
fn the_end_stays_the_end() {
    let database = read(SIX);
    let mut listed = database.aligned("b.a", "");
    assert_eq!(listed.next().map(|(number, _)| number), Some(5));
    assert!((0..3).all(|_| listed.next().is_none()));
}

#[test]
fn a_malformed_query_lists_nothing() {
    let mut database = read(SIX);
    for (name, class) in [(".a", ""), ("a.b", "."), ("a*b", ""), ("a.\u{e9}", ""), (".a", &parts(QUERY_PARTS + 1))] {
        assert_eq!(database.try_aligned(name, class).map(Iterator::count), Ok(0), "{name} {class}");
        let mut walk = database.walk(name, class);
        database.add(b"a:").unwrap();
        assert_eq!(walk.next(&database), None);
    }
}

#[test]
fn a_refused_query_begins_no_walk() {
    let database = read(SIX);
    let cases = [
        ("a".repeat(QUERY_BYTES), None),
        ("a".repeat(QUERY_BYTES + 1), Some(Error::LongQuery)),
        (parts(QUERY_PARTS), None),
        (parts(QUERY_PARTS + 1), Some(Error::ManyQueryParts)),
    ];
    for (query, refused) in &cases {
        assert_eq!(database.try_walk(query, "").err(), *refused);
        assert_eq!(database.try_aligned("a", query).err(), *refused);
    }
}

#[test]
#[should_panic(expected = "more than 32 parts (refused by 10)")]
fn a_refused_query_is_a_panic_in_the_shape_of_lookups() {
    Database::default().aligned(&parts(QUERY_PARTS + 1), "").count();
}

#[test]
fn a_line_is_added_behind_the_others() {
    let mut database = read(b"a:1");
    assert_eq!(database.add(b"! a comment\n\n#include \"p\"\nno resource\n*b..c :\t y\\nz\na.?:none\n"), Ok(1));
    assert_eq!(database.add(b"?d:"), Ok(2));
    assert_eq!(database.to_text(), b".a: 1\n*b.c: y\\nz\n.?.d: \n");
    assert_eq!(database.get_bytes("x.b.c", ""), Some(&b"y\nz"[..]));
    assert_eq!(database.get_bytes("x.d", ""), Some(&b""[..]));
    assert_eq!(database.entry(1), Some(Entry { key: b"*b.c", value: b"y\nz" }));
    assert_eq!(read(&database.to_text()).to_text(), database.to_text());
}

#[test]
fn of_equals_an_added_line_wins() {
    let mut database = read(b"a:1");
    database.add(b"a:2").unwrap();
    assert_eq!(database.get_string("a", ""), Some("2"));
}

#[test]
fn an_include_adds_nothing_and_opens_nothing() {
    let archive = Archive::from_files([("p", "a:1")]).unwrap();
    let mut database = Database::new_from_data_with_archive(b"#include \"p\"", &archive).unwrap();
    assert_eq!(database.add(b"#include \"p\""), Err(Error::NotOneEntry));
    assert_eq!(database.add(b"#include \"p\"\nb:2"), Ok(1));
    assert_eq!((database.to_text(), database.opens()), (b".a: 1\n.b: 2\n".to_vec(), 1));
}

/// Each refusal in its place: 2, 12, 5, 6, 7. None changes anything.
#[test]
fn what_refuses_an_addition() {
    let refused = |database: &mut Database, text: &[u8]| {
        let before = database.to_text();
        let error = database.add(text).unwrap_err();
        assert_eq!(database.to_text(), before);
        error
    };
    let wide = parts(ENTRY_PARTS + 1) + ":";
    let mut full = read(&b"a:\n".repeat(ENTRIES));
    assert_eq!(refused(&mut full, &[b'\n'; TEXT_BYTES + 1]), Error::LongText);
    for none_or_more in ["", "! a:", "a:\nb:", &format!("{wide}\nb:"), &format!("b:\n{wide}"), &"a:\n".repeat(ENTRIES + 1)] {
        assert_eq!(refused(&mut full, none_or_more.as_bytes()), Error::NotOneEntry);
    }
    assert_eq!(refused(&mut full, wide.as_bytes()), Error::ManyEntryParts);
    assert_eq!(refused(&mut full, b"a:"), Error::ManyEntries);
    assert_eq!(refused(&mut full, format!("a:{}", "z".repeat(BODIES_BYTES - 2)).as_bytes()), Error::ManyEntries);
    let mut large = read(format!("a:{}", "z".repeat(BODIES_BYTES - 5)).as_bytes());
    assert_eq!(refused(&mut large, b"b:12"), Error::FullStore);
    assert_eq!(large.add(b"b:1"), Ok(1));
    assert_eq!(refused(&mut large, b"b:"), Error::FullStore);
}

#[test]
fn the_last_entry_and_the_longest_text() {
    let mut database = read(&b"a:\n".repeat(ENTRIES - 1));
    assert_eq!(database.add((parts(ENTRY_PARTS) + ":").as_bytes()), Ok(ENTRIES - 1));
    let mut database = Database::default();
    assert_eq!(database.add(&[&[b'\n'; TEXT_BYTES - 3][..], b"a:1"].concat()), Ok(0));
    assert_eq!(database.to_text(), b".a: 1\n");
}

#[test]
fn a_walk_lists_what_was_there_when_it_began() {
    for place in 0..=4 {
        let mut database = read(SIX);
        let mut walk = database.walk("a.b", "");
        let mut listed: Vec<usize> = (0..place).filter_map(|_| walk.next(&database)).map(|(number, _)| number).collect();
        assert_eq!(database.add(b"*b:added"), Ok(6));
        assert_eq!(database.add(b"a:\nb:"), Err(Error::NotOneEntry));
        listed.extend(rest(&mut walk, &database));
        assert_eq!(listed, [0, 1, 3, 4]);
        assert_eq!(database.add(b"a.b:"), Ok(7));
        assert_eq!(walk.next(&database), None);
        assert_eq!(numbers(&database, "a.b", ""), [0, 1, 3, 4, 6, 7]);
    }
}

#[test]
fn walks_stand_side_by_side() {
    let mut database = read(SIX);
    let mut first = database.walk("a.b", "");
    first.next(&database);
    let mut copy = first.clone();
    database.add(b"b.a:more").unwrap();
    let mut second = database.walk("b.a", "");
    assert_eq!(rest(&mut second, &database), [5, 6]);
    assert_eq!(rest(&mut first, &database), [1, 3, 4]);
    assert_eq!(rest(&mut copy, &database), [1, 3, 4]);
}

/// In another database a walk goes on from its next number, below the count from its start and that database's own.
#[test]
fn a_walk_in_another_database() {
    let mut walk = read(SIX).walk("a", "");
    let other = read(&b"a:\n".repeat(9));
    assert_eq!(rest(&mut walk, &other), [0, 1, 2, 3, 4, 5]);
    let mut walk = read(SIX).walk("a", "");
    assert_eq!(rest(&mut walk, &read(b"a:\na:")), [0, 1]);
    assert_eq!(rest(&mut walk, &other), [2, 3, 4, 5]);
}

#[test]
fn a_walk_over_the_most_entries() {
    let database = read(&b"a:\n".repeat(ENTRIES));
    assert_eq!(numbers(&database, "a", ""), (0..ENTRIES).collect::<Vec<_>>());
}

//! Lookups, and what a database shows of itself.

use resource_manager::{Archive, Database, Entry, Error, ValueError};

#[test]
fn document_01s_queries() {
    let value = |text: &str| {
        let database = Database::new_from_data(text.as_bytes()).unwrap();
        database.get_string("a.b", "").map(str::to_string)
    };
    assert_eq!(value("a*b: 2\n*b: 1").as_deref(), Some("2"));
    assert_eq!(value("?.b: 1\n*b: 2").as_deref(), Some("1"));
    assert_eq!(value("a*b: 1\na*b: 2").as_deref(), Some("2"));
    assert_eq!(value("a*c: 1"), None);
}

#[test]
fn none_is_not_an_empty_value() {
    let database = Database::new_from_data(b"a:\nb:\\377").unwrap();
    assert_eq!(database.get_bytes("a", ""), Some(&b""[..]));
    assert_eq!(database.get_bytes("c", ""), None);
    assert_eq!(database.get_bytes("b", ""), Some(&b"\xFF"[..]));
    assert_eq!(database.get_string("b", ""), None);
}

#[test]
fn a_default_is_for_none_and_for_a_refusal() {
    let database = Database::new_from_data(b"a:\nb:value").unwrap();
    let default = &b"default"[..];
    assert_eq!(database.get_bytes_or("b", "", default), b"value");
    assert_eq!(database.get_bytes_or("a", "", default), b"");
    for none in ["c", ".b", ""] {
        assert_eq!(database.get_bytes_or(none, "", default), default, "{none}");
    }
    for refused in ["a".repeat(1_025), "a.".repeat(33)] {
        assert!(database.try_get_bytes(&refused, "").is_err());
        assert_eq!(database.get_bytes_or(&refused, "", default), default);
        assert_eq!(database.get_bytes_or("b", &refused, default), default);
    }
}

#[test]
fn what_is_shown_is_lent() {
    let database = Database::new_from_data(b"a:\nb:value").unwrap();
    let default = b"default".to_vec();
    for name in ["a", "b"] {
        let value = database.get_bytes(name, "").unwrap().as_ptr_range();
        assert_eq!(database.get_bytes_or(name, "", &default).as_ptr_range(), value, "{name}");
    }
    assert_eq!(database.get_bytes_or("c", "", &default).as_ptr_range(), default.as_ptr_range());
}

#[test]
fn name_and_class_are_told_apart() {
    let database = Database::new_from_data(b"a.b: lower\na.B: upper").unwrap();
    assert_eq!(database.get_string("a.b", "A.B"), Some("lower"));
    assert_eq!(database.get_string("A.B", "a.b"), Some("upper"));
}

#[test]
fn booleans() {
    let boolean = |value: &str| Database::new_from_data(format!("a: {value}").as_bytes()).unwrap().get_bool("a", "");
    for word in ["true", "ON", "Yes", "1", "-7", "+5"] {
        assert_eq!(boolean(word), Some(true), "{word}");
    }
    for word in ["false", "oFF", "no", "0", "-0"] {
        assert_eq!(boolean(word), Some(false), "{word}");
    }
    for word in ["", "-", "yes.", "9223372036854775808"] {
        assert_eq!(boolean(word), None, "{word}");
    }
}

#[test]
fn values_of_other_types() {
    let database = Database::new_from_data(b"a: 1.5\nb: 300").unwrap();
    assert_eq!(database.get_value("a", ""), Ok(Some(1.5f64)));
    assert_eq!(database.get_value::<u16>("b", ""), Ok(Some(300)));
    assert!(database.get_value::<u8>("b", "").is_err());
    assert!(matches!(database.try_get_value::<u8>("b", ""), Err(ValueError::Parse(_))));
    assert_eq!(database.try_get_value::<u8>("c", ""), Ok(None));
}

#[test]
fn an_empty_database() {
    let database = Database::default();
    assert_eq!((database.entries().len(), database.opens()), (0, 0));
    assert_eq!(database.get_bytes("a", ""), None);
}

#[test]
fn entries_in_the_order_of_the_text() {
    let archive = Archive::from_files([("d/p", "#include \"q\"\nb:2"), ("d/q", "c?d: 3")]).unwrap();
    let database = Database::new_from_data_with_archive(b"a:1\n#include \"d/p\"\na:1", archive).unwrap();
    let entry = |key: &'static str, value: &'static str| Entry { key: key.as_bytes(), value: value.as_bytes() };
    let expected = [entry(".a", "1"), entry(".c.?.d", "3"), entry(".b", "2"), entry(".a", "1")];
    assert_eq!(database.entries().collect::<Vec<_>>(), expected);
    assert_eq!(database.opens(), 2);
}

#[test]
fn a_database_shows_its_entries() {
    let database = Database::new_from_data(b"a*b: \\001x").unwrap();
    assert_eq!(format!("{:?}", database.clone()), "[\".a*b: \\x01x\"]");
}

#[test]
fn a_database_goes_to_other_threads() {
    let database = Database::new_from_data(b"a: 1").unwrap();
    let found = std::thread::scope(|scope| {
        let asked: Vec<_> = (0..4).map(|_| scope.spawn(|| database.get_i64("a", ""))).collect();
        asked.into_iter().map(|thread| thread.join().unwrap()).collect::<Vec<_>>()
    });
    assert_eq!(found, [Ok(Some(1)); 4]);
}

#[test]
fn the_window_answers_as_the_database_within_its_limits() {
    let database = Database::new_from_data(b"*b: -7\n*c: yes\n*d: \\377\n*a.a.a.a.a.a.a.a: eight").unwrap();
    let window = database.window();
    let eight = "a.".repeat(8) + &".".repeat(112);
    assert_eq!(eight.len(), 128);
    let long = "a".repeat(128);
    for name in ["a.b", "a.c", "a.d", "e", ".b", "", &eight, &long] {
        for class in ["", "A.B", &eight, &long] {
            assert_eq!(window.try_get_bytes(name, class), database.try_get_bytes(name, class), "{name} {class}");
            assert_eq!(window.try_get_string(name, class), database.try_get_string(name, class), "{name} {class}");
            assert_eq!(window.try_get_bool(name, class), database.try_get_bool(name, class), "{name} {class}");
            assert_eq!(window.try_get_i64(name, class), database.try_get_i64(name, class), "{name} {class}");
            assert_eq!(window.get_bytes_or(name, class, b"none"), database.get_bytes_or(name, class, b"none"), "{name} {class}");
        }
    }
    assert_eq!(window.try_get_bytes(&eight, ""), Ok(Some(&b"eight"[..])));
}

#[test]
fn the_window_refuses_past_its_limits() {
    let database = Database::new_from_data(b"*a: value").unwrap();
    let window = database.window();
    for (query, error) in [("a".repeat(129), Error::LongQuery), ("a.".repeat(9), Error::ManyQueryParts)] {
        assert_eq!(database.try_get_bytes("a", &query), Ok(Some(&b"value"[..])));
        for (name, class) in [("a", query.as_str()), (query.as_str(), "")] {
            assert_eq!(window.try_get_bytes(name, class), Err(error));
            assert_eq!(window.try_get_string(name, class), Err(error));
            assert_eq!(window.try_get_bool(name, class), Err(error));
            assert_eq!(window.try_get_i64(name, class), Err(ValueError::Refused(error)));
            assert_eq!(window.get_bytes_or(name, class, b"default"), b"default");
        }
    }
    // Malformed comes between the two.
    assert_eq!(window.try_get_bytes(&"a.".repeat(9), ".a"), Ok(None));
    assert_eq!(window.try_get_bytes(&"a".repeat(129), ".a"), Err(Error::LongQuery));
}

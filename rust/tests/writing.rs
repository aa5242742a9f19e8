//! Databases written out, and read again.

use resource_manager::limits::{BODIES_BYTES, ENTRIES, TEXT_BYTES, WRITTEN_BYTES};
use resource_manager::{Archive, Database, Entry, Error, GetPropertyReply, StartUp};
use std::io::{self, Write};

fn read(text: &[u8]) -> Database {
    Database::new_from_data(text).unwrap()
}

/// A text, read and written out.
fn rewritten(text: &[u8]) -> Vec<u8> {
    read(text).to_text()
}

#[test]
fn a_line_for_each_entry() {
    assert_eq!(rewritten(b"a.b:x"), b".a.b: x\n");
    assert_eq!(rewritten(b"! a comment\n\na..*b   :\t x\nno resource\n?c:"), b".a*b: x\n.?.c: \n");
    assert_eq!(rewritten(b"b:1\na:2\nb:1"), b".b: 1\n.a: 2\n.b: 1\n");
}

#[test]
fn no_entries() {
    assert_eq!(Database::default().to_text(), b"");
    assert_eq!(rewritten(b"! a comment"), b"");
}

#[test]
fn what_is_escaped() {
    let written = |value: &[u8]| {
        let text = rewritten(&[b"a:", value].concat());
        text.strip_prefix(b".a: ").unwrap().strip_suffix(b"\n").unwrap().to_vec()
    };
    assert_eq!(written(b"\\\\"), b"\\\\");
    assert_eq!(written(b"\\q\\\\n"), b"\\\\q\\\\n");
    assert_eq!(written(b"1\\n2\\n"), b"1\\n2\\n");
    assert_eq!(written(b"\\012"), b"\\n");
    assert_eq!(written(b"\\  b "), b"\\  b ");
    assert_eq!(written(b"\\\t\tb\t"), b"\\\t\tb\t");
    assert_eq!(written(b"b c"), b"b c");
    assert_eq!(written(b"\\000\\001\\377"), b"\0\x01\xFF");
    assert_eq!(written(b"!#:*.?\""), b"!#:*.?\"");
}

#[test]
fn every_byte_comes_back() {
    let octal: Vec<u8> = (0..=255).flat_map(|byte: u8| format!("\\{byte:03o}").into_bytes()).collect();
    let database = read(&[b"a:", &octal[..], b"\nb:", &octal[4..], b"\n"].concat());
    let again = read(&database.to_text());
    assert_eq!(again.get_bytes("a", ""), Some(&(0..=255).collect::<Vec<u8>>()[..]));
    assert_eq!(again.get_bytes("b", "").map(<[u8]>::len), Some(255));
    assert!(again.entries().eq(database.entries()));
    for byte in 0..=255u8 {
        let database = read(format!("a:\\{byte:03o}\\{byte:03o}").as_bytes());
        assert_eq!(read(&database.to_text()).get_bytes("a", ""), Some(&[byte; 2][..]), "{byte}");
    }
}

#[test]
fn what_was_included_stands_in_the_text() {
    let archive = Archive::from_files([("p", "#include \"d/q\"\nb: 2"), ("d/q", "a: 1")]).unwrap();
    let database = Database::new_from_data_with_archive(b"#include \"p\"\nc: 3", &archive).unwrap();
    assert_eq!((database.to_text(), database.opens()), (b".a: 1\n.b: 2\n.c: 3\n".to_vec(), 2));
    let again = Database::new_from_data_with_archive(&database.to_text(), &archive).unwrap();
    assert_eq!((again.to_text(), again.opens()), (database.to_text(), 0));
}

#[test]
fn texts_of_a_start_up_stand_one_after_the_other() {
    let property = GetPropertyReply { format: 8, value: b"a: 1\\".to_vec() };
    let start_up = StartUp { property, host: Some(b"b: 2".to_vec()), ..StartUp::default() };
    let database = Database::new_from_start_up(&start_up, Archive::new()).unwrap();
    assert_eq!(database.to_text(), b".a: 1\\\\\n.b: 2\n");
}

#[test]
fn lookups_are_the_same_in_what_is_read_again() {
    let database = read(b"*font: fixed\nxterm*font: 9x15\nxterm.?.font:\\ bold\n*Font:\n");
    let again = read(&database.to_text());
    for (name, class) in
        [("xterm.vt100.font", "XTerm.VT100.Font"), ("emacs.font", ""), ("font", "Font"), ("a.b", "A.Font"), ("c", "")]
    {
        assert_eq!(again.get_bytes(name, class), database.get_bytes(name, class), "{name}");
    }
}

#[test]
fn other_entries_have_another_text() {
    let texts = [&b"a:1"[..], b"a: \\ 1", b"*a:1", b"a:1\na:1", b"a:\\n", b"a:\\\\n", b"a:n", b"a:", b"b:1", b"a.b:1"];
    for (first, one) in texts.iter().enumerate() {
        for (second, other) in texts.iter().enumerate() {
            assert_eq!(rewritten(one) == rewritten(other), first == second);
        }
    }
    assert_eq!(rewritten(b"a : 1"), rewritten(b".a:1\n"));
}

/// 512 entries of two bytes and as many backslashes as there is room for.
#[test]
fn the_longest_text() {
    let half = "a:".to_string() + &"\\134".repeat(BODIES_BYTES / ENTRIES - 2) + "\n";
    let eighth = half.repeat(64);
    let archive = Archive::from_files([("p", eighth)]).unwrap();
    let database = Database::new_from_data_with_archive("#include \"p\"\n".repeat(8).as_bytes(), archive).unwrap();
    let text = database.to_text();
    assert_eq!((database.entries().len(), text.len()), (ENTRIES, WRITTEN_BYTES));
    assert!(text.chunks(129).all(|line| line.starts_with(b".a: \\\\") && line.ends_with(b"\\\\\n")));
    assert_eq!(Database::new_from_data(&text).unwrap_err(), Error::LongText);
}

#[test]
fn a_text_as_long_as_may_be_read() {
    let database = read(&[b"a:", &vec![b'z'; TEXT_BYTES - 5][..]].concat());
    let text = database.to_text();
    assert_eq!(text.len(), TEXT_BYTES);
    assert_eq!(read(&text).entries().collect::<Vec<Entry>>(), database.entries().collect::<Vec<Entry>>());
    let longer = read(&[b"a:", &vec![b'z'; TEXT_BYTES - 4][..]].concat()).to_text();
    assert_eq!(Database::new_from_data(&longer).unwrap_err(), Error::LongText);
}

#[test]
fn a_writer_gets_the_text() {
    let database = read(b"a:\\ 1\nb:2");
    let mut text = Vec::new();
    database.write_to(&mut text).unwrap();
    assert_eq!(text, database.to_text());
    let mut short = [0; 3];
    let error = database.write_to(&mut short[..]).unwrap_err();
    assert_eq!(error.kind(), io::ErrorKind::WriteZero);
}

/// Takes a byte at a time.
struct Slow(Vec<u8>);

impl Write for Slow {
    fn write(&mut self, bytes: &[u8]) -> io::Result<usize> {
        self.0.extend(bytes.first());
        Ok(bytes.len().min(1))
    }

    fn flush(&mut self) -> io::Result<()> {
        Ok(())
    }
}

#[test]
fn a_writer_that_takes_little_gets_all() {
    let database = read(b"a:1\nb:2");
    let mut slow = Slow(Vec::new());
    database.write_to(&mut slow).unwrap();
    assert_eq!(slow.0, database.to_text());
}

#[test]
fn a_text_takes_no_more_memory_than_it_needs() {
    let text = rewritten(b"a: 1");
    assert!(text.capacity() < 100, "{}", text.capacity());
}

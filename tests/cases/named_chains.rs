//! Chains chosen by hand: the sentences of document 02 (i) one by one, texts that end in the middle of
//! something, and the limits, which run over the whole chain.

use crate::limits::{edge, long_key, long_value, repeated, Edge};
use model::startup::StartUp;
use records::{archive_of, Source};

/// A chain, and the entries and opens that it must give.
pub struct Named {
    pub label: &'static str,
    pub source: Source,
    pub entries: Vec<(&'static str, &'static str)>,
    pub opens: usize,
}

type Files<'a> = &'a [(&'a [u8], &'a [u8])];

/// A start-up with all texts to choose from, each with a line that says its name.
fn all() -> StartUp {
    let text = |text: &[u8]| Some(text.to_vec());
    StartUp {
        format: 8,
        property: b"first:property".to_vec(),
        xresources: text(b"first:xresources"),
        xdefaults: text(b"first:xdefaults"),
        xenvironment_set: true,
        xenvironment: text(b"second:xenvironment"),
        host: text(b"second:host"),
    }
}

/// A property and the host's text.
fn two(first: &[u8], second: &[u8], files: Files) -> Source {
    let start_up = StartUp { format: 8, property: first.to_vec(), host: Some(second.to_vec()), ..StartUp::default() };
    Source::chain(start_up, archive_of(files))
}

pub fn named() -> Vec<Named> {
    let mut cases = which_texts();
    cases.extend(ends_of_texts());
    cases.extend(folders());
    cases
}

/// Which texts are used, in the order of the paper.
fn which_texts() -> Vec<Named> {
    let no_property = || StartUp { property: Vec::new(), ..all() };
    let no_xresources = || StartUp { xresources: None, ..no_property() };
    let empty = || Some(Vec::new());
    let host = || StartUp { xenvironment_set: false, ..all() };
    let cases: Vec<(&str, StartUp, &str, &str)> = vec![
        ("the property", all(), "property", "xenvironment"),
        ("a format of 16", StartUp { format: 16, ..all() }, "xresources", "xenvironment"),
        ("a format of 32", StartUp { format: 32, ..all() }, "xresources", "xenvironment"),
        ("a format of 0", StartUp { format: 0, ..all() }, "xresources", "xenvironment"),
        ("a format of 9", StartUp { format: 9, ..all() }, "xresources", "xenvironment"),
        ("a format of 24", StartUp { format: 24, ..all() }, "xresources", "xenvironment"),
        ("an empty property", no_property(), "xresources", "xenvironment"),
        ("an empty property of format 32", StartUp { format: 32, ..no_property() }, "xresources", "xenvironment"),
        ("a property of one newline", StartUp { property: b"\n".to_vec(), ..all() }, "", "xenvironment"),
        ("an empty .Xresources", StartUp { xresources: empty(), ..no_property() }, "", "xenvironment"),
        (".Xresources of one newline", StartUp { xresources: Some(b"\n".to_vec()), ..no_property() }, "", "xenvironment"),
        (".Xresources not read", no_xresources(), "xdefaults", "xenvironment"),
        (".Xresources not read, format 16", StartUp { xresources: None, format: 16, ..all() }, "xdefaults", "xenvironment"),
        ("an empty .Xdefaults", StartUp { xdefaults: empty(), ..no_xresources() }, "", "xenvironment"),
        (".Xdefaults not read either", StartUp { xdefaults: None, ..no_xresources() }, "", "xenvironment"),
        (".Xdefaults not read, .Xresources is", StartUp { xdefaults: None, ..no_property() }, "xresources", "xenvironment"),
        ("neither read beside a property", StartUp { xresources: None, xdefaults: None, ..all() }, "property", "xenvironment"),
        ("XENVIRONMENT not set", host(), "property", "host"),
        ("XENVIRONMENT not set, no host's", StartUp { host: None, ..host() }, "property", ""),
        ("XENVIRONMENT not set, an empty host's", StartUp { host: empty(), ..host() }, "property", ""),
        ("the named text not read", StartUp { xenvironment: None, ..all() }, "property", ""),
        ("an empty named text", StartUp { xenvironment: empty(), ..all() }, "property", ""),
        ("neither of the second", StartUp { xenvironment: None, host: None, ..all() }, "property", ""),
        (
            "the host's alone",
            StartUp { xresources: None, xdefaults: None, ..StartUp { property: Vec::new(), ..host() } },
            "",
            "host",
        ),
        ("the named text alone", StartUp { xdefaults: None, ..no_xresources() }, "", "xenvironment"),
        ("no text at all", StartUp::default(), "", ""),
        ("XENVIRONMENT set and no text", StartUp { xenvironment_set: true, ..StartUp::default() }, "", ""),
    ];
    let entry = |key: &'static str, value: &'static str| (!value.is_empty()).then_some((key, value));
    let named = |(label, start_up, first, second)| Named {
        label,
        source: Source::chain(start_up, archive_of(&[])),
        entries: [entry(".first", first), entry(".second", second)].into_iter().flatten().collect(),
        opens: 0,
    };
    cases.into_iter().map(named).collect()
}

/// A text ends at its own end.
fn ends_of_texts() -> Vec<Named> {
    let p: Files = &[(b"p", b"p:1\\")];
    let case = |label, first: &[u8], second: &[u8], entries: &[(&'static str, &'static str)], opens| Named {
        label,
        source: two(first, second, p),
        entries: entries.to_vec(),
        opens,
    };
    vec![
        case("a last backslash", b"a:1\\", b"b:2", &[(".a", "1\\"), (".b", "2")], 0),
        case("a last backslash before a newline", b"a:1\\", b"\nb:2", &[(".a", "1\\"), (".b", "2")], 0),
        case("a last backslash before an n", b"a:1\\", b"n:2", &[(".a", "1\\"), (".n", "2")], 0),
        case("lines joined to nothing", b"a:1\\\n", b"b:2", &[(".a", "1"), (".b", "2")], 0),
        case("one octal digit", b"a:1\\1", b"01:2", &[(".a", "1"), (".01", "2")], 0),
        case("two octal digits", b"a:1\\12", b"3:2", &[(".a", "1"), (".3", "2")], 0),
        case("blanks after the colon", b"a: \\\n", b" b:2\nc:3", &[(".a", ""), (".c", "3")], 0),
        case("a value", b"a:1", b"2\nb:3", &[(".a", "1"), (".b", "3")], 0),
        case("a key", b"a", b".b:2", &[(".b", "2")], 0),
        case("a binding", b"a*", b"b:2", &[(".b", "2")], 0),
        case("a key and its blank", b"a ", b":1\nb:2", &[(".b", "2")], 0),
        case("a comment", b"!a", b"b:2", &[(".b", "2")], 0),
        case("a #", b"#", b"include \"p\"\nb:2", &[(".b", "2")], 0),
        case("an include", b"#include \"p\"", b"b:2", &[(".p", "1\\"), (".b", "2")], 1),
        case("an include with no second quote", b"#include \"p", b"\"\nb:2", &[(".b", "2")], 0),
        case("an include of one file by both", b"#include \"p\"", b"#include \"p\"", &[(".p", "1\\"), (".p", "1\\")], 2),
        case("the same key in both", b"a:1\nb:2", b"a:3", &[(".a", "1"), (".b", "2"), (".a", "3")], 0),
        case("a newline and a text", b"\n", b"b:2", &[(".b", "2")], 0),
    ]
}

/// Each text has the empty folder, whatever the texts before it included.
fn folders() -> Vec<Named> {
    let files: Files = &[(b"d/p", b"in:d\n#include \"q\""), (b"d/q", b"q:d"), (b"q", b"q:top")];
    let text = || Some(b"#include \"d/p\"\n#include \"q\"".to_vec());
    let read = [(".in", "d"), (".q", "d"), (".q", "top")];
    let case = |label, start_up: StartUp, entries: &[&[(&'static str, &'static str)]], opens| Named {
        label,
        source: Source::chain(start_up, archive_of(files)),
        entries: entries.concat(),
        opens,
    };
    let none = StartUp::default;
    vec![
        case("includes of a property", StartUp { format: 8, property: text().unwrap_or_default(), ..none() }, &[&read], 3),
        case("includes of .Xresources", StartUp { xresources: text(), ..none() }, &[&read], 3),
        case("includes of .Xdefaults", StartUp { xdefaults: text(), ..none() }, &[&read], 3),
        case("includes of the named text", StartUp { xenvironment_set: true, xenvironment: text(), ..none() }, &[&read], 3),
        case("includes of the host's", StartUp { host: text(), ..none() }, &[&read], 3),
        case("includes of two texts", StartUp { xresources: text(), host: text(), ..none() }, &[&read, &read], 6),
        case(
            "a second text after a folder",
            StartUp { xdefaults: Some(b"#include \"d/p\"".to_vec()), host: Some(b"#include \"q\"".to_vec()), ..none() },
            &[&read],
            3,
        ),
    ]
}

/// Cases at the limits of a chain and one past them, and texts that are not looked at.
pub fn at_limits() -> Vec<Edge> {
    let mut edges = long_texts();
    edges.extend(texts_not_used());
    edges.extend(limits_over_both());
    edges.extend(order_of_refusals());
    edges
}

fn newlines(count: usize) -> Vec<u8> {
    repeated(b"\n", count)
}

/// Limit 2 holds for each text that is used.
fn long_texts() -> Vec<Edge> {
    let long = || Some(newlines(32_769));
    let none = StartUp::default;
    let chain = |start_up| Source::chain(start_up, archive_of(&[]));
    vec![
        edge("a long property", chain(StartUp { format: 8, property: newlines(32_769), ..none() }), Err(2)),
        edge("a long .Xresources", chain(StartUp { xresources: long(), ..none() }), Err(2)),
        edge("a long .Xdefaults", chain(StartUp { xdefaults: long(), ..none() }), Err(2)),
        edge("a long named text", chain(StartUp { xenvironment_set: true, xenvironment: long(), ..none() }), Err(2)),
        edge("a long host's", chain(StartUp { host: long(), ..none() }), Err(2)),
        edge("a long second text", two(b"a:", &newlines(32_769), &[]), Err(2)),
        edge("two long texts", two(&newlines(32_769), &newlines(32_769), &[]), Err(2)),
        edge("two texts of 32,768", two(&newlines(32_768), &newlines(32_768), &[]), Ok((0, 0))),
        edge(
            "two texts of 32,768 with an entry each",
            two(&[newlines(32_766), b"a:".to_vec()].concat(), &[newlines(32_766), b"b:".to_vec()].concat(), &[]),
            Ok((2, 0)),
        ),
    ]
}

/// The others are not looked at, however long.
fn texts_not_used() -> Vec<Edge> {
    let long = || Some(newlines(40_000));
    let chain = |start_up, archive: &[u8]| Source::chain(start_up, archive.to_vec());
    let unused = |label, start_up, entries| edge(label, chain(start_up, &[0, 0]), Ok((entries, 0)));
    let all_long = || StartUp { xresources: long(), xdefaults: long(), host: long(), ..all() };
    vec![
        unused("a long property of format 16", StartUp { format: 16, property: newlines(40_000), ..all() }, 2),
        unused("a long .Xresources under a property", StartUp { xresources: long(), ..all() }, 2),
        unused("a long .Xdefaults under a property", StartUp { xdefaults: long(), xresources: None, ..all() }, 2),
        unused("a long .Xdefaults under .Xresources", StartUp { xdefaults: long(), format: 0, ..all() }, 2),
        unused(
            "a long .Xdefaults under an empty one",
            StartUp { xdefaults: long(), xresources: Some(Vec::new()), format: 0, ..all() },
            1,
        ),
        unused("a long host's under XENVIRONMENT", StartUp { host: long(), ..all() }, 2),
        unused("a long host's under a named text not read", StartUp { host: long(), xenvironment: None, ..all() }, 1),
        unused("a long named text that is not named", StartUp { xenvironment: long(), xenvironment_set: false, ..all() }, 2),
        unused("every long text that is not used", all_long(), 2),
        edge("no archive, and long texts that are not used", chain(all_long(), &[]), Err(3)),
        edge("no archive, and a long text that is used", chain(StartUp { xenvironment: long(), ..all() }, &[]), Err(2)),
        edge("no archive, and no text", chain(StartUp::default(), &[]), Err(3)),
    ]
}

/// Opens, entries and store run over the whole chain; the depth begins anew with each text.
fn limits_over_both() -> Vec<Edge> {
    let entries = |first, second| two(&repeated(b"a:\n", first), &repeated(b"b:\n", second), &[]);
    let value = |first, second| two(&long_value(first), &long_value(second), &[]);
    let opens = |first, second: &[u8]| {
        let includes = |times| repeated(b"#include \"p\"\n", times);
        let files: Files = &[(b"p", &repeated(b"#include \"q\"\n", 63)), (b"q", b"")];
        two(&includes(first), &[includes(64 - first), second.to_vec()].concat(), files)
    };
    let own: Files = &[(b"p", b"a:1\n#include \"p\"")];
    let line = |parts| [long_key(parts), b":".to_vec()].concat();
    vec![
        edge("256 entries in each", entries(256, 256), Ok((512, 0))),
        edge("256 entries and 257", entries(256, 257), Err(6)),
        edge("511 entries and one", entries(511, 1), Ok((512, 0))),
        edge("512 entries and one", entries(512, 1), Err(6)),
        edge("512 entries and none", entries(512, 0), Ok((512, 0))),
        edge("none and 513 entries", entries(0, 513), Err(6)),
        edge("512 entries and a line that makes none", two(&repeated(b"a:\n", 512), b"b", &[]), Ok((512, 0))),
        edge("a store of 32,768 in two texts", value(16_382, 16_382), Ok((2, 0))),
        edge("a store of 32,769 in two texts", value(16_382, 16_383), Err(7)),
        edge("a store filled by the first", two(&long_value(32_766), b"b", &[]), Ok((1, 0))),
        edge("a full store and an entry", two(&long_value(32_766), b"b:", &[]), Err(7)),
        edge("4,096 opens in two texts", opens(32, b""), Ok((0, 4096))),
        edge("4,097 opens in two texts", opens(32, b"#include \"q\""), Err(4)),
        edge("4,096 opens by the first", opens(64, b"b:"), Ok((1, 4096))),
        edge("4,096 opens and one", opens(64, b"#include \"q\""), Err(4)),
        edge("4,096 opens and a missing file", opens(64, b"#include \"r\"\nb:"), Ok((1, 4096))),
        edge("100 depths in each", two(b"#include \"p\"", b"#include \"p\"", own), Ok((200, 200))),
        edge("16 parts in each", two(&line(16), &line(16), &[]), Ok((2, 0))),
        edge("17 parts in the second", two(&line(16), &line(17), &[]), Err(5)),
        edge("17 parts in the first", two(&line(17), b"b:", &[]), Err(5)),
    ]
}

/// Refusals 4 to 7 come in the order of the chain.
fn order_of_refusals() -> Vec<Edge> {
    let full = repeated(b"a:\n", 512);
    let past = repeated(b"a:\n", 513);
    let wide = [long_key(17), b":".to_vec()].concat();
    let twice: Files = &[(b"p", b"#include \"p\"\n#include \"p\"")];
    let long: Files = &[(b"p", &long_value(32_000))];
    vec![
        edge("entries of the first before parts of the second", two(&past, &wide, &[]), Err(6)),
        edge("parts of the first before entries of the second", two(&wide, &past, &[]), Err(5)),
        edge("17 parts in a 513th entry of the second", two(&full, &wide, &[]), Err(5)),
        edge("a 513th entry of the second past the store", two(&full, b"#include \"p\"", long), Err(6)),
        edge("opens of the first before parts of the second", two(b"#include \"p\"", &wide, twice), Err(4)),
        edge("parts of the first before opens of the second", two(&wide, b"#include \"p\"", twice), Err(5)),
        edge("the store of the first before entries of the second", two(b"#include \"p\"\n#include \"p\"", &past, long), Err(7)),
        edge("a long second text before parts of the first", two(&wide, &newlines(32_769), &[]), Err(2)),
    ]
}

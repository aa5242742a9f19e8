//! Cases chosen by hand: a few for each rule, and those that the documents name.

use records::{Case, Kind, Query, Source};

fn lines(texts: &[&[u8]]) -> Vec<Case> {
    texts.iter().map(|text| Case::read(Source::plain(text))).collect()
}

fn including(text: &[u8], files: &[(&[u8], &[u8])]) -> Case {
    Case::read(Source::with(text, files))
}

fn looked_up(text: &[u8], name: &[u8], class: &[u8]) -> Case {
    Case::ask(Kind::Bytes, Source::plain(text), Query::new(name, class))
}

/// A value asked for as `kind`, under the key and the query `a`.
fn said(kind: Kind, value: &[u8]) -> Case {
    Case::ask(kind, Source::plain(&[b"a:", value].concat()), Query::new(b"a", b""))
}

/// Short cases that touch every rule: texts of at most 40 bytes, archives of at most 60.
pub fn small() -> Vec<Case> {
    let mut cases = small_lines();
    cases.extend(small_includes());
    cases.extend(small_lookups());
    cases.extend(small_values());
    cases
}

fn small_lines() -> Vec<Case> {
    lines(&[
        // Keys.
        b"a..*b:x",
        b"foo?bar: x",
        b"??a:x",
        b"a.?: x",
        b"a.: x",
        b" a: x",
        b":x\n*:x\na b:x\na+b:x",
        b"a  :x\nb\t:y",
        b"_-9Z:",
        // Lines that are passed or skipped.
        b"\n\n!a:1\n#a:1\na:2",
        b"!x\\\na:1",
        b"x\\\na:1",
        b"a:1\na:2",
        // Values.
        b"a: \t\\\n \\\ny ",
        b"a:\\ x\\\ty\\\\z\\nw",
        b"a:x\\\n y",
        b"a:\\q\\",
        b"a:\\101\\400",
        b"a:\\12",
        b"a:\\12z",
        b"a:\\1\nb:2",
        b"a:\\1\\\nz",
        b"a:x\x00y\r\nb:\xff",
    ])
}

fn small_includes() -> Vec<Case> {
    let p: &[(&[u8], &[u8])] = &[(b"p", b"b:1")];
    vec![
        including(b"a:1\n#include \"p\"\nc:3", p),
        including(b"#  include\"p\"z\n#include \"p\"", p),
        including(b"#\tinclude \"p\"", p),
        including(b"#include\t\"p\"", p),
        including(b"#include \"p\n#include p\n#Include \"p\"", p),
        including(b"#include \"\"\n#include \"q\"\na:1", p),
        including(b"#include \"d/p\"", &[(b"d/p", b"#include \"q\"\nb:2"), (b"d/q", b"c:3"), (b"q", b"c:4")]),
        including(b"#include \"p\"\na:\\1", &[(b"p", b"#include \"q\"\nb:\\"), (b"q", b"c:\\1")]),
    ]
}

fn small_lookups() -> Vec<Case> {
    let through = Source::with(b"a:1\n#include \"p\"", &[(b"p", b"a:2")]);
    vec![
        looked_up(b"*b:1\na*b:2", b"a.b", b""),
        looked_up(b"?.b:1\n*b:2", b"a.b", b""),
        looked_up(b"a*b:1\na*b:2", b"a.b", b""),
        looked_up(b"a.b:1\na*b:2", b"a.b", b"X.Y"),
        looked_up(b"a.b:3\nX.b:2\n?.b:1", b"a.b", b"X.Y"),
        looked_up(b"X.b:2\n?.b:1", b"a.b", b"X.Y"),
        looked_up(b"*a.b:1", b"a.a.b", b""),
        looked_up(b"a*c:1\n?.?.c:2", b"a.b.c", b""),
        looked_up(b"a:1", b"a.b", b""),
        looked_up(b"a:1", b"a..", b""),
        looked_up(b"a:1", b".a", b""),
        looked_up(b"a:1", b"a", b"?"),
        looked_up(b"a.b:1", b"a", b"x.b"),
        looked_up(b"a:", b"a", b"A"),
        looked_up(b"A:1", b"a", b""),
        looked_up(b"*a:1", b"", b""),
        Case::ask(Kind::Bytes, through, Query::new(b"a", b"")),
    ]
}

fn small_values() -> Vec<Case> {
    vec![
        said(Kind::Bool, b"+5"),
        said(Kind::Bool, b"-0"),
        said(Kind::Bool, b"-"),
        said(Kind::Bool, b"9223372036854775808"),
        said(Kind::Bool, b"oFf"),
        said(Kind::Bool, b"yes "),
        said(Kind::Value, b"-9223372036854775808"),
        said(Kind::Value, b"1x"),
        said(Kind::Value, b"\xff"),
        said(Kind::String, b"\\303\\251"),
        said(Kind::String, b"\\355\\240\\200"),
    ]
}

/// What the documents name beside the short cases.
pub fn named() -> Vec<Case> {
    let mut cases = departures();
    cases.extend(proved_examples());
    cases.extend(misleading_rankings());
    cases.extend(numbers_and_words());
    cases
}

/// The smallest inputs on which the Rust and the Xlib manual, chapter 15, part ways or are silent,
/// in the order of the manual. Left out, as none of them can be run: a query and a key of 101 parts
/// (refused), and a file name that is not UTF-8 (no archive holds one).
fn departures() -> Vec<Case> {
    let p: &[(&[u8], &[u8])] = &[(b"p", b"b:1")];
    let mut cases = lines(&[b" a:x", b"\ta:x", b"a\t:x", b"a :x", b"a: \t x"]);
    for text in [
        b"#\tinclude \"p\"".as_slice(),
        b"#include\t\"p\"",
        b"#include p",
        b"#include \"p\"z",
        b" #include \"p\"",
        b"#Include \"p\"",
    ] {
        cases.push(including(text, p));
    }
    cases.push(including(b"a:1\n#include \"p\"\nc:3", &[(b"p", b"b:2")]));
    cases.push(including(b"#include \"d/p\"", &[(b"d/p", b"#include \"q\"\nb:2"), (b"d/q", b"c:3"), (b"q", b"c:4")]));
    cases.extend(lines(&[b"a?b:x", b"??a:x", b"a..*b:x", b"a...b:x", b"a.?:x", b"a*:x", b"a+b:x", b"a b:x", b"a:1\na:2"]));
    cases.push(looked_up(b"a:1\na:2", b"a", b""));
    cases.extend(lines(&[b"a:x\x00y", b"a:x \t", b"a:\\\\", b"a:\\101", b"a:\\400", b"a:\\12z", b"a:\\12", b"a:\\1\nb:2"]));
    cases.extend(lines(&[
        b"a:\\q",
        b"a:\\",
        b"a:x\\\n y",
        b"a:\\\n y",
        b"a:\\ x",
        b"a:x\\ny",
        b"!x\\\na:1",
        b"x\\\na:1",
        b" !x\na:1",
    ]));
    cases.push(including(b"#include \"p", p));
    cases.push(including(b"#include \"\"", &[]));
    cases.extend(lines(&[b"a:x\r\nb:y\r\n"]));
    for (text, name, class) in [
        (b"a.b:1".as_slice(), b"a".as_slice(), b"x.b".as_slice()),
        (b"a.b:1", b"x.b", b"a"),
        (b"a:1", b"a", b""),
        (b"*b:1", b"a.?.b", b"A.B.C"),
        (b"a:1", b"a.", b"A"),
        (b"a.b:1", b"a..b", b"A.B"),
        (b"a:1", b".a", b"A"),
        (b"*b:1\na*b:2", b"a.b", b"X.Y"),
        (b"?.b:1\nX.b:2\na.b:3", b"a.b", b"X.Y"),
        (b"a.b:1\na*b:2", b"a.b", b"X.Y"),
        (b"*a.b:1", b"a.a.b", b"X.X.X"),
        (b"A:1", b"a", b"x"),
    ] {
        cases.push(looked_up(text, name, class));
    }
    cases.extend(lines(&[b"m: \\\\000\\\nz\\n"]));
    cases
}

/// Document 01's proved examples and its list program's text.
fn proved_examples() -> Vec<Case> {
    let mut cases = lines(&[b"a..*b:x", b"foo?bar: x", b"a.?: x", b"a.: x", b" a: x", b"a.b: x\n*c: yes\n"]);
    cases.extend(lines(&[b"a:\\101\\400", b"a:\\12", b"a:\\12z"]));
    cases.push(looked_up(b"a:1", b"a..", b""));
    cases.push(looked_up(b"a:1", b".a", b""));
    for text in
        [b"a*b: 2\n*b: 1".as_slice(), b"*b: 1\na*b: 2", b"?.b: 1\n*b: 2", b"*b: 2\n?.b: 1", b"a*b: 1\na*b: 2", b"a*b: 2\na*b: 1"]
    {
        cases.push(looked_up(text, b"a.b", b""));
    }
    cases
}

/// Texts on which a wrong ranking, or a wrong order of entries, shows.
fn misleading_rankings() -> Vec<Case> {
    let through = Source::with(b"#include \"p\"\na:1", &[(b"p", b"a:2")]);
    vec![
        looked_up(b"a*d:1\n?.?.?.d:2", b"a.b.c.d", b""),
        looked_up(b"?.?.?.d:2\na*d:1", b"a.b.c.d", b""),
        looked_up(b"*a.b:1", b"a.a.b", b""),
        looked_up(b"*a*a.b:1\n*b:2", b"a.a.a.b", b""),
        looked_up(b"*x:1\n*x:2\n*x:3", b"x", b""),
        looked_up(b"a.b:1\n*b:2\na.b:3\n?.b:4", b"a.b", b""),
        Case::ask(Kind::Bytes, through.clone(), Query::new(b"a", b"")),
        Case::read(through),
        looked_up(b"a\\\nb:1", b"b", b""),
        looked_up(b"a.?\\\nb:1", b"b", b""),
        looked_up(b"a b:\\\nb:1", b"b", b""),
        // Of one key the highest of several rows counts.
        looked_up(b"*a*b:1\n?*b:2", b"a.a.b", b""),
        looked_up(b"*?*b:1\n*X*b:2", b"a.x.b", b"Q.X.B"),
        // Instance and class of one position; a part that equals both is an instance.
        looked_up(b"a:1\nA:2", b"a", b"A"),
        looked_up(b"a:1\n?a:2\n*a:3", b"a", b"a"),
        // Queries with bytes that no name has.
        looked_up(b"*a:1", "é.a".as_bytes(), b""),
        looked_up(b"*a:1", b"a\x00", b""),
        looked_up(b"*a:1", b"a", b"a b"),
    ]
}

fn numbers_and_words() -> Vec<Case> {
    const VALUES: [&[u8]; 44] = [
        b"",
        b"+5",
        b"-0",
        b"-",
        b"+",
        b"0",
        b"00",
        b"-1",
        b"+0",
        b"1",
        b"007",
        b"+-1",
        b"--1",
        b"1 ",
        b"\\ 1",
        b"1.0",
        b"1e1",
        b"0x1",
        b"9223372036854775807",
        b"9223372036854775808",
        b"-9223372036854775808",
        b"-9223372036854775809",
        b"+9223372036854775808",
        b"18446744073709551616",
        b"000000000000000000000000000000000001",
        b"-00000000000000000000",
        b"99999999999999999999999999",
        b"true",
        b"TRUE",
        b"on",
        b"On",
        b"yes",
        b"yEs",
        b"false",
        b"False",
        b"off",
        b"no",
        b"NO",
        b"nope",
        b"tru",
        b"yes ",
        "\u{212a}".as_bytes(),
        "\u{ff11}".as_bytes(),
        b"\xff",
    ];
    let mut cases = Vec::new();
    for kind in [Kind::Bool, Kind::Value] {
        cases.extend(VALUES.iter().map(|value| said(kind, value)));
    }
    cases
}

//! Tests of the port's lookups by name: document 01's cases, and those of the files beside this one.

use crate::asking::{said, Lookups, Said};
use crate::inquiry::Inquiry;
use crate::query_tests::dotted;
use crate::run::describe;
use crate::{both, image_tests, query_tests};
use cases::lookups::FAMILIES;
use cases::readings::Extent;
use model::lookup::Number;
use records::{Query, Source};

pub type Test = fn(Lookups) -> Result<String, String>;

fn tests() -> impl Iterator<Item = (&'static str, Test)> {
    query_tests::TESTS.into_iter().chain(image_tests::TESTS)
}

/// What the lookups say of a query that is not refused, or the refusal's number.
pub type Answer = Result<Said<'static>, u8>;

/// A query in a source's image, and the answer that it must get.
pub struct Asked {
    source: Source,
    query: Query,
    expected: Answer,
}

pub fn asked(text: &[u8], name: &[u8], class: &[u8], expected: Answer) -> Asked {
    Asked { source: Source::plain(text), query: Query::new(name, class), expected }
}

pub const NOTHING: Said = Said { bytes: None, string: None, boolean: None, number: Number::None };

fn saying(value: &'static [u8], boolean: Option<bool>, number: Number) -> Answer {
    Ok(Said { bytes: Some(value), string: Some(value), boolean, number })
}

/// A value of the key and the query `a`.
fn value(text: &'static [u8], boolean: Option<bool>, number: Number) -> Vec<Asked> {
    vec![asked(text, b"a", b"", saying(&text[2..], boolean, number))]
}

/// A value of one digit.
pub fn digit(value: &'static [u8]) -> Answer {
    saying(value, Some(true), Number::Is((value[0] - b'0').into()))
}

pub type Named = (&'static str, Vec<Asked>);

/// Document 01's cases, each a test.
fn named() -> Vec<Named> {
    wide_queries().into_iter().chain(values()).chain(rankings()).collect()
}

fn wide_queries() -> Vec<Named> {
    let one = || digit(b"1");
    vec![
        (
            "32 query parts",
            vec![
                asked(b"*a: 1", &dotted(32), b"", one()),
                asked(b"*a: 1", b"", &dotted(32), one()),
                asked(b"*a: 1", &dotted(32), &dotted(32), one()),
                asked(b"*b: 1", &dotted(32), b"b", Ok(NOTHING)),
            ],
        ),
        (
            "33 query parts",
            vec![
                asked(b"*a: 1", &dotted(33), b"", Err(10)),
                asked(b"*a: 1", b"a", &dotted(33), Err(10)),
                asked(b"*a: 1", &dotted(33), b".a", Ok(NOTHING)),
            ],
        ),
        (
            "16 loose parts and 32 query parts",
            vec![
                asked(b"*?*?*?*?*?*?*?*?*?*?*?*?*?*?*?*a: 1", &dotted(32), b"", one()),
                asked(b"*?*?*?*?*?*?*?*?*?*?*?*?*?*?*?*b: 1", &dotted(32), b"", Ok(NOTHING)),
                asked(b"*a*a*a*a*a*a*a*a*a*a*a*a*a*a*a*b: 1", &dotted(32), &dotted(32), Ok(NOTHING)),
            ],
        ),
    ]
}

pub fn values() -> Vec<Named> {
    use Number::{Is, NotANumber};
    vec![
        ("boolean +5", value(b"a:+5", Some(true), Is(5))),
        ("boolean -0", value(b"a:-0", Some(false), Is(0))),
        ("boolean -", value(b"a:-", None, NotANumber)),
        ("boolean 9223372036854775808", value(b"a:9223372036854775808", None, NotANumber)),
        ("number -9223372036854775808", value(b"a:-9223372036854775808", Some(true), Is(i64::MIN))),
        ("number 9223372036854775807", value(b"a:9223372036854775807", Some(true), Is(i64::MAX))),
        (
            "none and an empty value",
            vec![asked(b"a:", b"a", b"", saying(b"", None, NotANumber)), asked(b"a:", b"b", b"", Ok(NOTHING))],
        ),
        ("a value that is no string", vec![asked(b"a:\xff", b"a", b"", Ok(Said { bytes: Some(b"\xff"), ..NOTHING }))]),
    ]
}

/// Proved examples, and the rankings that mislead.
pub fn rankings() -> Vec<Named> {
    let (one, two) = (|| digit(b"1"), || digit(b"2"));
    let included = Source::with(b"#include \"p\"\na:1", &[(b"p", b"a:2")]);
    vec![
        (
            "proved examples of queries",
            vec![
                asked(b"a:1", b"a..", b"", one()),
                asked(b"a:1", b".a", b"", Ok(NOTHING)),
                asked(b"a*b: 2\n*b: 1", b"a.b", b"", two()),
                asked(b"?.b: 1\n*b: 2", b"a.b", b"", one()),
                asked(b"a*b: 1\na*b: 2", b"a.b", b"", two()),
            ],
        ),
        (
            "an instance before a class",
            vec![asked(b"a:1\nA:2", b"a", b"A", one()), asked(b"b.A:2\nB.a:1", b"b.a", b"B.A", two())],
        ),
        ("rankings from the left", vec![asked(b"a*d:1\n?.?.?.d:2", b"a.b.c.d", b"", one())]),
        ("an alignment by the second a", vec![asked(b"*a.b:1", b"a.a.b", b"", one())]),
        ("the last of equals", vec![asked(b"*a:3\n*a:1\n*a:2", b"a", b"", two())]),
        ("an entry after an include", vec![Asked { source: included, query: Query::new(b"a", b""), expected: one() }]),
        ("a skipped line and its continuation", vec![asked(b"a\\\nb:1", b"b", b"", one())]),
    ]
}

pub fn names() -> Vec<&'static str> {
    named().iter().map(|(label, _)| *label).chain(tests().map(|(name, _)| name)).collect()
}

/// Runs a test on the lookups, or none if there is no such test.
pub fn test(name: &str, lookups: Lookups, room: &str) -> Option<Result<String, String>> {
    if let Some((_, test)) = tests().find(|(of, _)| *of == name) {
        return Some(test(lookups));
    }
    let (_, all) = named().into_iter().find(|(label, _)| *label == name)?;
    Some(as_expected(&all, lookups, room))
}

/// Every lookup says what is expected, and what the model and the Rust say.
pub fn as_expected(all: &[Asked], lookups: Lookups, room: &str) -> Result<String, String> {
    let mut inquiry = Inquiry::new(both::PORTS, lookups, room);
    let mut answers = Vec::new();
    for Asked { source, query, expected } in all {
        inquiry.ask(source, std::slice::from_ref(query))?;
        let words = inquiry.asking.call(&mut inquiry.run.both, query)?;
        let got = match words.refused() {
            Some(number) => Err(number),
            None => Ok(said(words, inquiry.run.both.image().1)?),
        };
        if got != *expected {
            return Err(format!("{}: {got:?}, and not {expected:?}", describe(source)));
        }
        answers.push(described(got));
    }
    let (rusts, all) = (inquiry.counts.beside_the_rust, answers.len());
    Ok(format!("{}, beside the model, {rusts} of {all} beside the Rust", answers.join("; ")))
}

fn described(answer: Result<Said, u8>) -> String {
    match answer {
        Err(number) => format!("refused {number}"),
        Ok(Said { bytes: None, .. }) => "none".to_string(),
        Ok(Said { bytes: Some(bytes), boolean, number, .. }) => {
            let boolean = boolean.map_or("no boolean".to_string(), |is| is.to_string());
            let number = match number {
                Number::Is(number) => number.to_string(),
                Number::NotANumber => "not a number".to_string(),
                Number::None => "none as a number".to_string(),
            };
            format!("\"{}\" is {boolean} and {number}", bytes.escape_ascii())
        }
    }
}

/// What faulty lookups are held to.
pub fn whole_comparison(lookups: Lookups, room: &str) -> Result<(), String> {
    names().into_iter().try_for_each(|name| test(name, lookups, room).expect("a test").map(drop))?;
    families(lookups, room)
}

/// The families that see the most, for faulty lookups.
pub fn families(lookups: Lookups, room: &str) -> Result<(), String> {
    let mut inquiry = Inquiry::new(both::PORTS, lookups, room);
    let family = |name: &str| FAMILIES.iter().find(|(of, _)| *of == name).expect("a family").1;
    ["limits", "query-words", "random"]
        .into_iter()
        .try_for_each(|name| family(name)(Extent { seed: 1, times: 1 }, &mut |source, queries| inquiry.ask(source, queries)))
}

/// The named cases with no model.
pub fn comparison_with_the_rust(lookups: Lookups, room: &str) -> Result<(), String> {
    let mut inquiry = Inquiry::new(both::PORTS, lookups, room);
    for (_, all) in named() {
        for Asked { source, query, .. } in all {
            inquiry.ask_by_the_rust(&source, &query)?;
        }
    }
    Ok(())
}

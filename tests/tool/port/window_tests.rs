//! Tests of the dictionary window's lookups by name (document 02 (vi)): its own bounds, and at these the cases and tests that the
//! shell's lookups have. What it admits must get the shell's words: `Asking` compares them.

use crate::asking::Lookups;
use crate::lookup_tests::{as_expected, asked, digit, families, rankings, values, Named, NOTHING};
use crate::query_tests::dotted;
use crate::{image_tests, query_tests};

const CASES: &str = "window: document 01's values and rankings";
const QUERIES: &str = "window: queries past the bounds";
const IMAGES: &str = "window: buffers that hold no image";

pub fn names() -> Vec<&'static str> {
    bounds().iter().map(|(label, _)| *label).chain([CASES, QUERIES, IMAGES]).collect()
}

/// A text, and dots behind it up to so many bytes.
fn up_to(bytes: usize, text: Vec<u8>) -> Vec<u8> {
    let dots = vec![b'.'; bytes - text.len()];
    [text, dots].concat()
}

/// Each bound, one less and one more, in the name and in the class.
fn bounds() -> Vec<Named> {
    let one = || digit(b"1");
    let [shorter, longest, longer] = [127, 128, 129].map(|bytes| vec![b'a'; bytes]);
    let named = |name: &[u8]| [name, b":1"].concat();
    vec![
        (
            "window: 7 and 8 parts",
            vec![
                asked(b"*a: 1", &dotted(7), b"", one()),
                asked(b"*a: 1", b"", &dotted(7), one()),
                asked(b"*a: 1", &dotted(8), b"", one()),
                asked(b"*a: 1", b"", &dotted(8), one()),
                asked(b"*a: 1", &dotted(8), &dotted(8), one()),
                asked(b"a.a.a.a.a.a.a.a: 1", &dotted(8), b"b", one()),
                asked(b"*?*?*?*?*?*?*?*a: 1", b"b", &dotted(8), one()),
                asked(b"*?*?*?*?*?*?*?*?*a: 1", &dotted(8), b"", Ok(NOTHING)),
            ],
        ),
        (
            "window: 9 parts",
            vec![
                asked(b"*a: 1", &dotted(9), b"", Err(10)),
                asked(b"*a: 1", b"a", &dotted(9), Err(10)),
                asked(b"*a: 1", &dotted(9), &dotted(9), Err(10)),
                asked(b"*a: 1", &dotted(32), b"", Err(10)),
                asked(b"*a: 1", &dotted(9), b".a", Ok(NOTHING)),
                asked(b"*a: 1", b"a?", &dotted(9), Ok(NOTHING)),
            ],
        ),
        (
            "window: 127, 128 and 129 bytes",
            vec![
                asked(&named(&shorter), &shorter, b"", one()),
                asked(&named(&longest), &longest, b"", one()),
                asked(&named(&longest), b"b", &longest, one()),
                asked(&named(&longer), &longer, b"", Err(9)),
                asked(&named(&longer), b"b", &longer, Err(9)),
                asked(b"*a: 1", b"a", &longer, Err(9)),
                asked(b"*a: 1", b".", &longer, Err(9)),
                asked(b"*a: 1", &[b'.'; 129], b"a", Err(9)),
                asked(b"*a: 1", &[b'.'; 128], b"a", Ok(NOTHING)),
            ],
        ),
        (
            "window: 8 parts in 128 bytes",
            vec![
                asked(b"*a: 1", &up_to(128, dotted(8)), &up_to(128, dotted(8)), one()),
                asked(b"*a: 1", &up_to(129, dotted(8)), b"", Err(9)),
                asked(b"*a: 1", &up_to(128, dotted(9)), b"", Err(10)),
                asked(b"*a: 1", b"a", &up_to(129, dotted(9)), Err(9)),
            ],
        ),
    ]
}

/// Runs a test on the lookups, or none if there is no such test.
pub fn test(name: &str, lookups: Lookups, room: &str) -> Option<Result<String, String>> {
    let each = |tests: &[(&str, crate::lookup_tests::Test)]| {
        tests.iter().try_for_each(|(of, test)| test(lookups).map(drop).map_err(|why| format!("{of}: {why}")))?;
        Ok(format!("{} tests of the shell's, at the window's bounds", tests.len()))
    };
    match name {
        CASES => {
            let all: Vec<_> = values().into_iter().chain(rankings()).flat_map(|(_, all)| all).collect();
            Some(as_expected(&all, lookups, room))
        }
        QUERIES => Some(each(&query_tests::TESTS)),
        IMAGES => Some(each(&image_tests::TESTS)),
        _ => bounds().into_iter().find(|(label, _)| *label == name).map(|(_, all)| as_expected(&all, lookups, room)),
    }
}

/// What faulty lookups are held to.
pub fn whole_comparison(lookups: Lookups, room: &str) -> Result<(), String> {
    names().into_iter().try_for_each(|name| test(name, lookups, room).expect("a test").map(drop))?;
    families(lookups, room)
}

//! Lookups by what they take beside an image: queries past their limits, queries that stand in the image
//! itself, and the lent number.

use crate::asking::{place_word, shown, Asking, Lookups, Words};
use crate::both::{self, Both, SHAPES};
use crate::fenced::zero_bytes;
use crate::image_tests::image_of;
use crate::lookup_tests::Test;
use model::lookup::Bounds;
use records::{Query, Source};

pub const TESTS: [(&str, Test); 4] = [
    ("a lent number is written with 0 alone", lent_number),
    ("query lengths", query_lengths),
    ("order of lookup refusals", order_of_refusals),
    ("query within the bodies", query_within_the_bodies),
];

/// So many parts `a`.
pub fn dotted(parts: usize) -> Vec<u8> {
    vec![b"a".to_vec(); parts].join(&b'.')
}

/// A number is written, and nothing for what is not a number, none, or a refusal.
fn lent_number(lookups: Lookups) -> Result<String, String> {
    let (contents, bodies) = image_of(b"a:-7\nb:x\nc:\xff\nd:");
    let long = vec![b'a'; lookups.bounds.bytes + 1];
    let wide = dotted(lookups.bounds.parts + 1);
    let cases: [(&[u16], &[u8], u64, Option<i64>); 8] = [
        (&contents, b"a", 0, Some(-7)),
        (&contents, b"b", 65_534, None),
        (&contents, b"c", 65_535, None),
        (&contents, b"d", 65_534, None),
        (&contents, b"e", 65_535, None),
        (&contents[1..], b"a", 8, None),
        (&contents, &long, 9, None),
        (&contents, &wide, 10, None),
    ];
    let before = [0, 1, -7, 65_535, i64::MIN, i64::MAX];
    for (contents, name, word, number) in cases {
        for lent in before {
            let mut out = lent;
            let got = (lookups.get_value)(contents, &bodies, name, b"", &mut out);
            if (got, out) != (word, number.unwrap_or(lent)) {
                return Err(format!("\"{}\" gives {got} and {out} where {lent} was lent", name.escape_ascii()));
            }
        }
    }
    Ok(format!("{} lookups", cases.len() * before.len()))
}

/// Names and classes around the bound and far past it, up to lengths of over 32 bits.
fn query_lengths(lookups: Lookups) -> Result<String, String> {
    let mut both = Both::new(both::PORTS);
    let mut asking = Asking::new(lookups);
    let most = lookups.bounds.bytes;
    let text = [vec![b'a'; most], b":1".to_vec()].concat();
    let mut count = 0;
    for shape in SHAPES {
        both.compare_in(&Source::plain(&text), shape)?.map_err(|number| format!("the text is refused by {number}"))?;
        for length in (most - 6..=most + 6).chain([2_048, 4_095, 4_096, 4_097, 65_535, 65_536, 65_537, 66_560, 200_000]) {
            let dots = [b"a".to_vec(), vec![b'.'; length - 1]].concat();
            for long in [vec![b'a'; length], dots, vec![b'.'; length], vec![0; length]] {
                for query in [Query::new(&long, b""), Query::new(b"a", &long), Query::new(&long, &long)] {
                    let words = asking.compare(&mut both, &query)?;
                    if (words.refused() == Some(9)) != (length > most) {
                        return Err(format!("{length} bytes: {}", shown(words)));
                    }
                    count += 1;
                }
            }
        }
    }
    let Some(zeroes) = zero_bytes((1 << 32) + 2_000) else { return Ok(format!("{count} queries of up to 18 bits")) };
    let (contents, bodies) = both.image();
    for more in [0, 1, most - 1, most, most + 1, 2_000] {
        let long = &zeroes[..(1 << 32) + more];
        for (name, class) in [(long, b"a".as_slice()), (b"a", long)] {
            let mut out = 5;
            let words = Words {
                bytes: (lookups.get_bytes)(contents, bodies, name, class),
                string: (lookups.get_string)(contents, bodies, name, class),
                boolean: (lookups.get_bool)(contents, bodies, name, class),
                value: (lookups.get_value)(contents, bodies, name, class, &mut out),
                out,
                show: None,
            };
            if words != (Words { bytes: 9, string: 9, boolean: 9, value: 9, out: 5, show: None }) {
                return Err(format!("{} bytes: {}", long.len(), shown(words)));
            }
            count += 1;
        }
    }
    Ok(format!("{count} queries of up to 33 bits"))
}

/// A name or a class, and what is wrong with it.
struct QueryText {
    bytes: Vec<u8>,
    long: bool,
    malformed: bool,
    wide: bool,
}

fn query_texts(Bounds { bytes, parts }: Bounds) -> Vec<QueryText> {
    let text = |bytes: &[u8], long, malformed, wide| QueryText { bytes: bytes.to_vec(), long, malformed, wide };
    let dotted_and = |parts, end: &[u8]| [dotted(parts), end.to_vec()].concat();
    vec![
        text(b"a", false, false, false),
        text(b"", false, false, false),
        text(&dotted(parts), false, false, false),
        text(&dotted_and(parts, b"...."), false, false, false),
        text(&dotted(parts + 1), false, false, true),
        text(&dotted_and(bytes / 2, b"."), false, false, true),
        text(b".a", false, true, false),
        text(b"a?", false, true, false),
        text(b"\xff", false, true, false),
        text(&dotted_and(parts + 1, b" "), false, true, true),
        text(&dotted_and(bytes / 2 - 1, b"*."), false, true, true),
        text(&vec![b'a'; bytes + 1], true, false, false),
        text(&vec![b'.'; bytes + 1], true, true, false),
        text(&dotted(bytes / 2 + 1), true, false, true),
        text(&dotted_and(bytes / 2 + 1, b"*"), true, true, true),
    ]
}

/// 8, then 9, then malformed, then 10, for every pair of a name and a class.
fn order_of_refusals(lookups: Lookups) -> Result<String, String> {
    let (mut both, mut asking) = (Both::new(both::PORTS), Asking::new(lookups));
    let (contents, bodies) = image_of(b"*a:1");
    let texts = query_texts(lookups.bounds);
    let pairs = || texts.iter().flat_map(|name| texts.iter().map(move |class| (name, class)));
    for bad in [false, true] {
        for (number, (name, class)) in pairs().enumerate() {
            let contents = if bad { &contents[1..] } else { &contents[..] };
            both.put_image(contents, &bodies, number % 2 == 0);
            let words = asking.compare(&mut both, &Query::new(&name.bytes, &class.bytes))?;
            let met = [
                (bad, Some(8)),
                (name.long || class.long, Some(9)),
                (name.malformed || class.malformed, None),
                (name.wide || class.wide, Some(10)),
            ];
            let expected = met.into_iter().find(|(is, _)| *is).and_then(|(_, number)| number);
            if words.refused() != expected {
                let query = format!("\"{}\" and \"{}\"", name.bytes.escape_ascii(), class.bytes.escape_ascii());
                return Err(format!("{query}, bad {bad}: {}, and not {expected:?}", shown(words)));
            }
        }
    }
    Ok(format!("{} lookups", 2 * pairs().count()))
}

/// All slices are lent for reading, so a query may stand in the bodies.
fn query_within_the_bodies(lookups: Lookups) -> Result<String, String> {
    let (contents, bodies) = image_of(b"a:1\n*b.c:22\n?.a:c\nb:b.c");
    let used = usize::from(contents[1]);
    let places: Vec<&[u8]> =
        (0..used).flat_map(|start| (start..=used).map(move |end| (start, end))).map(|(start, end)| &bodies[start..end]).collect();
    let mut found = 0;
    for name in &places {
        for class in &places {
            let word = (lookups.get_bytes)(&contents, &bodies, name, class);
            let models = place_word(lookups.bounds.get_bytes(&contents, &bodies, name, class));
            if word != models {
                return Err(format!(
                    "\"{}\" and \"{}\": {word:#x}, and not {models:#x}",
                    name.escape_ascii(),
                    class.escape_ascii()
                ));
            }
            found += usize::from(word & 0xFFFF == 0);
        }
    }
    Ok(format!("{} lookups, of which {found} found a value", places.len() * places.len()))
}

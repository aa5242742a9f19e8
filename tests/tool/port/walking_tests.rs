//! Tests of walks and additions by name: document 02 (v)'s sentences, states and lengths, what is refused and in which order, and
//! what an addition leaves.

use crate::fenced::zero_bytes;
use crate::image_tests::image_of;
use crate::walking::{Added, Calls, Stepped, Walking};
use cases::images::Image;
use cases::readings::Extent;
use cases::walks::{at_limits, family, whole_walk, AtLimit, State, Turn};
use model::limits::{BODIES_BYTES, CONTENTS_WORDS, ENTRIES, QUERY_BYTES, QUERY_PARTS, ROW_WORDS, TEXT_BYTES};
use records::Query;

type Test = fn(Calls) -> Result<String, String>;

const TESTS: [(&str, Test); 10] = [
    ("walks list what aligns, lowest number first, each once", lists),
    ("a walk keeps the count from its start", keeps_its_count),
    ("a step from any state", any_state),
    ("a malformed query lists nothing", malformed),
    ("walks are refused as lookups are", refusals_of_walks),
    ("an added line shows in a walk begun after it", under_way),
    ("additions at the limits", limits),
    ("what an addition writes", writes),
    ("texts of an addition", texts),
    ("walks and additions in what is no image", no_images),
];

pub fn names() -> impl Iterator<Item = &'static str> {
    TESTS.iter().map(|(name, _)| *name)
}

/// Runs a test on the calls, or none if there is no such test.
pub fn test(name: &str, calls: Calls) -> Option<Result<String, String>> {
    TESTS.iter().find(|(of, _)| *of == name).map(|(_, test)| test(calls))
}

fn same<T: PartialEq + std::fmt::Debug>(what: &str, got: T, expected: T) -> Result<(), String> {
    if got == expected {
        return Ok(());
    }
    Err(format!("{what}: {got:?}, and not {expected:?}"))
}

fn name(name: &[u8]) -> Query {
    Query::new(name, b"")
}

fn image(text: &[u8]) -> Image {
    let (contents, bodies) = image_of(text);
    Image { contents, bodies }
}

/// Six entries, of which 0, 1, 3 and 4 align with the name `a.b`.
const SIX: &[u8] = b"a.b:0\n*b:1\nc:2\na*b:3\n?.b:4\nb.a:5";

/// What a walk lists, with these texts added, each before the step of its place.
fn walked(walking: &mut Walking, query: &Query, additions: &[(usize, &[u8])]) -> Result<Vec<usize>, String> {
    let mut state = walking.start(query)?.map_err(|number| format!("a start is refused by {number}"))?;
    let mut listed = Vec::new();
    for step in 0..=ENTRIES {
        for (_, text) in additions.iter().filter(|(place, _)| *place == step) {
            walking.add(text)?.map_err(|number| format!("an addition is refused by {number}"))?;
        }
        let (answer, left) = walking.step(query, state)?;
        state = left;
        match answer {
            Ok(Some(number)) => listed.push(number),
            Ok(None) => {
                same("the end, and again", walking.step(query, state)?, (Ok(None), state))?;
                return Ok(listed);
            }
            Err(number) => return Err(format!("a step is refused by {number}")),
        }
    }
    Err(format!("no end: {listed:?}"))
}

fn lists(calls: Calls) -> Result<String, String> {
    let mut walking = Walking::new(calls);
    let cases: [(&[u8], &[u8], &[usize]); 9] = [
        (b"a.b", b"", &[0, 1, 3, 4]),
        (b"b.a", b"", &[5]),
        (b"c", b"", &[2]),
        (b"x.b", b"", &[1, 4]),
        (b"", b"a.b", &[0, 1, 3, 4]),
        (b"x.x", b"a.b", &[0, 1, 3, 4]),
        (b"a.c.b", b"", &[1, 3]),
        (b"d", b"", &[]),
        (b"", b"", &[]),
    ];
    for (instance, class, expected) in cases {
        for _ in 0..6 {
            walking.lend(&image(SIX));
            same("listed", &walked(&mut walking, &Query::new(instance, class), &[])?[..], expected)?;
        }
    }
    let full = Image::of(&vec![(b".a".to_vec(), Vec::new()); ENTRIES]);
    walking.lend(&full);
    same("512 entries", walked(&mut walking, &name(b"a"), &[])?, (0..ENTRIES).collect())?;
    walking.lend(&Image::of(&[]));
    same("no entries", walked(&mut walking, &name(b"a"), &[])?, Vec::new())?;
    Ok(format!("{} queries", cases.len() + 2))
}

/// The state is what `start` gives and then moves by `step` alone: its next number is 0 at first, and the count stays.
fn keeps_its_count(calls: Calls) -> Result<String, String> {
    let mut walking = Walking::new(calls);
    for (text, count) in [(SIX, 6), (b"a:".as_slice(), 1), (b"", 0)] {
        walking.lend(&image(text));
        same("a start", walking.start(&name(b"a.b"))?, Ok(State { next: 0, count }))?;
    }
    walking.lend(&image(SIX));
    let state = State { next: 0, count: 6 };
    let moves: [(State, Stepped, u16); 4] = [
        (state, Ok(Some(0)), 1),
        (State { next: 1, ..state }, Ok(Some(1)), 2),
        (State { next: 2, ..state }, Ok(Some(3)), 4),
        (State { next: 5, ..state }, Ok(None), 5),
    ];
    for (from, answer, next) in moves {
        same("a step", walking.step(&name(b"a.b"), from)?, (answer, State { next, ..from }))?;
    }
    Ok("3 starts, 4 steps".to_string())
}

/// The least number that aligns, not below the next and below both counts; else the end, and the state stays.
fn any_state(calls: Calls) -> Result<String, String> {
    let mut walking = Walking::new(calls);
    walking.lend(&image(SIX));
    let aligned = [0, 1, 3, 4];
    let numbers = (0..=8).chain([255, 256, 511, 512, 513, 32_767, 32_768, u16::MAX - 1, u16::MAX]);
    let mut count_of = 0;
    for next in numbers.clone() {
        for count in numbers.clone() {
            let least = aligned.into_iter().find(|number| *number >= next && *number < count);
            let expected = (Ok(least.map(usize::from)), State { next: least.map_or(next, |number| number + 1), count });
            same(&format!("from {next}, {count}"), walking.step(&name(b"a.b"), State { next, count })?, expected)?;
            count_of += 1;
        }
    }
    // Rows that stand behind those of the image are no entries of it.
    let mut fewer = image(SIX);
    (fewer.contents[0], fewer.contents[1]) = (2, fewer.contents[2 + ROW_WORDS * 2]);
    let (contents, bodies) = (fewer.contents.clone(), fewer.bodies.clone());
    for next in 0..=6 {
        walking.lend_slices(&contents, &bodies);
        let expected = if next < 2 { Ok(Some(usize::from(next))) } else { Ok(None) };
        same("rows left over", walking.step(&name(b"a.b"), State { next, count: 6 })?.0, expected)?;
    }
    Ok(format!("{count_of} states"))
}

fn malformed(calls: Calls) -> Result<String, String> {
    let mut walking = Walking::new(calls);
    let all = [(".a.b", ""), ("a.b", ".a"), ("a*b", ""), ("a b", ""), ("a.b", "\u{e9}"), ("?", "")];
    for (instance, class) in all {
        walking.lend(&image(SIX));
        let query = Query::new(instance.as_bytes(), class.as_bytes());
        same("a start", walking.start(&query)?, Ok(State { next: 0, count: 6 }))?;
        for (next, count) in [(0, 6), (3, 6), (0, u16::MAX), (9, 9)] {
            let state = State { next, count };
            same("a step", walking.step(&query, state)?, (Ok(None), state))?;
        }
    }
    Ok(format!("{} queries", all.len()))
}

/// 8, 9, malformed, 10: what is refused leaves the state.
fn refusals_of_walks(calls: Calls) -> Result<String, String> {
    let mut walking = Walking::new(calls);
    let parts = |count: usize| vec![b"a".as_slice(); count].join(&b'.');
    let long = vec![b'a'; QUERY_BYTES + 1];
    let cases = [
        (vec![b'a'; QUERY_BYTES], Vec::new(), None),
        (long.clone(), Vec::new(), Some(9)),
        (b"a".to_vec(), long.clone(), Some(9)),
        (b".a".to_vec(), long.clone(), Some(9)),
        (parts(QUERY_PARTS), parts(QUERY_PARTS), None),
        (parts(QUERY_PARTS + 1), Vec::new(), Some(10)),
        (b"a".to_vec(), parts(QUERY_PARTS + 1), Some(10)),
        (b".a".to_vec(), parts(QUERY_PARTS + 1), None),
        (parts(QUERY_PARTS + 1), long, Some(9)),
    ];
    let state = State { next: 2, count: 6 };
    for (instance, class, refused) in &cases {
        walking.lend(&image(SIX));
        let query = Query::new(instance, class);
        same("a start", walking.start(&query)?.err(), *refused)?;
        same("a step", walking.step(&query, state)?, (refused.map_or(Ok(None), Err), state))?;
        let mut none = image(SIX);
        none.contents[0] = 513;
        walking.lend(&none);
        same("a start in no image", walking.start(&query)?, Err(8))?;
        same("a step in no image", walking.step(&query, state)?, (Err(8), state))?;
    }
    Ok(format!("{} queries", cases.len()))
}

fn under_way(calls: Calls) -> Result<String, String> {
    let mut walking = Walking::new(calls);
    let query = name(b"a.b");
    let added: &[u8] = b"a.b:added";
    for place in 0..=4 {
        walking.lend(&image(SIX));
        same("a walk under way", walked(&mut walking, &query, &[(place, added), (place, b"c:none")])?, vec![0, 1, 3, 4])?;
        same("the next walk", walked(&mut walking, &query, &[(2, b"*b:more")])?, vec![0, 1, 3, 4, 6])?;
        same("and the next", walked(&mut walking, &query, &[])?, vec![0, 1, 3, 4, 6, 8])?;
    }
    let nearly = Image::of(&vec![(b".a".to_vec(), Vec::new()); ENTRIES - 1]);
    walking.lend(&nearly);
    same("511 entries", walked(&mut walking, &name(b"a"), &[(7, b"a:")])?, (0..ENTRIES - 1).collect())?;
    same("512 entries", walked(&mut walking, &name(b"a"), &[])?, (0..ENTRIES).collect())?;
    Ok("17 walks".to_string())
}

/// Each limit, and the order of what refuses: at both fences, with zeroes and with garbage behind the image.
fn limits(calls: Calls) -> Result<String, String> {
    let mut walking = Walking::new(calls);
    let limits = at_limits();
    for AtLimit { label, image, text, expected } in &limits {
        for _ in 0..6 {
            walking.lend(image);
            let answer = walking.add(text).map_err(|why| format!("{label}: {why}"))?;
            same(label, answer, *expected)?;
        }
    }
    if let Some(zeroes) = zero_bytes(1 << 33) {
        walking.lend(&image(SIX));
        same("a text of 8 GB", walking.add(zeroes)?, Err(2))?;
    }
    Ok(format!("{} additions", limits.len()))
}

/// A row, its bytes and the first two words, and nothing else: told by hand, with garbage all around.
fn writes(calls: Calls) -> Result<String, String> {
    let mut walking = Walking::new(calls);
    let (mut contents, mut bodies) = (vec![0xA5C3; CONTENTS_WORDS + 3], vec![0x5A; BODIES_BYTES + 3]);
    contents[..6].copy_from_slice(&[1, 3, 0, 2, 1, 0]);
    bodies[..3].copy_from_slice(b".a1");
    for _ in 0..4 {
        walking.lend_slices(&contents, &bodies);
        same("the number", walking.add(b"! more\n*b..c : y\\nz\n")?, Ok(1))?;
        let (mut words, mut bytes) = (contents.clone(), bodies.clone());
        words[..10].copy_from_slice(&[2, 10, 0, 2, 1, 0, 3, 4, 3, 65_535]);
        bytes[3..10].copy_from_slice(b"*b.cy\nz");
        same("what is left", walking.both.image() == (&words[..], &bytes[..]), true)?;
        for (text, refused) in [(b"".as_slice(), 12), (b"a:\nb:", 12), (b"a.a.a.a.a.a.a.a.a.a.a.a.a.a.a.a.a:", 5)] {
            same("a refusal", walking.add(text)?, Err(refused))?;
            same("what it leaves", walking.both.image() == (&words[..], &bytes[..]), true)?;
        }
        same("an empty value", walking.add(b"?d:")?, Ok(2))?;
        (words[0], words[1]) = (3, 14);
        words[10..14].copy_from_slice(&[10, 4, 0, 65_535]);
        bytes[10..14].copy_from_slice(b".?.d");
        same("what is left", walking.both.image() == (&words[..], &bytes[..]), true)?;
    }
    Ok("8 entries added by hand".to_string())
}

/// What makes one entry, and what makes none or more.
fn texts(calls: Calls) -> Result<String, String> {
    let mut walking = Walking::new(calls);
    let cases: [(&[u8], Added); 22] = [
        (b"a:", Ok(6)),
        (b"\n\n a:\na:1\n\n", Ok(6)),
        (b"! b:\na:1", Ok(6)),
        (b"a:1\n! b:", Ok(6)),
        (b"#include \"p\"\na:1\n#include \"./p\"", Ok(6)),
        (b"#include\na:1\n# b:", Ok(6)),
        (b"a.?:none\na:1\nb.:none", Ok(6)),
        (b"a:1\\\nb:2", Ok(6)),
        (b"a:\\\n\\\n1", Ok(6)),
        (b"no resource\\\na:1", Ok(6)),
        (b"", Err(12)),
        (b"\n", Err(12)),
        (b"!a:1", Err(12)),
        (b"#a:1", Err(12)),
        (b"#include \"a\"", Err(12)),
        (b" a:1", Err(12)),
        (b"a\t:1", Err(12)),
        (b"a:1\nb:2", Err(12)),
        (b"a:\na:", Err(12)),
        (b"a:1\n!\n\nno resource\nb:2\n", Err(12)),
        (b"a:1\\n\nb:2", Err(12)),
        (b"a:1\r\nb:2", Err(12)),
    ];
    for (text, expected) in cases {
        walking.lend(&image(SIX));
        same(&format!("\"{}\"", text.escape_ascii()), walking.add(text)?, expected)?;
    }
    for length in [TEXT_BYTES - 1, TEXT_BYTES, TEXT_BYTES + 1, TEXT_BYTES + 2] {
        walking.lend(&image(SIX));
        let text = [&vec![b'\n'; length - 3][..], b"a:1"].concat();
        same("the length of a text", walking.add(&text)?, if length > TEXT_BYTES { Err(2) } else { Ok(6) })?;
    }
    Ok(format!("{} texts", cases.len() + 4))
}

/// 8 comes first.
fn no_images(calls: Calls) -> Result<String, String> {
    let mut walking = Walking::new(calls);
    let (contents, bodies) = image_of(b"a:1\n*b.c:22");
    let short =
        [(0, 0), (1, BODIES_BYTES), (CONTENTS_WORDS - 1, BODIES_BYTES), (CONTENTS_WORDS, BODIES_BYTES - 1), (CONTENTS_WORDS, 0)];
    let mut bad: Vec<(Vec<u16>, Vec<u8>)> =
        short.iter().map(|(words, bytes)| (contents[..*words].to_vec(), bodies[..*bytes].to_vec())).collect();
    for (at, more) in [(0, 1), (0, 513), (1, 1), (1, u16::MAX), (2, 1), (3, 1), (4, 1), (5, 65), (5, 65_534), (6, 1), (7, 1)] {
        let mut changed = contents.clone();
        changed[at] = changed[at].wrapping_add(more);
        bad.push((changed, bodies.clone()));
    }
    for (at, byte) in [(0, b'a'), (1, b'?'), (1, b':'), (3, b'+'), (6, b'.')] {
        let mut changed = bodies.clone();
        changed[at] = byte;
        bad.push((contents.clone(), changed));
    }
    let long = vec![b'\n'; TEXT_BYTES + 1];
    for (contents, bodies) in &bad {
        walking.lend_slices(contents, bodies);
        for query in [name(b"a"), name(b".a"), name(&[b'a'; QUERY_BYTES + 1])] {
            same("a start", walking.start(&query)?, Err(8))?;
            same("a step", walking.step(&query, State { next: 0, count: 2 })?.0, Err(8))?;
        }
        for text in [b"a:1".as_slice(), b"", &long] {
            same("an addition", walking.add(text)?, Err(8))?;
        }
    }
    Ok(format!("{} that are none refused by 8", bad.len()))
}

/// What faulty calls are held to.
pub fn whole_comparison(calls: Calls) -> Result<(), String> {
    names().try_for_each(|name| test(name, calls).expect("a test").map(drop))?;
    let mut walking = Walking::new(calls);
    ["left-over", "limits", "random", "damaged"].into_iter().try_for_each(|name| {
        let family = family(name).ok_or("no such family")?;
        family(Extent { seed: 1, times: 1 }, &mut |image, turns| walking.see(image, turns))
    })
}

/// Walks and additions held to the Rust alone, with no model.
pub fn comparison_with_the_rust(calls: Calls) -> Result<(), String> {
    let mut walking = Walking::by_the_rust(calls);
    let six = image(SIX);
    for query in [name(b"a.b"), name(b"x.b"), Query::new(b"", b"b.a")] {
        walking.see(&six, &whole_walk(&query, &six))?;
        let wide = b"a.a.a.a.a.a.a.a.a.a.a.a.a.a.a.a.a:".to_vec();
        let both = [&wide[..], b"\nb:"].concat();
        let texts: [&[u8]; 6] = [b"a.b:\\101", b"! b\nb.a:2\n", b"a.b:\nb:", b"", &wide, &both];
        let turns: Vec<Turn> = texts
            .iter()
            .flat_map(|text| [Turn::Step, Turn::Add(text.to_vec())])
            .chain(std::iter::repeat_n(Turn::Step, 4))
            .collect();
        walking.see(&six, &[&[Turn::Start(query)][..], &turns].concat())?;
    }
    Ok(())
}

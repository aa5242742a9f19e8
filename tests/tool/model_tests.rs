//! Tests of the model by itself: document 01's examples and limits, those of the start-up chain, of names with dots, of
//! writing out, of walks and additions, and of the dictionary window, written out by hand.
//!
//!     model_tests NAME    runs one test
//!     model_tests list    lists the tests

use cases::archives;
use cases::chains::{every_combination, Combination};
use cases::dotted;
use cases::draw::Draw;
use cases::images::{self, Image};
use cases::limits::{edges, Edge};
use cases::named_chains::{at_limits, named};
use cases::readings::Extent;
use cases::walks;
use cases::words::{keys, queries};
use model::archive::{judge, lay_out, strike, File};
use model::image::{self, Accepted};
use model::limits::{
    Refusal, BOARD_BYTES, BOARD_WORDS, BODIES_BYTES, CONTENTS_WORDS, DEFAULT_DEPTH, GREATEST_DEPTH, OLD_CONTENTS_WORDS, ROW_WORDS,
    TEXT_BYTES,
};
use model::line::{read_key, write_key, Part};
use model::lookup::{get_bool, get_bytes, get_value, show, Bounds, Number, SHELL, WINDOW};
use model::matching::{all_rows, beats_the_rest, highest_row, positions, winner};
use model::paths::{follow, target, Outside};
use model::query::split;
use model::reading;
use model::startup::StartUp;
use model::walking::{self, Walk};
use model::{adding, board, writing};
use records::Source;
use std::collections::{BTreeMap, BTreeSet};
use std::process::ExitCode;

type Test = fn() -> Result<String, String>;

const TESTS: [(&str, Test); 24] = [
    ("examples", examples),
    ("booleans", booleans),
    ("limits", limits),
    ("dotted-names", dotted_names),
    ("admitted-names", admitted_names),
    ("slips", dotted::each_slip_shows),
    ("start-ups", start_ups),
    ("chain-limits", chain_limits),
    ("depths", depths),
    ("combinations", combinations),
    ("short-buffers", short_buffers),
    ("lookup-order", lookup_order),
    ("window", window),
    ("bad-images", bad_images),
    ("rows", rows),
    ("striking-off", striking_off),
    ("written-texts", written_texts),
    ("read-again", read_again),
    ("walks", walks_listed),
    ("additions", additions),
    ("walks-with-additions", walks_with_additions),
    ("origins", origins),
    ("migrations", migrations),
    ("boards", boards),
];

fn main() -> ExitCode {
    let word = std::env::args().nth(1).unwrap_or_default();
    if word == "list" {
        TESTS.iter().for_each(|(name, _)| println!("{name}"));
        return ExitCode::SUCCESS;
    }
    let result = match TESTS.iter().find(|(name, _)| *name == word) {
        Some((_, test)) => test(),
        None => Err(format!("no such test: {word}")),
    };
    match result {
        Ok(report) => println!("{report}"),
        Err(why) => {
            eprintln!("{why}");
            return ExitCode::FAILURE;
        }
    }
    ExitCode::SUCCESS
}

fn same<T: PartialEq + std::fmt::Debug>(what: &str, got: T, expected: T) -> Result<(), String> {
    if got == expected {
        Ok(())
    } else {
        Err(format!("{what}: {got:?}, and not {expected:?}"))
    }
}

/// Lent buffers, longer than needed and filled with something.
struct Lent {
    contents: Vec<u16>,
    bodies: Vec<u8>,
}

const SPARE: usize = 7;
const WORD: u16 = 0xA5C3;
const BYTE: u8 = 0x5A;

impl Lent {
    fn new() -> Self {
        Self::of(CONTENTS_WORDS + SPARE, BODIES_BYTES + SPARE)
    }

    fn of(words: usize, bytes: usize) -> Self {
        Self { contents: vec![WORD; words], bodies: vec![BYTE; bytes] }
    }

    fn read(&mut self, source: &Source) -> Result<Accepted, u8> {
        image::read(&mut self.contents, &mut self.bodies, &source.texts(), &source.archive, source.depth)
            .map_err(|refusal| refusal.number())
    }

    fn is_untouched(&self) -> bool {
        self.contents.iter().all(|&w| w == WORD) && self.bodies.iter().all(|&b| b == BYTE)
    }

    fn is_untouched_past_the_image(&self) -> bool {
        self.contents[CONTENTS_WORDS..].iter().all(|&w| w == WORD) && self.bodies[BODIES_BYTES..].iter().all(|&b| b == BYTE)
    }

    /// Whether the words and bytes after the entries, up to the image's end, are zero.
    fn is_zero_after(&self, entries: usize) -> bool {
        let used = self.contents[1] as usize;
        self.contents[2 + ROW_WORDS * entries..CONTENTS_WORDS].iter().all(|&w| w == 0)
            && self.bodies[used..BODIES_BYTES].iter().all(|&b| b == 0)
    }
}

fn image_of(text: &[u8]) -> Lent {
    let mut lent = Lent::new();
    lent.read(&Source::plain(text)).expect("a text within limits");
    lent
}

/// The value found by bytes, or none.
fn found<'a>(lent: &'a Lent, name: &[u8], class: &[u8]) -> Option<&'a [u8]> {
    let place = get_bytes(&lent.contents, &lent.bodies, name, class).expect("a query within limits");
    place.map(|place| place.of(&lent.bodies))
}

/// Document 01's proved examples, its archive and its list.
fn examples() -> Result<String, String> {
    type Entries<'a> = &'a [(&'a str, &'a [u8])];
    let lines: [(&[u8], Entries); 9] = [
        (b"a..*b:x", &[(".a*b", b"x")]),
        (b"foo?bar: x", &[(".foo.?.bar", b"x")]),
        (b"a.?: x", &[]),
        (b"a.: x", &[]),
        (b" a: x", &[]),
        (b"a:\\101\\400", &[(".a", b"\x41\x00")]),
        (b"a:\\12", &[(".a", b"")]),
        (b"a:\\12z", &[(".a", b"\x5C\x31\x32\x7A")]),
        (b"a.b: x\n*c: yes\n", &[(".a.b", b"x"), ("*c", b"yes")]),
    ];
    for (text, expected) in lines {
        let lent = image_of(text);
        let expected: Vec<_> = expected.iter().map(|(key, value)| (key.as_bytes().to_vec(), value.to_vec())).collect();
        same("entries", records::listed(&lent.contents, &lent.bodies), expected)?;
    }
    let parts = |text| split(text).map(|parts| parts.len());
    same("a..", parts(b"a.."), Some(1))?;
    same(".a", parts(b".a"), None)?;
    let lookups: [(&[u8], &[u8]); 6] = [
        (b"a*b: 2\n*b: 1", b"2"),
        (b"*b: 1\na*b: 2", b"2"),
        (b"?.b: 1\n*b: 2", b"1"),
        (b"*b: 2\n?.b: 1", b"1"),
        (b"a*b: 1\na*b: 2", b"2"),
        (b"*a.b: 1", b"1"),
    ];
    for (text, expected) in lookups {
        let name: &[u8] = if text == b"*a.b: 1" { b"a.a.b" } else { b"a.b" };
        same("lookup", found(&image_of(text), name, b""), Some(expected))?;
    }
    let archive = [0x01, 0x00, 0x01, 0x00, 0x03, 0x00, 0x70, 0x62, 0x3A, 0x31];
    same("the archive of p", Source::with(b"", &[(b"p", b"b:1")]).archive, archive.to_vec())?;
    same("its only file struck off", strike(&archive, 0), vec![0, 0])?;
    Ok(format!("{} lines, {} lookups", lines.len(), lookups.len()))
}

fn booleans() -> Result<String, String> {
    use Number::{Is, NotANumber};
    let cases: [(&[u8], Option<bool>, Number); 16] = [
        (b"+5", Some(true), Is(5)),
        (b"-0", Some(false), Is(0)),
        (b"-", None, NotANumber),
        (b"+", None, NotANumber),
        (b"", None, NotANumber),
        (b"9223372036854775807", Some(true), Is(i64::MAX)),
        (b"9223372036854775808", None, NotANumber),
        (b"-9223372036854775808", Some(true), Is(i64::MIN)),
        (b"-9223372036854775809", None, NotANumber),
        (b"000000000000000000000000000000", Some(false), Is(0)),
        (b"True", Some(true), NotANumber),
        (b"ON", Some(true), NotANumber),
        (b"yes", Some(true), NotANumber),
        (b"fALSE", Some(false), NotANumber),
        (b"oFF", Some(false), NotANumber),
        (b"nO", Some(false), NotANumber),
    ];
    for (value, boolean, number) in cases {
        let lent = image_of(&[b"a:", value].concat());
        same("boolean", get_bool(&lent.contents, &lent.bodies, b"a", b"").ok(), Some(boolean))?;
        same("number", get_value(&lent.contents, &lent.bodies, b"a", b"").ok(), Some(number))?;
    }
    Ok(format!("{} values", cases.len()))
}

/// The sentences of document 02 (i): which texts are used, where each ends, and its folder.
fn start_ups() -> Result<String, String> {
    let cases = named();
    for case in &cases {
        let mut lent = Lent::new();
        same(case.label, lent.read(&case.source).map(|accepted| accepted.opens), Ok(case.opens))?;
        let expected = case.entries.iter().map(|(key, value)| (key.as_bytes().to_vec(), value.as_bytes().to_vec())).collect();
        same(case.label, records::listed(&lent.contents, &lent.bodies), expected)?;
    }
    Ok(format!("{} chains", cases.len()))
}

/// The combinations are all different, each is that of its start-ups, and one that is missing is told.
fn combinations() -> Result<String, String> {
    let all: BTreeSet<Combination> = (0..Combination::COUNT).map(Combination::nth).collect();
    same("combinations", all.len(), Combination::COUNT)?;
    every_combination(&all)?;
    for combination in &all {
        same("a start-up's", Combination::of(&combination.start_up(|| b"a:1".to_vec())), *combination)?;
        let mut others = all.clone();
        others.remove(combination);
        same("one that is missing", every_combination(&others).is_err(), true)?;
    }
    Ok(format!("{} combinations", all.len()))
}

fn limits() -> Result<String, String> {
    at(&edges())
}

fn chain_limits() -> Result<String, String> {
    at(&at_limits())
}

/// The sentences of document 02 (x): what a depth reads, with 15 for one over 100, after 3 and before 4 to 7, which changes nothing.
fn depths() -> Result<String, String> {
    let files: [(&[u8], &[u8]); 2] = [(b"p", b"#include \"q\"\np:"), (b"q", b"#include \"p\"\nq:")];
    let source = Source::with(b"#include \"p\"\nm:", &files);
    // The files include each other, and each has an entry behind its include.
    for depth in [0, 1, 2, 3, DEFAULT_DEPTH, 99, GREATEST_DEPTH] {
        let mut lent = Lent::new();
        let accepted = lent.read(&source.at(depth)).map(|accepted| (accepted.entries as u64, accepted.opens as u64));
        same("entries and opens", accepted, Ok((depth + 1, depth)))?;
        let keys: Vec<u8> = records::listed(&lent.contents, &lent.bodies).into_iter().map(|(key, _)| key[1]).collect();
        let expected: Vec<u8> = (0..=depth).rev().map(|at| if at == 0 { b'm' } else { b"qp"[(at % 2) as usize] }).collect();
        same("keys", keys, expected)?;
    }
    let wide = Source::plain(&[&b"a.".repeat(16)[..], b"a:"].concat());
    let bad = Source { archive: vec![], ..source.clone() };
    let long = Source::text(vec![b'\n'; TEXT_BYTES + 1], vec![]);
    for depth in [GREATEST_DEPTH + 1, 256, 1 << 32, u64::MAX] {
        for (source, number) in [(&source, 15), (&wide, 15), (&bad, 3), (&long, 2)] {
            let mut lent = Lent::new();
            same("a depth over 100", lent.read(&source.at(depth)), Err(number))?;
            same("buffers", lent.is_untouched(), true)?;
        }
        let short = image::read(&mut [], &mut [7; BODIES_BYTES], &long.texts(), &long.archive, depth);
        same("short buffers at a depth over 100", short.map_err(|refusal| refusal.number()).err(), Some(1))?;
    }
    // Striking off is at one depth for both readings.
    for depth in [0, 1, 2, 7] {
        let (mut first, mut second) = (Lent::new(), Lent::new());
        let opens = |accepted: Accepted| accepted.opens as u64;
        same("with q", first.read(&source.at(depth)).map(opens), Ok(depth))?;
        same("without q", second.read(&source.at(depth).struck(1)).map(opens), Ok(depth.min(1)))?;
    }
    Ok("7 depths, and 4 over 100".to_string())
}

/// The sentences of document 02 (iii): what a name looks for from a folder, and that the file of that name is the one that is
/// found, with that name on its chain of includes.
fn dotted_names() -> Result<String, String> {
    let paths = dotted::paths();
    for path in &paths {
        let label = format!("{}: {}", path.label, path.name[..path.name.len().min(100)].escape_ascii());
        same(&label, target(&path.folder, &path.name), path.target.clone())?;
        let source = path.source();
        let archive = judge(&source.archive).ok_or("no archive")?;
        let reading =
            reading::read(&source.texts(), &archive, source.depth).map_err(|refusal| format!("refused {}", refusal.number()))?;
        let found: Vec<&reading::Entry> = reading.entries.iter().filter(|entry| write_key(&entry.key) == b".p").collect();
        same(&label, found.iter().map(|entry| entry.value.clone()).collect(), Vec::from_iter(path.target.clone()))?;
        let last = found.first().and_then(|entry| entry.chain.last()).map(|name| name.to_vec());
        same(&label, last, path.target.clone())?;
    }
    at(&dotted::edges())?;
    Ok(format!("{} paths", paths.len()))
}

/// Which names with dots the run beside the Rust admits, and which folders it makes for them.
fn admitted_names() -> Result<String, String> {
    use Outside::{AboveTheRoot, EmptyPart, LongPart, LongPath, OddPart, ThroughAFile};
    let archive = judge(&Source::with(b"", &[(b"d/p", b""), (b"f", b"")]).archive).ok_or("no archive")?;
    let part = |length| [vec![b'x'; length], b"/../f".to_vec()].concat();
    let path = |length: usize| [b"./".repeat((length - 1) / 2), vec![b'f'; 2 - length % 2]].concat();
    let long = String::from_utf8(vec![b'x'; 255]).map_err(|error| error.to_string())?;
    let cases: Vec<(Vec<u8>, Result<Vec<&str>, Outside>)> = vec![
        (b"./f".to_vec(), Ok(vec![])),
        (b"d/../f".to_vec(), Ok(vec!["d"])),
        (b"x/y/../../f".to_vec(), Ok(vec!["x", "x/y"])),
        (b"x/../y/z/./../f".to_vec(), Ok(vec!["x", "y", "y/z"])),
        (b"./x/f".to_vec(), Ok(vec!["x"])),
        // A last part of dots, which names a folder, is admitted: nobody can read one.
        (b".".to_vec(), Ok(vec![])),
        (b"d/..".to_vec(), Ok(vec!["d"])),
        (b"x/.".to_vec(), Ok(vec!["x"])),
        (b".../../f".to_vec(), Ok(vec!["..."])),
        (part(255), Ok(vec![&long])),
        (part(256), Err(LongPart)),
        (path(4_000), Ok(vec![])),
        (path(4_001), Err(LongPath)),
        (b"../f".to_vec(), Err(AboveTheRoot)),
        (b"d/../../f".to_vec(), Err(AboveTheRoot)),
        (b"..".to_vec(), Err(AboveTheRoot)),
        (b"./d//f".to_vec(), Err(EmptyPart)),
        (b"d//p".to_vec(), Err(EmptyPart)),
        (b"/f".to_vec(), Err(EmptyPart)),
        (b"f/".to_vec(), Err(EmptyPart)),
        (b"f/../d/p".to_vec(), Err(ThroughAFile)),
        (b"d/p/x/../../f".to_vec(), Err(ThroughAFile)),
        (b"f/.".to_vec(), Err(ThroughAFile)),
        (b"a b/../f".to_vec(), Err(OddPart)),
        (b"./f\xff".to_vec(), Err(OddPart)),
        // As document 01 admits them, with no folder made: of any length, and through a file.
        (vec![b'x'; 300], Ok(vec![])),
        (b"x/".repeat(3_000)[..5_999].to_vec(), Ok(vec![])),
        (b"f/f".to_vec(), Ok(vec![])),
    ];
    for (name, expected) in &cases {
        let mut folders = BTreeSet::new();
        let outside = follow(b"", b"", name, &archive, &mut folders);
        let expected = expected.clone().map(|folders| folders.iter().map(|folder| folder.as_bytes().to_vec()).collect());
        same(&name[..name.len().min(100)].escape_ascii().to_string(), outside.map(|()| folders), expected)?;
    }
    the_way_counts()?;
    Ok(format!("{} names", cases.len()))
}

/// The Rust goes from a file on by the way that led it there, so that is what counts, along a chain of includes.
fn the_way_counts() -> Result<(), String> {
    let read = |text: &[u8], files: &[(&[u8], &[u8])]| {
        let source = Source::with(text, files);
        let archive = judge(&source.archive).expect("a good archive");
        reading::read(&source.texts(), &archive, source.depth).expect("a reading within limits")
    };
    let include = |name: &[u8]| [b"#include \"", name, b"\"\n"].concat();
    let way = |times: usize| [b"./".repeat(times), b"d/p".to_vec()].concat();
    let long = |times: usize| read(&include(&way(times)), &[(b"d/p", b"#include \"qq\""), (b"d/qq", b"a:1")]);
    same("a way of 4,000 bytes", (long(1_998).outside, long(1_998).opens), (None, 2))?;
    same("a way of 4,002 bytes", (long(1_999).outside, long(1_999).opens), (Some(Outside::LongPath), 2))?;
    let reading = read(b"#include \"x/../d/p\"", &[(b"d/p", b"#include \"e/../q\""), (b"d/q", b"")]);
    let folders: Vec<&[u8]> = reading.folders.iter().map(|folder| &folder[..]).collect();
    same("folders of a chain", folders, vec![&b"d"[..], b"d/e", b"x"])
}

/// Each case at a limit: what it gives, and what it leaves in the buffers.
fn at(edges: &[Edge]) -> Result<String, String> {
    for edge in edges {
        let mut lent = Lent::new();
        let got = lent.read(&edge.source);
        same(edge.label, got.map(|accepted| (accepted.entries, accepted.opens)), edge.expected)?;
        let good = match got {
            Err(1..=3) => lent.is_untouched(),
            Err(_) => lent.contents[..2] == [0, 0] && lent.is_zero_after(0) && lent.is_untouched_past_the_image(),
            Ok(accepted) => {
                let judged = image::judge(&lent.contents, &lent.bodies).is_some_and(|rows| rows.len() == accepted.entries);
                judged && lent.is_zero_after(accepted.entries) && lent.is_untouched_past_the_image()
            }
        };
        same(edge.label, good, true)?;
    }
    Ok(format!("{} cases", edges.len()))
}

/// Refusal 1 comes first, changes nothing, and is not given to buffers that are just long enough.
fn short_buffers() -> Result<String, String> {
    let chain = |host| Source::chain(StartUp { host: Some(host), ..StartUp::default() }, vec![0, 0]);
    let count = short_buffers_of(&Source::plain(b"a:1"), &Source::plain(&[b'\n'; 32_769]))?;
    short_buffers_of(&chain(b"a:1".to_vec()), &chain(vec![b'\n'; 32_769]))?;
    Ok(format!("{count} sizes, for a text and for a chain"))
}

fn short_buffers_of(text: &Source, long: &Source) -> Result<usize, String> {
    let sizes = [(0, 0, Err(1)), (2049, 32_768, Err(1)), (2050, 32_767, Err(1)), (0, 40_000, Err(1)), (2050, 32_768, Ok(1))];
    for (words, bytes, expected) in sizes {
        let mut lent = Lent::of(words, bytes);
        same("a text", lent.read(text).map(|accepted| accepted.entries), expected)?;
        same("buffers untouched", lent.is_untouched(), expected.is_err())?;
        let mut lent = Lent::of(words, bytes);
        let expected = expected.and(Err(2));
        same("a long text", lent.read(long).map(|accepted| accepted.entries), expected)?;
        same("buffers untouched", lent.is_untouched(), true)?;
    }
    Ok(sizes.len())
}

/// Lookups test 8, 9, malformed, 10; the show call turns none and refusals into the default.
fn lookup_order() -> Result<String, String> {
    let good = image_of(b"*a:1");
    let mut bad = image_of(b"*a:1");
    bad.contents[0] = 513;
    let long = vec![b'a'; 1025];
    let long_malformed = vec![b'.'; 1025];
    let wide = vec![b"a".to_vec(); 33].join(&b'.');
    let most = vec![b"a".to_vec(); 32].join(&b'.');
    let cases: [(&Lent, &[u8], &[u8], Result<bool, u8>); 10] = [
        (&good, b"a", b"", Ok(true)),
        (&good, b"b", b"", Ok(false)),
        (&good, &most, &most, Ok(true)),
        (&good, &wide, b"", Err(10)),
        (&good, b"a", &wide, Err(10)),
        (&good, &wide, b".", Ok(false)),
        (&good, b".", &wide, Ok(false)),
        (&good, b".", &long, Err(9)),
        (&good, &long_malformed, b"", Err(9)),
        (&bad, &long, b"", Err(8)),
    ];
    for (lent, name, class, expected) in cases {
        let got = get_bytes(&lent.contents, &lent.bodies, name, class);
        same("lookup", got.map(|place| place.is_some()).map_err(|refusal| refusal.number()), expected)?;
        let shown = show(&lent.contents, &lent.bodies, name, class, b"default");
        same("shown", shown, if expected == Ok(true) { b"1".as_slice() } else { b"default" })?;
    }
    Ok(format!("{} lookups", cases.len()))
}

/// What a lookup and the readings of its value answer.
fn answers<'a>(bounds: Bounds, lent: &'a Lent, name: &[u8], class: &[u8]) -> impl PartialEq + std::fmt::Debug + 'a {
    let Lent { contents, bodies } = lent;
    (
        bounds.get_bytes(contents, bodies, name, class),
        bounds.get_string(contents, bodies, name, class),
        bounds.get_bool(contents, bodies, name, class),
        bounds.get_value(contents, bodies, name, class),
        bounds.show(contents, bodies, name, class, b"default"),
    )
}

/// The dictionary window's bounds in the name and in the class: 8, 9, malformed, 10. What is within them gets the shell's answers.
fn window() -> Result<String, String> {
    let good = image_of(b"c:2\n*a:0\n*a:1");
    let mut bad = image_of(b"c:2\n*a:0\n*a:1");
    bad.contents[0] = 513;
    let dotted = |parts: usize| vec![b"a".to_vec(); parts].join(&b'.');
    let and_dots = |text: Vec<u8>, bytes: usize| [&text[..], &vec![b'.'; bytes - text.len()]].concat();
    let cases: [(Vec<u8>, Result<bool, u8>); 14] = [
        (b"a".to_vec(), Ok(true)),
        (b"b".to_vec(), Ok(false)),
        (dotted(7), Ok(true)),
        (dotted(8), Ok(true)),
        (dotted(9), Err(10)),
        (vec![b'a'; 127], Ok(false)),
        (vec![b'a'; 128], Ok(false)),
        (vec![b'a'; 129], Err(9)),
        (and_dots(dotted(8), 128), Ok(true)),
        (and_dots(dotted(8), 129), Err(9)),
        (and_dots(dotted(9), 128), Err(10)),
        (vec![b'.'; 128], Ok(false)),
        (vec![b'.'; 129], Err(9)),
        ([dotted(9), b"?".to_vec()].concat(), Ok(false)),
    ];
    for (text, expected) in &cases {
        let others: [(&[u8], Result<bool, u8>); 3] =
            [(b"", *expected), (b".", if *expected == Err(9) { Err(9) } else { Ok(false) }), (&[b'a'; 129], Err(9))];
        for (other, expected) in others {
            for (name, class) in [(&text[..], other), (other, &text[..])] {
                let got = WINDOW.get_bytes(&good.contents, &good.bodies, name, class);
                same("the window", got.map(|place| place.is_some()).map_err(|refusal| refusal.number()), expected)?;
                let no_image = WINDOW.get_bytes(&bad.contents, &bad.bodies, name, class);
                same("no image", no_image.map_err(|refusal| refusal.number()), Err(8))?;
                if expected.is_ok() {
                    same("the shell", answers(WINDOW, &good, name, class), answers(SHELL, &good, name, class))?;
                }
            }
        }
    }
    Ok(format!("{} lookups", 6 * cases.len()))
}

/// Images spoilt in one place, each of which must be found bad, and changes that leave an image good.
fn bad_images() -> Result<String, String> {
    // Rows: .a 1 at 0, then *b.c 22 at 3; 9 bytes in all.
    let image = || image_of(b"a:1\n*b.c:22");
    let word = |at: usize, value: u16| {
        let mut lent = image();
        lent.contents[at] = value;
        lent
    };
    let byte = |at: usize, value: u8| {
        let mut lent = image();
        lent.bodies[at] = value;
        lent
    };
    let cut = |words: usize, bytes: usize| {
        let mut lent = image();
        lent.contents.truncate(words);
        lent.bodies.truncate(bytes);
        lent
    };
    let words = |changes: &[(usize, u16)]| {
        let mut lent = image();
        changes.iter().for_each(|&(at, value)| lent.contents[at] = value);
        lent
    };
    let mut full = Lent::of(CONTENTS_WORDS, BODIES_BYTES);
    full.contents.fill(0);
    full.contents[..5].copy_from_slice(&[1, 32_768, 0, 2, 32_766]);
    full.bodies[..2].copy_from_slice(b".a");
    let mut over = Lent::of(CONTENTS_WORDS + SPARE, BODIES_BYTES + SPARE);
    over.contents.fill(0);
    over.contents[..5].copy_from_slice(&[1, 32_769, 0, 2, 32_767]);
    over.bodies[..2].copy_from_slice(b".a");
    let keyed = |key: &[u8]| {
        let mut lent = Lent::of(CONTENTS_WORDS, BODIES_BYTES);
        lent.contents[..6].copy_from_slice(&[1, key.len() as u16, 0, key.len() as u16, 0, 0]);
        lent.bodies[..key.len()].copy_from_slice(key);
        lent
    };
    let dotted = |parts: usize| b".a".repeat(parts);
    let cases: Vec<(&str, Lent, bool)> = vec![
        ("as read", image(), true),
        ("just long enough", cut(CONTENTS_WORDS, BODIES_BYTES), true),
        ("contents too short", cut(CONTENTS_WORDS - 1, BODIES_BYTES), false),
        ("bodies too short", cut(CONTENTS_WORDS, BODIES_BYTES - 1), false),
        ("count 513", word(0, 513), false),
        ("one entry less", word(0, 1), false),
        ("one entry less, and used", words(&[(0, 1), (1, 3)]), true),
        ("one entry more", word(0, 3), false),
        ("no entries, but used", word(0, 0), false),
        ("no entries", words(&[(0, 0), (1, 0)]), true),
        ("used one less", word(1, 8), false),
        ("used one more", word(1, 10), false),
        ("used fills the store", full, true),
        ("used past the store", over, false),
        ("a first start of 1", word(2, 1), false),
        ("a gap before the second", word(6, 4), false),
        ("a second start too early", word(6, 2), false),
        ("the last place of a file", word(9, 64), true),
        ("a place more", word(5, 65), false),
        ("just below unknown", word(9, 65_534), false),
        ("a file that nobody knows", words(&[(5, 65_535), (9, 65_535)]), true),
        ("no file behind the last row", word(13, 65), true),
        ("lengths that pass the sum", word(4, 65_535), false),
        ("a key length that takes in the value", words(&[(3, 3), (4, 0)]), true),
        ("a key that ends in its binding", words(&[(3, 1), (4, 2)]), false),
        ("an empty key", words(&[(3, 0), (4, 3)]), false),
        ("a key without its binding", byte(0, b'a'), false),
        ("a key with a byte that is no name's", byte(1, b'+'), false),
        ("a key that ends in ?", byte(1, b'?'), false),
        ("a key with ? inside", byte(4, b'?'), true),
        ("a value of any byte", byte(2, 0), true),
        ("something in unused words", word(1000, 9), true),
        ("something in unused bytes", byte(20_000, 9), true),
        ("16 parts", keyed(&dotted(16)), true),
        ("17 parts", keyed(&dotted(17)), false),
        ("two bindings", keyed(b".*a"), false),
        ("a ? that adjoins", keyed(b".?a"), false),
        ("a ? with bindings", keyed(b"*?.a"), true),
    ];
    for (label, lent, good) in &cases {
        same(label, image::judge(&lent.contents, &lent.bodies).is_some(), *good)?;
        let looked_up = get_bytes(&lent.contents, &lent.bodies, b"a", b"").map_err(|refusal| refusal.number());
        same(label, looked_up.err(), if *good { None } else { Some(8) })?;
    }
    Ok(format!("{} images", cases.len()))
}

/// The highest row is the greatest of all rows, and just one entry of those that align beats the rest.
fn rows() -> Result<String, String> {
    let parsed = |most| keys(most).iter().map(|key| read_key(key).expect("a key")).collect::<Vec<Vec<Part>>>();
    let mut count = 0;
    let names = queries(b"ab", 4);
    for key in parsed(4) {
        for name in &names {
            for class in &names {
                let (name, class) = (split(name).expect("a query"), split(class).expect("a query"));
                let positions = positions(&name, &class);
                same("highest", highest_row(&key, &positions), all_rows(&key, &positions).into_iter().max())?;
                count += 1;
            }
        }
    }
    let short = parsed(2);
    let names = queries(b"ab", 3);
    for first in &short {
        for second in &short {
            for (name, class) in names.iter().zip(names.iter().rev()) {
                let (name, class) = (split(name).expect("a query"), split(class).expect("a query"));
                let (keys, positions) = ([&first[..], &second[..], &first[..]], positions(&name, &class));
                let beating: Vec<usize> = (0..keys.len()).filter(|&which| beats_the_rest(&keys, &positions, which)).collect();
                let winners: Vec<usize> = winner(keys.into_iter(), &positions).into_iter().collect();
                same("who beats the rest", beating, winners)?;
                count += 1;
            }
        }
    }
    Ok(format!("{count} lookups"))
}

/// Striking off on the bytes gives the archive of the other files.
fn striking_off() -> Result<String, String> {
    let draw = &mut Draw::new(1, "striking off");
    let mut count = 0;
    for _ in 0..2_000 {
        let archive = archives::source(draw).0.archive;
        let files = judge(&archive).expect("a good archive").files;
        for which in 0..files.len() {
            let mut others = files.clone();
            others.remove(which);
            same("struck off", strike(&archive, which), lay_out(&others))?;
            same("the rest", judge(&lay_out(&others)).map(|archive| archive.files), Some(others))?;
            count += 1;
        }
    }
    Ok(format!("{count} files"))
}

/// What the writing call gives with a buffer of this many bytes, and the buffer afterwards, with guards behind it.
fn written(image: &Image, length: usize) -> (Result<usize, u8>, Vec<u8>) {
    let mut buffer = vec![BYTE; length + SPARE];
    let got = writing::write(&image.contents, &image.bodies, &mut buffer[..length]);
    (got.map_err(|refusal| refusal.number()), buffer)
}

/// The sentences of document 02 (iv), each with buffers that are long enough, and too short.
fn written_texts() -> Result<String, String> {
    let named = images::named();
    for images::Named { label, entries, text } in &named {
        let image = Image::of(entries);
        for more in [0, 1, 1_000] {
            let expected = [&text[..], &vec![BYTE; more + SPARE]].concat();
            same(label, written(&image, text.len() + more), (Ok(text.len()), expected))?;
        }
        for short in 0..text.len() {
            same(label, written(&image, short), (Err(11), vec![BYTE; short + SPARE]))?;
        }
    }
    let limits = images::at_limits();
    for images::AtLimit { label, image, expected } in &limits {
        let enough = expected.unwrap_or(0);
        let (got, buffer) = written(image, enough);
        same(label, got, *expected)?;
        same(label, buffer[enough..].iter().all(|b| *b == BYTE), true)?;
        if enough > 0 {
            same(label, written(image, enough - 1), (Err(11), vec![BYTE; enough - 1 + SPARE]))?;
        }
    }
    Ok(format!("{} texts, {} at limits", named.len(), limits.len()))
}

/// A text that is written, if it is not too long, reads back as an image of the same entries, zero elsewhere, and other entries
/// have another text.
fn read_again() -> Result<String, String> {
    let (mut count, mut long) = (0, 0);
    let mut texts = BTreeMap::new();
    for name in ["limits", "values", "pairs", "bytes", "keys", "texts", "archives"] {
        let family = images::family(name).ok_or("no such family")?;
        family(Extent { seed: 1, times: 1 }, &mut |image| {
            let Some(entries) = image.entries() else { return Ok(()) };
            let text =
                writing::text(&image.contents, &image.bodies).map_err(|refusal| format!("refused {}", refusal.number()))?;
            match Image::read(&Source::plain(&text)) {
                None => {
                    same("a text that is refused", text.len() > TEXT_BYTES, true)?;
                    long += 1;
                }
                Some(again) => same("read again", &again, &Image::of(&entries))?,
            }
            count += 1;
            let of_text: &Vec<images::Entry> = texts.entry(text).or_insert_with(|| entries.clone());
            same("the entries of a text", of_text, &entries)
        })?;
    }
    Ok(format!("{count} images, {} texts, {long} of them too long to be read", texts.len()))
}

impl Lent {
    fn start(&self, name: &[u8], class: &[u8]) -> Result<Walk, u8> {
        walking::start(&self.contents, &self.bodies, name, class).map_err(|refusal| refusal.number())
    }

    /// What a step gives, and the state that it leaves.
    fn step(&self, name: &[u8], mut walk: Walk) -> (Result<Option<usize>, u8>, Walk) {
        let answer = walking::step(&self.contents, &self.bodies, name, b"", &mut walk);
        (answer.map_err(|refusal| refusal.number()), walk)
    }

    fn add(&mut self, text: &[u8]) -> Result<usize, u8> {
        adding::add(&mut self.contents, &mut self.bodies, text).map_err(|refusal| refusal.number())
    }
}

/// Entries 0, 1, 3 and 4 align with the name `a.b`.
const SIX: &[u8] = b"a.b:0\n*b:1\nc:2\na*b:3\n?.b:4\nb.a:5";

/// The sentences of document 02 (v) that speak of a walk.
fn walks_listed() -> Result<String, String> {
    let lent = image_of(SIX);
    same("a start", lent.start(b"a.b", b""), Ok(Walk { next: 0, count: 6 }))?;
    same("a malformed start", lent.start(b".a", b""), Ok(Walk { next: 0, count: 6 }))?;
    let long = [b'a'; 1_025];
    let wide = b"a.".repeat(33);
    same("9", lent.start(b".a", &long), Err(9))?;
    same("10", lent.start(&wide, b""), Err(10))?;
    same("malformed before 10", lent.start(&wide, b".a"), Ok(Walk { next: 0, count: 6 }))?;
    let steps: [(usize, usize, Option<usize>); 12] = [
        (0, 6, Some(0)),
        (1, 6, Some(1)),
        (2, 6, Some(3)),
        (4, 6, Some(4)),
        (5, 6, None),
        (2, 4, Some(3)),
        (2, 3, None),
        (0, 0, None),
        (5, 4, None),
        (0, 65_535, Some(0)),
        (6, 65_535, None),
        (65_535, 65_535, None),
    ];
    for (next, count, expected) in steps {
        let left = Walk { next: expected.map_or(next, |number| number + 1), count };
        same("a step", lent.step(b"a.b", Walk { next, count }), (Ok(expected), left))?;
        same("a malformed step", lent.step(b".a", Walk { next, count }), (Ok(None), Walk { next, count }))?;
        same("a refused step", lent.step(&wide, Walk { next, count }), (Err(10), Walk { next, count }))?;
    }
    let mut fewer = image_of(SIX);
    (fewer.contents[0], fewer.contents[1]) = (1, 5);
    same("below the image's count", fewer.step(b"a.b", Walk { next: 1, count: 6 }).0, Ok(None))?;
    fewer.contents[0] = 513;
    same("8", (fewer.start(&long, b""), fewer.step(b".a", Walk { next: 0, count: 6 }).0), (Err(8), Err(8)))?;
    Ok(format!("{} steps", steps.len()))
}

/// The sentences that speak of an addition, and each limit, with what is left.
fn additions() -> Result<String, String> {
    let limits = walks::at_limits();
    for walks::AtLimit { label, image, text, expected } in &limits {
        let mut lent = Lent::new();
        let (rows, used) = (2 + ROW_WORDS * usize::from(image.contents[0]).min(512), usize::from(image.contents[1]));
        lent.contents[..rows].copy_from_slice(&image.contents[..rows]);
        lent.bodies[..used].copy_from_slice(&image.bodies[..used]);
        let before = (lent.contents.clone(), lent.bodies.clone());
        same(label, lent.add(text), *expected)?;
        if expected.is_err() {
            same(label, lent.contents == before.0 && lent.bodies == before.1, true)?;
            continue;
        }
        let end = usize::from(lent.contents[1]);
        same(label, &lent.contents[2..rows], &before.0[2..rows])?;
        same(label, lent.contents[rows + ROW_WORDS..] == before.0[rows + ROW_WORDS..], true)?;
        same(label, lent.bodies[..used] == before.1[..used] && lent.bodies[end..] == before.1[end..], true)?;
        same(label, image::judge(&lent.contents, &lent.bodies).is_some(), true)?;
    }
    let mut lent = image_of(b"a:1");
    lent.contents[6..].fill(WORD);
    lent.bodies[3..].fill(BYTE);
    same("an addition", lent.add(b"! more\n*b..c : y\\nz\n"), Ok(1))?;
    same("its row", &lent.contents[..11], &[2, 10, 0, 2, 1, 0, 3, 4, 3, 65_535, WORD])?;
    same("its bytes", &lent.bodies[..11], b".a1*b.cy\nzZ")?;
    Ok(format!("{} additions at limits", limits.len()))
}

/// From which file each entry is: 0 for a text of the reading, else the place on the archive of the last file on its chain.
fn origins() -> Result<String, String> {
    let file = |name: &str, body: &str| File { name: name.into(), body: body.into() };
    let p = file("d/p", "#include \"../q\"\nx:p");
    let q = file("q", "#include \"./a\"\nx:q\n#include \"none\"\nx:q");
    let archive = lay_out(&[file("a", "x:a"), p, q]);
    let cases: [(&[&[u8]], &[u16]); 4] = [
        (&[b"x:"], &[0]),
        (&[b"x:\n#include \"d/p\"\nx:"], &[0, 1, 3, 3, 2, 0]),
        (&[b"#include \"q\"\n#include \"a\"", b"x:"], &[1, 3, 3, 1, 0]),
        (&[b"", b"#include \"a\""], &[1]),
    ];
    for (texts, expected) in cases {
        let mut lent = Lent::new();
        image::read(&mut lent.contents, &mut lent.bodies, texts, &archive, DEFAULT_DEPTH)
            .map_err(|refusal| format!("{refusal:?}"))?;
        let found: Vec<u16> = (0..usize::from(lent.contents[0])).map(|number| lent.contents[5 + ROW_WORDS * number]).collect();
        same("origins", &found[..], expected)?;
        same("zero behind", lent.is_zero_after(expected.len()), true)?;
    }
    Ok(format!("{} readings", cases.len()))
}

/// An old image carried over: its entries with 65,535 in every row, zeroed past them, and refusals that change nothing.
fn migrations() -> Result<String, String> {
    let (mut old, mut bytes) = (vec![WORD; OLD_CONTENTS_WORDS], vec![BYTE; BODIES_BYTES]);
    old[..8].copy_from_slice(&[2, 6, 0, 2, 1, 3, 2, 1]);
    bytes[..6].copy_from_slice(b".ax*by");
    let mut lent = Lent::new();
    let accepted = image::migrate(&old, &bytes, &mut lent.contents, &mut lent.bodies);
    same("entries and opens", accepted.map(|accepted| (accepted.entries, accepted.opens)).ok(), Some((2, 0)))?;
    same("the rows", &lent.contents[..10], &[2, 6, 0, 2, 1, 65_535, 3, 2, 1, 65_535])?;
    same("the bytes", &lent.bodies[..6], b".ax*by")?;
    same("zero behind", lent.is_zero_after(2) && lent.is_untouched_past_the_image(), true)?;
    let found = get_bytes(&lent.contents, &lent.bodies, b"b", b"").ok().flatten().map(|place| (place.start, place.length));
    same("a lookup", found, Some((5, 1)))?;
    let off = |at: usize| [&old[..at], &[9], &old[at + 1..]].concat();
    let refused = [
        ("a word short", old[1..].to_vec(), bytes.clone(), (CONTENTS_WORDS, BODIES_BYTES), 8),
        ("a byte short", old.clone(), bytes[1..].to_vec(), (CONTENTS_WORDS, BODIES_BYTES), 8),
        ("a start that is off", off(5), bytes.clone(), (CONTENTS_WORDS, BODIES_BYTES), 8),
        ("8 before 1", off(5), bytes.clone(), (0, 0), 8),
        ("new contents a word short", old.clone(), bytes.clone(), (CONTENTS_WORDS - 1, BODIES_BYTES), 1),
        ("new bodies a byte short", old.clone(), bytes.clone(), (CONTENTS_WORDS, BODIES_BYTES - 1), 1),
    ];
    for (label, old, bytes, (words, room), number) in &refused {
        let mut lent = Lent::of(*words, *room);
        let answer = image::migrate(old, bytes, &mut lent.contents, &mut lent.bodies);
        same(label, answer.map(|_| 0).unwrap_or_else(|refusal| refusal.number()), *number)?;
        same(label, lent.is_untouched(), true)?;
    }
    Ok(format!("an old image, and {} that are refused", refused.len()))
}

/// A board without buffers, and one in garbage beside it: each call goes to both, which give the same and keep the same.
struct Boards {
    history: board::Board,
    words: Vec<u16>,
    bytes: Vec<u8>,
}

/// An answer as pack, place and length.
type Watched = Option<(u16, usize, usize)>;

fn watched(found: Option<board::Found>) -> Watched {
    found.map(|found| (found.pack, found.place.start, found.place.length))
}

impl Boards {
    fn made() -> Result<Self, String> {
        let (mut words, mut bytes) = (vec![WORD; BOARD_WORDS], vec![BYTE; BOARD_BYTES]);
        same("a making", board::make(&mut words, &mut bytes), Ok(()))?;
        Ok(Self { history: board::Board::default(), words, bytes })
    }

    /// A call gives this by the history and in the buffers, which then hold what the history says.
    fn gives<T: PartialEq + std::fmt::Debug>(
        &mut self,
        what: &str,
        expected: Result<T, Refusal>,
        history: impl FnOnce(&mut board::Board) -> Result<T, Refusal>,
        buffers: impl FnOnce(&mut [u16], &mut [u8]) -> Result<T, Refusal>,
    ) -> Result<(), String> {
        let before = (self.words.clone(), self.bytes.clone());
        same(&format!("{what}, in buffers"), buffers(&mut self.words, &mut self.bytes).as_ref(), expected.as_ref())?;
        same(&format!("{what}, without"), history(&mut self.history).as_ref(), expected.as_ref())?;
        let held = board::read_board(&self.words, &self.bytes);
        same(&format!("{what}: what the buffers hold"), held.as_ref() == Ok(&self.history), true)?;
        let is_as_before = expected.is_ok() || before == (self.words.clone(), self.bytes.clone());
        same(&format!("{what}: what a refusal leaves"), is_as_before, true)
    }

    fn watch(&mut self, what: &str, name: &[u8], class: &[u8], expected: Result<usize, Refusal>) -> Result<(), String> {
        self.gives(what, expected, |board| board.watch(name, class), |words, bytes| board::watch(words, bytes, name, class))
    }

    fn arrive(&mut self, what: &str, number: u16, lent: &Lent, expected: Result<(), Refusal>) -> Result<(), String> {
        let Lent { contents, bodies } = lent;
        self.gives(
            what,
            expected,
            |board| board.arrive(number, contents, bodies),
            |words, bytes| board::arrive(words, bytes, number, contents, bodies),
        )
    }

    fn leave(&mut self, what: &str, number: u16, expected: Result<(), Refusal>) -> Result<(), String> {
        self.gives(what, expected, |board| board.leave(number), |words, bytes| board::leave(words, bytes, number))
    }

    /// One by one, and all at once.
    fn answers(&mut self, what: &str, expected: &[Watched]) -> Result<(), String> {
        let all = |found: Vec<Option<board::Found>>| found.into_iter().map(watched).collect::<Vec<_>>();
        let told = expected.to_vec();
        self.gives(what, Ok(told), |board| Ok(all(board.answers())), |words, bytes| board::answers(words, bytes).map(all))?;
        let none = [None, None];
        for (query, found) in expected.iter().chain(&none).enumerate() {
            let in_buffers = |words: &mut [u16], bytes: &mut [u8]| board::answer(words, bytes, query as u16).map(watched);
            self.gives(what, Ok(*found), |board| Ok(watched(board.answer(query))), in_buffers)?;
        }
        Ok(())
    }

    fn report(&mut self, what: &str, number: u16, expected: Result<u32, Refusal>) -> Result<(), String> {
        self.gives(what, expected, |board| board.report(number), |words, bytes| board::report(words, bytes, number))
    }
}

/// Document 02 (ix): the definition's own examples, on a board without buffers and on one in garbage.
fn boards() -> Result<String, String> {
    let histories = [packs_that_come_and_go, full_board, more_than_512_entries, full_rooms, no_boards];
    histories.iter().try_for_each(|history| history())?;
    Ok(format!("{} histories, without buffers and in garbage", histories.len()))
}

fn packs_that_come_and_go() -> Result<(), String> {
    let mut boards = Boards::made()?;
    boards.watch("a query", b"a.b", b"", Ok(0))?;
    boards.watch("the same again", b"a.b", b"", Ok(1))?;
    boards.watch("a malformed one", b".a", b"", Ok(2))?;
    boards.watch("a byte more", &[b'a'; 1025], b"", Err(Refusal::LongQuery))?;
    boards.watch("a part more", &b"a.".repeat(33), b"", Err(Refusal::ManyQueryParts))?;
    boards.answers("no packs", &[None; 3])?;
    let packs: [(u16, &[u8]); 3] = [(7, b"a*b:old\n*c:x"), (9, b"c:\na.b:new"), (2, b"a*b:last")];
    for (number, text) in packs {
        let lent = image_of(text);
        boards.arrive("an arrival", number, &lent, Ok(()))?;
        boards.arrive("a number that is there", number, &lent, Err(Refusal::BadPackNumber))?;
    }
    boards.answers("three packs", &[Some((9, 6, 3)), Some((9, 6, 3)), None])?;
    for (number, told) in [(7, Ok(0)), (9, Ok(3)), (2, Ok(0)), (1, Err(Refusal::BadPackNumber))] {
        boards.report("a report", number, told)?;
    }
    boards.leave("a leaving", 9, Ok(()))?;
    boards.answers("of equals the later", &[Some((2, 4, 4)), Some((2, 4, 4)), None])?;
    boards.report("the very same bytes or not", 2, Ok(3))?;
    boards.leave("a leaving", 2, Ok(()))?;
    boards.answers("the one that is left", &[Some((7, 4, 3)), Some((7, 4, 3)), None])?;
    boards.leave("number 0", 0, Err(Refusal::BadPackNumber))?;
    boards.leave("a number that is not there", 2, Err(Refusal::BadPackNumber))
}

/// A seventeenth pack and a thirty-third query, and a making after them.
fn full_board() -> Result<(), String> {
    let mut boards = Boards::made()?;
    let (lent, mut short) = (image_of(b"a:1"), image_of(b"a:1"));
    short.contents.truncate(CONTENTS_WORDS - 1);
    for number in 7..23 {
        boards.arrive("a pack", number, &lent, Ok(()))?;
    }
    boards.arrive("a seventeenth", 0, &lent, Err(Refusal::FullBoard))?;
    boards.arrive("no image", 0, &short, Err(Refusal::NoImage))?;
    short = Lent { bodies: lent.bodies[..BODIES_BYTES - 1].to_vec(), ..image_of(b"a:1") };
    boards.arrive("bodies one byte short", 0, &short, Err(Refusal::NoImage))?;
    for number in 0..32 {
        boards.watch("a query", b"a", b"", Ok(number))?;
    }
    boards.watch("a thirty-third", &[b'a'; 1025], b"", Err(Refusal::FullBoard))?;
    boards.answers("all from the last", &[Some((22, 2, 1)); 32])?;
    same("a making", board::make(&mut boards.words, &mut boards.bytes), Ok(()))?;
    boards.history = board::Board::default();
    boards.answers("an empty board", &[])
}

/// The joined entries are more than an image holds.
fn more_than_512_entries() -> Result<(), String> {
    let mut boards = Boards::made()?;
    boards.watch("a query", b"a", b"", Ok(0))?;
    boards.watch("another", b"b", b"", Ok(1))?;
    boards.arrive("512 entries", 1, &image_of(&b"*a:x\n".repeat(512)), Ok(()))?;
    boards.arrive("two more", 2, &image_of(b"b:y\na:z"), Ok(()))?;
    boards.answers("entries 513 and 514", &[Some((2, 5, 1)), Some((2, 2, 1))])?;
    boards.report("without them", 2, Ok(3))?;
    boards.report("without the others", 1, Ok(0))
}

/// Texts, malformed ones too, and images that fill their rooms, which stand one right behind another; a value of no bytes behind the last
/// byte.
fn full_rooms() -> Result<(), String> {
    let mut boards = Boards::made()?;
    for (query, letter) in (b'A'..=b'`').enumerate() {
        boards.watch("the longest texts", &[letter; 1024], &[letter; 1024], Ok(query))?;
    }
    let long = (b".z".to_vec(), vec![b'v'; BODIES_BYTES - 2 * 512]);
    let Image { contents, bodies } = Image::of(&[vec![long], vec![(b".a".to_vec(), vec![]); 511]].concat());
    let full = Lent { contents, bodies };
    for number in 1..17 {
        boards.arrive("a full pack", number, &full, Ok(()))?;
    }
    boards.leave("the first", 1, Ok(()))?;
    boards.arrive("and again", 1, &full, Ok(()))?;
    let mut last = Boards::made()?;
    last.watch("a query", b"a", b"", Ok(0))?;
    last.arrive("a full pack", 1, &full, Ok(()))?;
    last.answers("behind the last byte", &[Some((1, BODIES_BYTES, 0))])
}

/// Buffers one too short, and words that make no board.
fn no_boards() -> Result<(), String> {
    let mut boards = Boards::made()?;
    for number in 7..23 {
        boards.arrive("a pack", number, &image_of(b""), Ok(()))?;
    }
    for number in 0..32 {
        boards.watch("a query", b"a", b"", Ok(number))?;
    }
    let Boards { words, bytes, .. } = boards;
    let refused = |words: &[u16], bytes: &[u8]| board::answer(words, bytes, 0).err();
    same("a word short", refused(&words[1..], &bytes), Some(Refusal::ShortBuffers))?;
    same("a byte short", refused(&words, &bytes[1..]), Some(Refusal::ShortBuffers))?;
    for (at, word) in [(0, 17), (1, 33), (board::slot_start(1), 7), (board::slot_start(2), 0), (board::lengths_start(31), 1025)] {
        let mut other = words.clone();
        other[at] = word;
        same("no board", refused(&other, &bytes), Some(Refusal::NoImage))?;
        same("no answers", board::answers(&other, &bytes), Err(Refusal::NoImage))?;
    }
    Ok(())
}

/// A walk with additions under way lists, of the entries below its start's count, those that align, each once, and ends.
fn walks_with_additions() -> Result<String, String> {
    let mut count = 0;
    for place in 0..=4 {
        let mut lent = image_of(SIX);
        for expected in [&[0, 1, 3, 4][..], &[0, 1, 3, 4, 6], &[0, 1, 3, 4, 6, 7]] {
            let mut walk = lent.start(b"a.b", b"").map_err(|number| format!("refused {number}"))?;
            let mut listed = Vec::new();
            for step in 0..9 {
                if step == place {
                    lent.add(b"*b:").map_err(|number| format!("refused {number}"))?;
                }
                let (answer, left) = lent.step(b"a.b", walk);
                listed.extend(answer.map_err(|number| format!("refused {number}"))?);
                walk = left;
            }
            same("listed", &listed[..], expected)?;
            count += 1;
        }
    }
    Ok(format!("{count} walks"))
}

//! The families of cases on which the model and the Rust are compared.

use crate::both::Both;
use crate::rust::start::{Home, Named, Setting};
use cases::chains::{self, every_combination, Combination, Found};
use cases::damage::{damage_text, damaged};
use cases::draw::Draw;
use cases::limits::edges;
use cases::readings::Extent;
use cases::texts::aligned_key;
use cases::words::{each_word, keys, queries};
use cases::{archives, dotted, images, named_chains, realistic, struck, texts};
use model::archive::{judge, lay_out, File};
use model::writing;
use records::{archive_of, Query, Source};

type Family = fn(&mut Both, u64) -> Result<(), String>;

const FAMILIES: [(&str, Family); 27] = [
    ("texts", every_text),
    ("values", every_value),
    ("keys", every_key),
    ("bytes", every_pair_of_bytes),
    ("include-lines", every_include_line),
    ("lookups-in-one", lookups_in_one),
    ("lookups-in-two", lookups_in_two),
    ("strings", every_string),
    ("numbers", every_number),
    ("booleans", every_boolean),
    ("limits", at_the_limits),
    ("random", random),
    ("wide-lookups", wide_lookups),
    ("archives", random_archives),
    ("dotted-by-name", dotted_by_name),
    ("dotted-names", every_dotted_name),
    ("dotted-ways", random_dotted_ways),
    ("dotted-struck-off", dotted_struck_off),
    ("realistic", like_real_files),
    ("damaged", damaged_copies),
    ("struck-off", struck_off),
    ("written-out", written_out),
    ("start-ups", every_start_up),
    ("chains-by-name", named_chains),
    ("chain-limits", chains_at_the_limits),
    ("chains", random_chains),
    ("chains-struck-off", chains_struck_off),
];

/// Those whose includes nest.
pub const NESTED: [&str; 8] =
    ["limits", "archives", "dotted-ways", "struck-off", "chains-by-name", "chain-limits", "chains", "chains-struck-off"];

pub fn names() -> Vec<&'static str> {
    FAMILIES.iter().map(|(name, _)| *name).collect()
}

pub fn find(name: &str) -> Option<Family> {
    FAMILIES.iter().find(|(of, _)| *of == name).map(|(_, family)| *family)
}

/// Runs `check` on every word; the first difference stands.
fn on_each_word(alphabet: &[u8], longest: usize, mut check: impl FnMut(&[u8]) -> Result<(), String>) -> Result<(), String> {
    let mut result = Ok(());
    each_word(alphabet, longest, &mut |word| {
        if result.is_ok() {
            result = check(word);
        }
    });
    result
}

fn line(value: &[u8]) -> Source {
    Source::plain(&[b"a:", value].concat())
}

/// All texts of up to six bytes that the rules tell apart.
fn every_text(both: &mut Both, _: u64) -> Result<(), String> {
    on_each_word(b"a.*?:\\18n \t\n#!", 6, |text| both.read(&Source::plain(text)).map(drop))
}

fn every_value(both: &mut Both, _: u64) -> Result<(), String> {
    on_each_word(b"\\078na \t\n", 6, |value| both.read(&line(value)).map(drop))
}

fn every_key(both: &mut Both, _: u64) -> Result<(), String> {
    on_each_word(b"ab?.*", 7, |key| both.read(&Source::plain(&[key, b":x"].concat())).map(drop))
}

/// All pairs of bytes in a key, in a value, after a backslash, and in a query.
fn every_pair_of_bytes(both: &mut Both, _: u64) -> Result<(), String> {
    let all: Vec<u8> = (0..=255).collect();
    let places: [(&[u8], &[u8]); 4] = [(b"", b":1"), (b"a", b"b:1"), (b"a:", b"z"), (b"a:\\", b"z")];
    on_each_word(&all, 2, |pair| {
        for (before, after) in places {
            both.read(&Source::plain(&[before, pair, after].concat()))?;
        }
        Ok(())
    })?;
    let mut queries = Vec::new();
    each_word(&all, 2, &mut |pair| queries.push(Query::new(&[b"a", pair].concat(), b"")));
    both.ask(&Source::plain(b"a:1\n*b:2\n?c:3\naz:4\na.-:5\n*_:6\n*9:7"), &queries)
}

/// All texts of up to six of these pieces, with a file to include.
fn every_include_line(both: &mut Both, _: u64) -> Result<(), String> {
    const PIECES: [&[u8]; 8] = [b"#", b"include", b"\"", b"p", b" ", b"\t", b"\n", b"a:1"];
    on_each_word(&[0, 1, 2, 3, 4, 5, 6, 7], 6, |word| {
        let text: Vec<u8> = word.iter().flat_map(|&piece| PIECES[piece as usize]).copied().collect();
        both.read(&Source::with(&text, &[(b"p", b"b:1")])).map(drop)
    })
}

/// Every key of up to four parts, alone, with every query of up to four.
fn lookups_in_one(both: &mut Both, _: u64) -> Result<(), String> {
    let names = queries(b"ab", 4);
    let all: Vec<Query> = names.iter().flat_map(|name| names.iter().map(|class| Query::new(name, class))).collect();
    keys(4).iter().try_for_each(|key| both.ask_bytes(&Source::plain(&[key, b":".as_slice()].concat()), &all))
}

/// Every two keys of up to three parts, with every query of up to three and its class, if any, as long.
fn lookups_in_two(both: &mut Both, _: u64) -> Result<(), String> {
    let names = queries(b"ab", 3);
    let fits = |name: &[u8], class: &[u8]| class.is_empty() || class.len() == name.len();
    let all: Vec<Query> = names
        .iter()
        .flat_map(|name| names.iter().filter(move |class| fits(name, class)).map(move |class| Query::new(name, class)))
        .collect();
    let keys = keys(3);
    for first in &keys {
        for second in &keys {
            let text = [first, b":1\n".as_slice(), second, b":2"].concat();
            both.ask_bytes(&Source::plain(&text), &all)?;
        }
    }
    Ok(())
}

/// Values around every bound of well-formed UTF-8.
fn every_string(both: &mut Both, _: u64) -> Result<(), String> {
    const BYTES: [u8; 18] =
        [0x41, 0x7F, 0x80, 0x8F, 0x90, 0x9F, 0xA0, 0xBF, 0xC1, 0xC2, 0xDF, 0xE0, 0xE1, 0xED, 0xEF, 0xF0, 0xF4, 0xF5];
    let all = [Query::new(b"a", b"")];
    on_each_word(&BYTES, 4, |value| both.ask(&line(value), &all))
}

fn every_number(both: &mut Both, seed: u64) -> Result<(), String> {
    let all = [Query::new(b"a", b"")];
    on_each_word(b"+-019x ", 5, |value| both.ask(&line(value), &all))?;
    let draw = &mut Draw::new(seed, "numbers");
    (0..20_000).try_for_each(|_| both.ask(&line(&texts::word(draw)), &all))
}

/// The six words in every case of letters, and with every letter replaced by each letter that has
/// a lower case of its own in Unicode.
fn every_boolean(both: &mut Both, _: u64) -> Result<(), String> {
    const WORDS: [&str; 6] = ["true", "on", "yes", "false", "off", "no"];
    let all = [Query::new(b"a", b"")];
    let cased: Vec<char> = ('\0'..=char::MAX).filter(|c| c.is_ascii_graphic() || !c.to_lowercase().eq([*c])).collect();
    for word in WORDS {
        for upper in 0..1u32 << word.len() {
            let raised = |(at, b): (usize, u8)| if upper >> at & 1 == 1 { b.to_ascii_uppercase() } else { b };
            let value: Vec<u8> = word.bytes().enumerate().map(raised).collect();
            both.ask(&line(&value), &all)?;
        }
        for at in 0..word.len() {
            for c in &cased {
                let value = format!("{}{c}{}", &word[..at], &word[at + 1..]);
                both.ask(&line(value.as_bytes()), &all)?;
            }
        }
    }
    Ok(())
}

fn at_the_limits(both: &mut Both, _: u64) -> Result<(), String> {
    edges().iter().try_for_each(|edge| both.ask(&edge.source, &edge.queries).map_err(|why| format!("{}: {why}", edge.label)))
}

/// The query that a source was drawn for, and others.
fn and_others(draw: &mut Draw, query: Query) -> Vec<Query> {
    let class = query.class.clone();
    let mut queries = vec![query, texts::query(draw), texts::query(draw)];
    let name = queries[1].name.clone();
    queries.push(Query { name, class });
    queries
}

fn random(both: &mut Both, seed: u64) -> Result<(), String> {
    let draw = &mut Draw::new(seed, "random");
    (0..60_000).try_for_each(|_| {
        let query = texts::query(draw);
        let source = Source::plain(&texts::text(draw, 8, &query));
        both.ask(&source, &and_others(draw, query))
    })
}

fn random_archives(both: &mut Both, seed: u64) -> Result<(), String> {
    let draw = &mut Draw::new(seed, "archives");
    (0..12_000).try_for_each(|_| {
        let (source, query) = archives::source(draw);
        both.ask(&source, &and_others(draw, query))
    })
}

/// Names with dots chosen by hand. Those of which the documents say that they stay outside are left out.
fn dotted_by_name(both: &mut Both, _: u64) -> Result<(), String> {
    let queries = [Query::new(b"p", b""), Query::new(b"c", b"")];
    dotted::edges().iter().try_for_each(|edge| both.ask(&edge.source, &queries).map_err(|why| format!("{}: {why}", edge.label)))
}

/// All names of up to six parts `.`, `..`, `a`, `b` and `...`, from folders of up to three parts.
fn every_dotted_name(both: &mut Both, seed: u64) -> Result<(), String> {
    dotted::every_admitted_name(Extent { seed, times: 1 }, &mut |source| both.read(source).map(drop))
}

fn random_dotted_ways(both: &mut Both, seed: u64) -> Result<(), String> {
    let draw = &mut Draw::new(seed, "dotted ways");
    (0..3_000).try_for_each(|_| {
        let (source, query) = dotted::source(draw);
        both.ask(&source, &and_others(draw, query))
    })
}

/// Each file of an archive struck off whose includes have dots.
fn dotted_struck_off(both: &mut Both, seed: u64) -> Result<(), String> {
    let (_, family) = struck::FAMILIES.iter().find(|(name, _)| *name == "dotted").ok_or("no such family")?;
    family(Extent { seed, times: 1 }, &mut |source, which, queries| both.strike(source, which, queries))?;
    both.some_moved()
}

fn like_real_files(both: &mut Both, seed: u64) -> Result<(), String> {
    let draw = &mut Draw::new(seed, "realistic");
    (0..4_000).try_for_each(|_| {
        let source = realistic::source(draw, 60);
        let queries: Vec<Query> = (0..8).map(|_| realistic::query(draw)).collect();
        both.ask(&source, &queries)
    })
}

/// Good sources with a few bytes of the main text, or of a file, or of a query damaged.
fn damaged_copies(both: &mut Both, seed: u64) -> Result<(), String> {
    let draw = &mut Draw::new(seed, "damaged");
    (0..30_000).try_for_each(|_| {
        let (mut source, mut query) = match draw.below(4) {
            0 => archives::source(draw),
            1 => (realistic::source(draw, 8), realistic::query(draw)),
            _ => {
                let query = texts::query(draw);
                (Source::plain(&texts::text(draw, 4, &query)), query)
            }
        };
        let files = judge(&source.archive).expect("a good archive").files;
        match draw.below(8) {
            0 => query.name = damaged(draw, &query.name),
            1 => query.class = damaged(draw, &query.class),
            2..=4 if !files.is_empty() => source.archive = with_a_damaged_file(draw, files),
            _ => damage_text(draw, &mut source),
        }
        both.ask(&source, &and_others(draw, query))
    })
}

fn with_a_damaged_file(draw: &mut Draw, mut files: Vec<File>) -> Vec<u8> {
    let which = draw.below(files.len());
    files[which].body = damaged(draw, &files[which].body);
    lay_out(&files)
}

/// Queries of up to 33 parts, and keys that align with them by skipping much.
fn wide_lookups(both: &mut Both, seed: u64) -> Result<(), String> {
    let draw = &mut Draw::new(seed, "wide");
    (0..2_000).try_for_each(|_| {
        let parts = draw.between(6, 33);
        let letters: &[u8] = if draw.one_in(4) { b"ab" } else { b"abcdefghijklmnopqrstuvwxyz" };
        let text = |draw: &mut Draw| (0..parts).map(|_| vec![draw.pick_byte(letters)]).collect::<Vec<_>>().join(&b'.');
        let query = Query { name: text(draw), class: text(draw) };
        let skips = draw.between(4, 7);
        let lines: Vec<Vec<u8>> =
            (0..6).map(|n| [aligned_key(draw, &query, skips), format!(":{n}").into_bytes()].concat()).collect();
        both.ask(&Source::plain(&lines.join(&b'\n')), &[query])
    })
}

/// Each file of an archive struck off.
fn struck_off(both: &mut Both, seed: u64) -> Result<(), String> {
    let draw = &mut Draw::new(seed, "struck off");
    (0..5_000).try_for_each(|_| {
        let (source, query) = archives::source(draw);
        let queries = and_others(draw, query);
        let count = judge(&source.archive).expect("a good archive").files.len();
        (0..count).try_for_each(|which| both.strike(&source, which, &queries))
    })?;
    both.some_moved()
}

/// The texts of all images, which must read as the entries that they were written for. Those over 32,768 bytes are left out.
fn written_out(both: &mut Both, seed: u64) -> Result<(), String> {
    images::FAMILIES.iter().try_for_each(|(_, family)| {
        family(Extent { seed, times: 1 }, &mut |image| {
            let Some(entries) = image.entries() else { return Ok(()) };
            let text =
                writing::text(&image.contents, &image.bodies).map_err(|refusal| format!("refused {}", refusal.number()))?;
            both.read_again(&text, &entries)
        })
    })
}

/// Every combination of texts to choose from, each by a process of its own. Of the texts that cannot be read every one is once a
/// directory and once not there; where both that HOME would hold are so, HOME is also once not set.
fn every_start_up(both: &mut Both, _: u64) -> Result<(), String> {
    const TEXTS: [&[u8]; 5] = [
        b"*from: property\n#include \"x/../p\"\n*last: \\1",
        b"*from: xresources\n#include \"./d/p\"\n*last: 1\\",
        b"*from: xdefaults\n*last:1\n#include \"p\"",
        b"01*named: xenvironment\n#include \"d/p\"\n#include \"d/../p\"",
        b"n*host: desk\n#include \"././p\"\n!",
    ];
    let archive =
        archive_of(&[(b"p", b"*p: 1\n#include \"./d/p\""), (b"d/p", b"*d.p: 2\n#include \"../d/q\""), (b"d/q", b"*q: 3")]);
    for combination in (0..Combination::COUNT).map(Combination::nth) {
        let mut texts = TEXTS.iter();
        let start_up = combination.start_up(|| texts.next().expect("five texts").to_vec());
        let Combination { xresources, xdefaults, xenvironment, host, .. } = combination;
        let unreadable =
            [xresources, xdefaults, xenvironment.unwrap_or(Found::Text), host].map(|found| found == Found::Unreadable);
        for turn in 0..16 {
            let mut setting = Setting::nth(turn, &start_up);
            if setting.directories.iter().zip(unreadable).any(|(is_directory, unreadable)| *is_directory && !unreadable) {
                continue;
            }
            setting.home = if turn % 2 == 0 { Home::Absolute } else { Home::Empty };
            both.start(&start_up, &archive, setting)?;
        }
        if unreadable[..2] == [true, true] {
            let setting = Setting { directories: [false; 4], home: Home::Unset, named: Named::Bare };
            both.start(&start_up, &archive, setting)?;
        }
    }
    every_combination(&both.counts.combinations)
}

/// Chains chosen by hand, each laid before the Rust in many ways.
fn named_chains(both: &mut Both, _: u64) -> Result<(), String> {
    let queries = [Query::new(b"a", b""), Query::new(b"b", b""), Query::new(b"first", b"second"), Query::new(b"q", b"")];
    let named = named_chains::named();
    (0..48).try_for_each(|_| named.iter().try_for_each(|named| both.ask(&named.source, &queries)))
}

fn chains_at_the_limits(both: &mut Both, _: u64) -> Result<(), String> {
    let query = [Query::new(b"a", b"")];
    named_chains::at_limits()
        .iter()
        .try_for_each(|edge| both.ask(&edge.source, &query).map_err(|why| format!("{}: {why}", edge.label)))
}

fn random_chains(both: &mut Both, seed: u64) -> Result<(), String> {
    chains::in_turn(Extent { seed, times: 1 }, "chains beside", 12, |draw, combination| {
        let (source, query) = chains::chain(draw, combination);
        both.ask(&source, &[query])
    })?;
    every_combination(&both.counts.combinations)
}

/// Each file of a chain's archive struck off.
fn chains_struck_off(both: &mut Both, seed: u64) -> Result<(), String> {
    let extent = Extent { seed, times: 1 };
    chains::STRIKES
        .iter()
        .try_for_each(|(_, family)| family(extent, &mut |source, which, queries| both.strike(source, which, queries)))?;
    both.some_moved()
}

//! Tests of a board by name: buffers of every length about the right one, the order of refusals, and full boards.

use crate::board_buffers::{Shape, SHAPES};
use crate::boards::{Boards, Calls};
use cases::boards::{family, Turn};
use cases::images::Image;
use cases::readings::Extent;
use model::limits::{BOARD_BYTES, BOARD_WORDS, BODIES_BYTES, CONTENTS_WORDS, PACKS, QUERIES, QUERY_BYTES};
use records::Query;
use std::rc::Rc;

type Test = fn(Calls) -> Result<String, String>;

const TESTS: [(&str, Test); 4] = [
    ("boards in short buffers", short_buffers),
    ("boards: order of refusals", order_of_refusals),
    ("boards: a seventeenth pack and a thirty-third query", full),
    ("boards of garbage", garbage),
];

pub fn names() -> impl Iterator<Item = &'static str> {
    TESTS.iter().map(|(name, _)| *name)
}

/// Runs a test on the calls, or none if there is no such test.
pub fn test(name: &str, calls: Calls) -> Option<Result<String, String>> {
    TESTS.iter().find(|(of, _)| *of == name).map(|(_, test)| test(calls))
}

fn one_entry() -> Rc<Image> {
    Rc::new(Image::of(&[(b".a".to_vec(), b"x".to_vec())]))
}

fn calls_of_all_kinds() -> Vec<Turn> {
    vec![
        Turn::Make,
        Turn::Watch(Query::new(b"a", b"")),
        Turn::Arrive(7, one_entry()),
        Turn::Arrive(7, Rc::new(Image { contents: vec![], bodies: vec![] })),
        Turn::Leave(9),
        Turn::Leave(7),
    ]
}

/// 1 comes first, at the making too.
fn short_buffers(calls: Calls) -> Result<String, String> {
    let mut boards = Boards::new(calls, 1);
    let words = (0..40).chain(BOARD_WORDS - 40..BOARD_WORDS).map(|words| (words, BOARD_BYTES));
    let bytes = (0..40).chain(BOARD_BYTES - 40..BOARD_BYTES).map(|bytes| (BOARD_WORDS, bytes));
    let mut count = 0;
    for (words, bytes) in words.chain(bytes).chain([(0, 0), (BOARD_WORDS - 1, BOARD_BYTES - 1)]) {
        boards.lend(Shape { words, bytes, at_end: count % 2 == 0 });
        for turn in calls_of_all_kinds() {
            boards
                .change(&turn)
                .and_then(|()| boards.ask_all())
                .map_err(|why| format!("{words} words and {bytes} bytes: {why}"))?;
        }
        count += 1;
    }
    Ok(format!("{count} lengths"))
}

/// 1, 8, 13, then 9 or 14: two that hold at once, and the first is told.
fn order_of_refusals(calls: Calls) -> Result<String, String> {
    let mut boards = Boards::new(calls, 1);
    let no_image = Rc::new(Image { contents: vec![0; CONTENTS_WORDS - 1], bodies: vec![0; BODIES_BYTES] });
    let short_bodies = Rc::new(Image { contents: vec![0; CONTENTS_WORDS], bodies: vec![0; BODIES_BYTES - 1] });
    let long = Turn::Watch(Query::new(&[b'a'; QUERY_BYTES + 1], b".a"));
    let many = Turn::Watch(Query::new(&b"a.".repeat(33), b""));
    let malformed_and_many = Turn::Watch(Query::new(&b"a.".repeat(33), b".a"));
    let asked = [
        long,
        many,
        malformed_and_many,
        Turn::Arrive(0, no_image),
        Turn::Arrive(0, short_bodies),
        Turn::Arrive(0, one_entry()),
        Turn::Arrive(1, one_entry()),
        Turn::Leave(0),
        Turn::Leave(4_000),
    ];
    let filled = (1..=PACKS as u16).map(|number| Turn::Arrive(number, one_entry()));
    let watched = (0..QUERIES).map(|_| Turn::Watch(Query::new(b"a", b"")));
    let made: Vec<Turn> = [Turn::Make].into_iter().chain(filled).chain(watched).collect();
    boards.see(&[&[Turn::Make][..], &asked].concat())?;
    boards.see(&[&made[..], &asked].concat())?;
    // A full board that is none is refused by 8.
    boards.see(&[&made[..], &[Turn::Word(66, 0)], &asked].concat())?;
    boards.see(&[&made[..], &[Turn::Word(1, 33)], &asked].concat())?;
    Ok("four boards".to_string())
}

fn full(calls: Calls) -> Result<String, String> {
    let mut boards = Boards::new(calls, 1);
    family("crowded").ok_or("no such family")?(Extent { seed: 1, times: 1 }, &mut |history| boards.see(history))?;
    boards.counts.report()
}

/// Garbage is no board, whatever it is, and a making makes one of it.
fn garbage(calls: Calls) -> Result<String, String> {
    const SEEDS: u64 = 4;
    for seed in 0..SEEDS {
        let mut boards = Boards::new(calls, seed);
        for shape in SHAPES {
            boards.lend(shape);
            for turn in calls_of_all_kinds().iter().skip(1).chain(&calls_of_all_kinds()) {
                boards.change(turn).and_then(|()| boards.ask_all())?;
            }
        }
    }
    Ok(format!("{} shapes, each in {SEEDS} kinds of garbage", SHAPES.len()))
}

/// What a faulty call is held to.
pub fn whole_comparison(calls: Calls) -> Result<(), String> {
    names().try_for_each(|name| test(name, calls).expect("a test").map(drop))?;
    let mut boards = Boards::new(calls, 1);
    ["edges", "histories", "equal-keys", "random", "damaged"].into_iter().try_for_each(|name| {
        let family = family(name).ok_or("no such family")?;
        family(Extent { seed: 1, times: 1 }, &mut |history| boards.see(history))
    })
}

//! Which cases are recorded, and the files that they go into.

use crate::both::is_admitted;
use crate::rust::Room;
use cases::chains::{chain, Combination};
use cases::damage::damage_text;
use cases::draw::Draw;
use cases::limits::edges;
use cases::named::{named, small};
use cases::words::words;
use cases::{archives, dotted, named_chains, realistic, texts};
use model::archive::judge;
use records::{write_line, Answer, Case, Kind, Query, Source};
use std::collections::BTreeSet;
use std::path::Path;

/// Drawn cases are kept short; only those at the limits may be longer than this.
const SHORT_LINE: usize = 1_000;
const LONG_LINE: usize = 8_000;
const LONGEST_LINE: usize = 70_500;
const SHORT_CHAIN: usize = 360;

/// Of the chains at the limits the few that are recorded, as they are long.
const RECORDED_CHAINS: [&str; 4] = ["256 entries in each", "4,096 opens in two texts", "100 depths in each", "16 parts in each"];

/// Long cases that are compared but not recorded: they would show little that the others do not.
const NOT_RECORDED: [&str; 3] = ["a comment of 32,768", "bindings of 32,768", "a full store and a line that makes no entry"];

/// Writes every file anew below the folder of the crates, and tells how many answers there are.
pub fn record(folder: &str, seed: u64, room: &mut Room) -> Result<String, String> {
    let mut count = 0;
    let mut write_for = |replay: &str, name: &str, lines: Vec<String>| {
        count += lines.len();
        let data = Path::new(folder).join(replay).join("data");
        let path = data.join(name);
        let written = std::fs::create_dir_all(&data).and_then(|()| std::fs::write(&path, lines.join("\n") + "\n"));
        written.map_err(|error| format!("{}: {error}", path.display()))
    };
    write_for("replay_default", "default.txt", chains(room, &mut Draw::new(seed, "default.txt"))?)?;
    let mut write = |name: &str, lines: Vec<String>| write_for("replay", name, lines);
    let draw = |stream: &str| Draw::new(seed, stream);

    write("small.txt", chosen(room, small())?)?;
    write("named.txt", chosen(room, named())?)?;
    let (usual, long) = at_the_limits(room);
    write("limits.txt", usual)?;
    write("long.txt", long)?;
    write("keys.txt", chosen(room, every_short_key())?)?;
    write("values.txt", chosen(room, every_short_value())?)?;
    write("lines.txt", drawn(room, 1_000, &mut draw("lines.txt"), random_lines))?;
    write("includes.txt", includes(room, 600, &mut draw("includes.txt")))?;
    write("lookups.txt", drawn(room, 1_200, &mut draw("lookups.txt"), random_lookup))?;
    write("struck.txt", struck_off(room, 101, &mut draw("struck.txt")))?;
    write("readings.txt", drawn(room, 700, &mut draw("readings.txt"), random_reading))?;
    write("damaged.txt", drawn(room, 500, &mut draw("damaged.txt"), damaged_case))?;
    write("realistic.txt", drawn(room, 100, &mut draw("realistic.txt"), realistic_case))?;
    Ok(format!("{count} answers"))
}

fn line(room: &mut Room, case: &Case) -> String {
    write_line(case, &room.answer(case))
}

/// The lines of cases chosen by hand, each of which must be admitted.
fn chosen(room: &mut Room, cases: Vec<Case>) -> Result<Vec<String>, String> {
    let admitted = |case: &Case| is_admitted(case).then_some(()).ok_or(format!("not admitted: {case:?}"));
    cases.iter().map(|case| admitted(case).map(|()| line(room, case))).collect()
}

/// So many lines of drawn cases: admitted, short, and no line twice. Of the lookups that find
/// nothing three in four are passed over.
fn drawn(room: &mut Room, count: usize, draw: &mut Draw, case: impl Fn(&mut Draw) -> Case) -> Vec<String> {
    drawn_within(room, count, SHORT_LINE, draw, case)
}

fn drawn_within(room: &mut Room, count: usize, longest: usize, draw: &mut Draw, case: impl Fn(&mut Draw) -> Case) -> Vec<String> {
    let mut lines = Vec::new();
    let mut seen = BTreeSet::new();
    while lines.len() < count {
        let case = case(draw);
        if !is_admitted(&case) {
            continue;
        }
        let answer = room.answer(&case);
        let idle =
            matches!(&answer, Answer::Bytes(None)) || matches!(&answer, Answer::Read { entries, .. } if entries.is_empty());
        let line = write_line(&case, &answer);
        if idle && !draw.one_in(4) || line.len() > longest || !seen.insert(line.clone()) {
            continue;
        }
        lines.push(line);
    }
    lines
}

/// The readings and lookups at the limits: usual lines, and long ones.
fn at_the_limits(room: &mut Room) -> (Vec<String>, Vec<String>) {
    let mut cases = Vec::new();
    for edge in edges().into_iter().filter(|edge| !NOT_RECORDED.contains(&edge.label)) {
        cases.push(Case::read(edge.source.clone()));
        for query in edge.queries {
            for kind in [Kind::Bytes, Kind::Bool] {
                cases.push(Case::ask(kind, edge.source.clone(), query.clone()));
            }
        }
    }
    let mut lines: Vec<String> = Vec::new();
    for case in cases.iter().filter(|case| is_admitted(case)) {
        let line = line(room, case);
        if line.len() <= LONGEST_LINE && !lines.contains(&line) {
            lines.push(line);
        }
    }
    lines.into_iter().partition(|line| line.len() <= LONG_LINE)
}

/// So many readings with archives: those of the names with dots chosen by hand that are admitted and short, and drawn ones, of
/// which one in four has dots in each of its includes.
fn includes(room: &mut Room, count: usize, draw: &mut Draw) -> Vec<String> {
    let cases = dotted::edges().into_iter().map(|edge| Case::read(edge.source)).filter(is_admitted);
    let mut lines: Vec<String> = cases.map(|case| line(room, &case)).filter(|line| line.len() <= SHORT_LINE).collect();
    lines.dedup();
    let left = count - lines.len();
    lines.extend(drawn(room, left, draw, |draw| {
        let source = if draw.one_in(4) { dotted::source(draw) } else { archives::source(draw) };
        Case::read(source.0)
    }));
    lines
}

fn every_short_key() -> Vec<Case> {
    let text = |key: Vec<u8>| Case::read(Source::plain(&[key, b":x".to_vec()].concat()));
    words(b"a?.*", 4).into_iter().map(text).collect()
}

fn every_short_value() -> Vec<Case> {
    let text = |value: Vec<u8>| Case::read(Source::plain(&[b"a:".to_vec(), value].concat()));
    words(b"\\078na \t\n", 3).into_iter().map(text).collect()
}

fn random_lines(draw: &mut Draw) -> Case {
    let query = texts::query(draw);
    Case::read(Source::plain(&texts::text(draw, 3, &query)))
}

fn random_lookup(draw: &mut Draw) -> Case {
    let (source, query) = random_pair(draw, 6);
    Case::ask(Kind::Bytes, source, query)
}

/// A source, one in four with an archive, and a query that it may answer.
fn random_pair(draw: &mut Draw, most_lines: usize) -> (Source, Query) {
    if draw.one_in(4) {
        return archives::source(draw);
    }
    let query = texts::query(draw);
    (Source::plain(&texts::text(draw, most_lines, &query)), query)
}

/// So many lines: one query before and after each file of its archive is struck off. A group that does not fit, or that leaves
/// room for one line alone, is passed over.
fn struck_off(room: &mut Room, count: usize, draw: &mut Draw) -> Vec<String> {
    let mut lines = Vec::new();
    while lines.len() < count {
        let (source, query) = archives::source(draw);
        let whole = Case::ask(Kind::Bytes, source.clone(), query.clone());
        let files = judge(&source.archive).expect("a good archive").files.len();
        let cases: Vec<Case> = (0..files).map(|which| Case::ask(Kind::Bytes, source.struck(which), query.clone())).collect();
        if !is_admitted(&whole) || cases.iter().all(|case| room.answer(case) == room.answer(&whole)) {
            continue;
        }
        let group: Vec<String> = [whole].iter().chain(&cases).map(|case| line(room, case)).collect();
        let left = count - lines.len();
        let fits = group.len() <= left && group.len() + 1 != left;
        if fits && group.iter().all(|line| line.len() <= SHORT_LINE) {
            lines.extend(group);
        }
    }
    lines
}

/// A value as a string, a boolean or a number.
fn random_reading(draw: &mut Draw) -> Case {
    let value = if draw.one_in(3) { texts::value(draw) } else { texts::word(draw) };
    let kind = [Kind::String, Kind::Bool, Kind::Bool, Kind::Value, Kind::Value][draw.below(5)];
    let query = if draw.one_in(20) { Query::new(b"b", b"") } else { Query::new(b"a", b"") };
    Case::ask(kind, Source::plain(&[b"a:".to_vec(), value].concat()), query)
}

fn damaged_case(draw: &mut Draw) -> Case {
    let (mut source, query) = random_pair(draw, 4);
    damage_text(draw, &mut source);
    if draw.one_in(2) {
        Case::read(source)
    } else {
        Case::ask(Kind::Bytes, source, query)
    }
}

fn realistic_case(draw: &mut Draw) -> Case {
    let kind = [Kind::Bytes, Kind::Bytes, Kind::String, Kind::Bool, Kind::Value][draw.below(5)];
    let source = realistic::source(draw, 12);
    Case::ask(kind, source, realistic::query(draw))
}

/// Chains: those chosen by hand, some at the limits, and random ones.
fn chains(room: &mut Room, draw: &mut Draw) -> Result<Vec<String>, String> {
    let mut cases: Vec<Case> = named_chains::named().into_iter().map(|named| Case::read(named.source)).collect();
    for label in RECORDED_CHAINS {
        let edge = named_chains::at_limits().into_iter().find(|edge| edge.label == label).ok_or(format!("no chain: {label}"))?;
        cases.push(Case::read(edge.source));
    }
    let mut lines = chosen(room, cases)?;
    lines.extend(drawn_within(room, 150, SHORT_CHAIN, draw, random_chain));
    Ok(lines)
}

fn random_chain(draw: &mut Draw) -> Case {
    let combination = Combination::nth(draw.below(Combination::COUNT));
    Case::read(chain(draw, combination).0)
}

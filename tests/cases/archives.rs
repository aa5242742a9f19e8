//! Random archives whose files include each other, and texts that include them.

use crate::dotted::way;
use crate::draw::Draw;
use crate::texts;
use model::archive::{folder, lay_out, File};
use records::{Query, Source};

/// Names for files, and for includes to look for. Most archives draw from the first few.
const NAMES: [&[u8]; 16] = [
    b"p", b"q", b"d/p", b"d/q", b"d/e/p", b"e/p", b"d/d/p", b"r", b"..p", b"p.", b"-", b"a_b/c.d", b"...", b"d/e/e/q", b"P", b"d",
];

/// Draws a text of at most so many lines for a query.
pub(crate) type Write = fn(&mut Draw, usize, &Query) -> Vec<u8>;

/// Draws a name for an include of one of these files from a folder.
pub(crate) type Name = fn(&mut Draw, &[Vec<u8>], &[u8]) -> Vec<u8>;

/// How lines and includes are drawn.
#[derive(Clone, Copy)]
pub(crate) struct Style {
    pub write: Write,
    pub name: Name,
}

/// Lines of every kind, and names of which some have dots.
pub(crate) const USUAL: Style = Style { write: texts::text, name: include_name };

/// The same with few values, so that entries often carry the same bytes.
pub(crate) const OF_FEW_VALUES: Style = Style { write: texts::text_of_few_values, name: include_name };

/// A main text with an archive, and a query with which many of their entries align.
pub fn source(draw: &mut Draw) -> (Source, Query) {
    source_of(draw, USUAL)
}

/// The same with few values.
pub fn source_of_few_values(draw: &mut Draw) -> (Source, Query) {
    source_of(draw, OF_FEW_VALUES)
}

pub(crate) fn source_of(draw: &mut Draw, style: Style) -> (Source, Query) {
    let query = texts::query(draw);
    let names = names(draw);
    let mut text = (style.write)(draw, 2, &query);
    for _ in 0..draw.between(1, 3) {
        put_include(draw, &mut text, &names, b"", style.name);
        text.extend((style.write)(draw, 2, &query));
    }
    (Source::text(text, archive(draw, &names, &query, style)), query)
}

/// An archive of files with these names that include each other.
pub(crate) fn archive(draw: &mut Draw, names: &[Vec<u8>], query: &Query, style: Style) -> Vec<u8> {
    let file = |name: &Vec<u8>| File { name: name.clone(), body: body(draw, names, name, query, style) };
    lay_out(&names.iter().map(file).collect::<Vec<File>>())
}

/// One to five names in the order that an archive asks for.
pub(crate) fn names(draw: &mut Draw) -> Vec<Vec<u8>> {
    let reach = if draw.one_in(3) { NAMES.len() } else { 7 };
    let mut names = Vec::new();
    for _ in 0..draw.between(1, 5) {
        names.push(if draw.one_in(40) { long_name(draw, 96) } else { NAMES[draw.below(reach)].to_vec() });
    }
    names.sort();
    names.dedup();
    names
}

/// A name of this many bytes, in parts that a file system can hold.
fn long_name(draw: &mut Draw, length: usize) -> Vec<u8> {
    let mut name: Vec<u8> = (0..length).map(|at| if at % 60 == 59 { b'/' } else { draw.pick_byte(b"pq-_.9Z") }).collect();
    // Neither end is a `/`, and no part is only dots.
    for at in (0..length).step_by(60).chain([length - 1]) {
        name[at] = b'n';
    }
    name
}

fn body(draw: &mut Draw, names: &[Vec<u8>], name: &[u8], query: &Query, style: Style) -> Vec<u8> {
    // Mostly files after this one, so that not every archive goes round in circles.
    let later = names.iter().position(|of| of == name).map_or(0, |at| at + 1);
    let names = if draw.one_in(4) { names } else { &names[later..] };
    let mut body = (style.write)(draw, 2, query);
    for _ in 0..[0, 1, 1, 2][draw.below(4)] {
        put_include(draw, &mut body, names, folder(name), style.name);
        body.extend((style.write)(draw, 1, query));
    }
    body
}

/// Puts an include on a line of its own; seldom one that misses being an include.
pub(crate) fn put_include(draw: &mut Draw, text: &mut Vec<u8>, names: &[Vec<u8>], folder: &[u8], name: Name) {
    if !text.is_empty() && !text.ends_with(b"\n") {
        text.push(b'\n');
    }
    let name = name(draw, names, folder);
    let spaces = |draw: &mut Draw| draw.pick(&[b"".as_slice(), b" ", b" ", b"  "]).to_vec();
    let mut line =
        [b"#".to_vec(), spaces(draw), b"include".to_vec(), spaces(draw), b"\"".to_vec(), name, b"\"".to_vec()].concat();
    match draw.below(30) {
        0 => line.extend(b" a:1"),
        1 => line.truncate(line.len() - 1),
        2 => line.insert(1, b'\t'),
        3 => line.insert(0, b' '),
        4 => line.push(b'"'),
        5 => line = line.to_ascii_uppercase(),
        6 => line.insert(draw.below(line.len()), b'\n'),
        _ => {}
    }
    text.extend(line);
    text.push(b'\n');
}

/// Mostly a name that is found from the folder, in one of three by dots.
pub(crate) fn include_name(draw: &mut Draw, names: &[Vec<u8>], folder: &[u8]) -> Vec<u8> {
    let from_folder = |name: &Vec<u8>| match folder {
        [] => Some(name.clone()),
        _ => name.strip_prefix(folder)?.strip_prefix(b"/").map(<[u8]>::to_vec),
    };
    let found: Vec<Vec<u8>> = names.iter().filter_map(from_folder).collect();
    match draw.below(100) {
        0 => Vec::new(),
        1 => long_name(draw, 97),
        2 => vec![b'x'; draw.between(254, 300)],
        3 => draw.pick(&[b"./p".as_slice(), b"../p", b"d//p", b"d/", b"/p", b"d/../p", b"p\x00", b"\xff", b"p q"]).to_vec(),
        4..=15 => NAMES[draw.below(NAMES.len())].to_vec(),
        16..=44 if !names.is_empty() => {
            let file = draw.below(names.len());
            way(draw, folder, &names[file])
        }
        _ if found.is_empty() => NAMES[draw.below(NAMES.len())].to_vec(),
        _ => found[draw.below(found.len())].clone(),
    }
}

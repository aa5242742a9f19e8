//! Includes by names with dots, document 02 (iii): paths chosen by hand for each of its sentences, all short names, and
//! random ways to a file.

use crate::archives::{self, Style};
use crate::draw::Draw;
use crate::limits::{edge, joined, repeated, Edge};
use crate::readings::{Extent, See, Seen};
use crate::slips::{decoys, slipped, Slip, SLIPS};
use crate::words::each_word;
use crate::{struck, texts};
use model::archive::{is_built_like_a_name, judge, Archive};
use model::limits::FILE_NAME_BYTES;
use model::paths::{follow, join, target};
use records::{archive_of, Query, Source};
use std::collections::BTreeSet;

/// A name that is included from a folder, and what it must look for, if anything.
pub struct Path {
    pub label: &'static str,
    pub folder: Vec<u8>,
    pub name: Vec<u8>,
    pub target: Option<Vec<u8>>,
}

/// Of these paths the first part of the name is a file too.
const THROUGH_A_FILE: &str = "two dots remove a file's name";

fn include(name: &[u8]) -> Vec<u8> {
    [b"#include \"", name, b"\"\n"].concat()
}

/// A name of this many bytes, in parts that a file system can hold.
fn long(length: usize) -> Vec<u8> {
    (0..length).map(|at| if at % 60 == 59 && at + 1 < length { b'/' } else { b'n' }).collect()
}

/// The sentences of the request, each with the paths that it is about.
pub fn paths() -> Vec<Path> {
    let mut paths: Vec<Path> = short_paths();
    paths.extend(long_paths());
    paths
}

fn short_paths() -> Vec<Path> {
    type Row = (&'static str, &'static [u8], Option<&'static [u8]>);
    let table: [(&str, &[Row]); 11] = [
        (
            "a dot is dropped",
            &[
                ("", b"./p", Some(b"p")),
                ("", b"././p", Some(b"p")),
                ("", b"d/./p", Some(b"d/p")),
                ("a", b"./p", Some(b"a/p")),
                ("a", b"b/././c", Some(b"a/b/c")),
            ],
        ),
        (
            "two dots remove the part before them",
            &[
                ("", b"d/../p", Some(b"p")),
                ("", b"d/e/../p", Some(b"d/p")),
                ("", b"d/e/../../p", Some(b"p")),
                ("", b"d/../e/../p", Some(b"p")),
                ("", b"d/./../p", Some(b"p")),
                ("", b"d/.././p", Some(b"p")),
            ],
        ),
        (
            "over folder and name joined",
            &[
                ("a", b"../p", Some(b"p")),
                ("a/b", b"../p", Some(b"a/p")),
                ("a/b", b"../../p", Some(b"p")),
                ("a/b/c", b"../../p", Some(b"a/p")),
                ("a/b", b"../b/p", Some(b"a/b/p")),
                ("a/b", b"c/../../d/../p", Some(b"a/p")),
                ("a/b", b"../../../p", None),
            ],
        ),
        (
            "going above the root finds nothing",
            &[
                ("", b"../p", None),
                ("", b"./../p", None),
                ("", b"d/../../p", None),
                ("", b"d/../../d/p", None),
                ("", b"../d/../p", None),
                ("a", b"../../p", None),
                ("a", b"../../a/p", None),
            ],
        ),
        (
            "an empty part finds nothing",
            &[
                ("", b"", None),
                ("", b"/", None),
                ("", b"/p", None),
                ("", b"p/", None),
                ("", b"d//p", None),
                ("", b"d//../p", None),
                ("", b"d/x/..//p", None),
                ("", b"/../p", None),
                ("", b".//p", None),
                ("a", b"", None),
                ("a", b"/p", None),
                ("a", b"..//p", None),
            ],
        ),
        (
            "a last dot finds nothing",
            &[("", b".", None), ("", b"p/.", None), ("", b"d/.", None), ("a", b".", None), ("a/p", b".", None)],
        ),
        (
            "two last dots find nothing",
            &[("", b"..", None), ("", b"p/x/..", None), ("", b"d/..", None), ("a", b"..", None), ("p/a", b"..", None)],
        ),
        (
            "a part of other dots is a name",
            &[
                ("", b"...", Some(b"...")),
                ("", b".../p", Some(b".../p")),
                ("", b".../../p", Some(b"p")),
                ("", b"..p/.p", Some(b"..p/.p")),
                ("", b"./..p", Some(b"..p")),
                ("", b"../...", None),
                ("...", b"../p.", Some(b"p.")),
                ("a", b"..../p", Some(b"a/..../p")),
            ],
        ),
        (
            "two dots remove a part that no file's name has",
            &[
                ("", b"a b/../p", Some(b"p")),
                ("", b"\xff/../p", Some(b"p")),
                ("", b"d/*:?/../p", Some(b"d/p")),
                ("", b"\x00/../p", Some(b"p")),
                ("", b"\\/../p", Some(b"p")),
                ("a", b"\xc3\xa9/.././p", Some(b"a/p")),
            ],
        ),
        (
            THROUGH_A_FILE,
            &[
                ("", b"p/../q", Some(b"q")),
                ("", b"p/../p", Some(b"p")),
                ("", b"p/x/../../q", Some(b"q")),
                ("a", b"i/../q", Some(b"a/q")),
            ],
        ),
        (
            "two dots remove what is no folder",
            &[("", b"x/../p", Some(b"p")), ("", b"x/y/../../p", Some(b"p")), ("a", b"x/../p", Some(b"a/p"))],
        ),
    ];
    let path = |label: &'static str, (folder, name, target): &Row| Path {
        label,
        folder: folder.as_bytes().to_vec(),
        name: name.to_vec(),
        target: target.map(<[u8]>::to_vec),
    };
    table.iter().flat_map(|(label, rows)| rows.iter().map(move |row| path(label, row))).collect()
}

/// The 96 bytes are asked of the result alone.
fn long_paths() -> Vec<Path> {
    let mut paths = Vec::new();
    let mut put = |label, folder: &[u8], name: Vec<u8>, target: Option<Vec<u8>>| {
        paths.push(Path { label, folder: folder.to_vec(), name, target });
    };
    let dotted = |before: &[u8], name: &[u8]| [before, name].concat();
    for length in [95, 96, 97, 98, 200] {
        let result = (length <= 96).then(|| long(length));
        put("a result of 96 bytes, and of 97", b"", dotted(b"./", &long(length)), result.clone());
        put("a result of 96 bytes, and of 97", b"", dotted(b"x/../", &long(length)), result.clone());
        put("a result of 96 bytes, and of 97", b"a/b", dotted(b"../../", &long(length)), result);
        let below = (length + 4 <= 96).then(|| dotted(b"a/b/", &long(length)));
        put("a result of 96 bytes, and of 97", b"a/b", dotted(b"./", &long(length)), below);
    }
    for length in [92, 93] {
        let result = (length <= 92).then(|| dotted(b"a/b/", &long(length)));
        put("a result of 96 bytes, and of 97", b"a/b", dotted(b"./", &long(length)), result);
    }
    // The name, the path on the way, or a part of it are longer; the last two of these parts are more than a file system holds.
    for length in [92, 93, 94, 96, 97, 255, 256, 1_000] {
        let part = vec![b'x'; length];
        put("two dots remove a long part", b"", dotted(&part, b"/../p"), Some(b"p".to_vec()));
        put("two dots remove a long part", b"a", dotted(&part, b"/../../p"), Some(b"p".to_vec()));
    }
    for times in [20, 48, 300, 400] {
        put("a long path of short parts", b"", dotted(&repeated(b"d/../", times), b"p"), Some(b"p".to_vec()));
        put("a long path of short parts", b"a", dotted(&repeated(b"./", times), b"p"), Some(b"a/p".to_vec()));
        let deep = dotted(&repeated(b"x/", times), &repeated(b"../", times));
        put("a deep path that comes back", b"", dotted(&deep, b"p"), Some(b"p".to_vec()));
    }
    for length in [3_998, 3_999, 4_000, 4_001, 4_096, 5_000, 30_000] {
        let is_even = length % 2 == 0;
        let dots = repeated(b"./", (length - 1) / 2);
        let last: &[u8] = if is_even { b"pp" } else { b"p" };
        put("a path of 4,000 bytes, and longer", b"", dotted(&dots, last), Some(last.to_vec()));
    }
    paths
}

impl Path {
    /// The path's name included from a file of its folder, or from the main text, where the archive holds what it looks for,
    /// and what each of the slips would.
    pub fn source(&self) -> Source {
        let lines = [&include(&self.name)[..], b"z:\n"].concat();
        let includer = join(&self.folder, b"i");
        let mut files: Vec<(Vec<u8>, Vec<u8>)> = Vec::new();
        if !self.folder.is_empty() {
            files.push((includer.clone(), lines.clone()));
        }
        let first =
            self.name.split(|b| *b == b'/').next().filter(|_| self.label == THROUGH_A_FILE).map(|part| join(&self.folder, part));
        let wanted = self.target.iter().cloned().chain(first).chain(decoys(&self.folder, &self.name));
        for name in wanted.filter(|name| is_file_name(name)) {
            if files.iter().all(|(of, _)| *of != name) {
                let body = [b"p: ", &name[..]].concat();
                files.push((name, body));
            }
        }
        with_files(if self.folder.is_empty() { lines } else { include(&includer) }, &files)
    }

    /// What the source gives: the line after the include, and a file's entry if one is found.
    pub fn expected(&self) -> (usize, usize) {
        let found = usize::from(self.target.is_some());
        (1 + found, found + usize::from(!self.folder.is_empty()))
    }
}

fn is_file_name(name: &[u8]) -> bool {
    name.len() <= FILE_NAME_BYTES && is_built_like_a_name(name)
}

fn with_files(text: Vec<u8>, files: &[(Vec<u8>, Vec<u8>)]) -> Source {
    let files: Vec<(&[u8], &[u8])> = files.iter().map(|(name, body)| (&name[..], &body[..])).collect();
    Source::text(text, archive_of(&files))
}

/// Each path, and cases that are more than one: where a found file's own includes look, and the limits on the way.
pub fn edges() -> Vec<Edge> {
    let mut edges: Vec<Edge> = paths().iter().map(|path| edge(path.label, path.source(), Ok(path.expected()))).collect();
    edges.extend(folders_of_found_files());
    edges.extend(limits());
    edges
}

fn folders_of_found_files() -> Vec<Edge> {
    let q: [(&[u8], &[u8]); 3] = [(b"a/q", b"c:1"), (b"d/e/q", b"c:2\nc:3"), (b"q", b"c:4\nc:5\nc:6")];
    let with = |text: &[u8], files: &[(&[u8], &[u8])]| Source::with(&include(text), &[&q[..], files].concat());
    let case = |label, source, entries, opens| edge(label, source, Ok((entries, opens)));
    let up: &[u8] = b"#include \"../q\"";
    vec![
        case("a found file's folder is not the way's", with(b"a/../p", &[(b"p", b"#include \"q\"")]), 3, 2),
        case("a found file's folder is its own", with(b"a/../d/./e/p", &[(b"d/e/p", b"#include \"q\"")]), 2, 2),
        case(
            "a found file's folder is not its includer's",
            with(b"a/i", &[(b"a/i", b"#include \"../p\""), (b"p", b"#include \"q\"")]),
            3,
            3,
        ),
        case("up from a found file's folder", with(b"d/e/../p", &[(b"d/p", up)]), 3, 2),
        case("above the root from a found file's folder", with(b"a/b/../../p", &[(b"p", up)]), 0, 1),
        case("up and up along a chain", with(b"d/e/i", &[(b"d/e/i", b"#include \"../i\""), (b"d/i", up)]), 3, 3),
        case(
            "down and up along a chain",
            with(b"d/./i", &[(b"d/i", b"#include \"e/../e/j\""), (b"d/e/j", b"#include \"../../a/q\"")]),
            1,
            3,
        ),
        case("a folder that is a file too", with(b"a/../a", &[(b"a", b"#include \"a/../a/q\"")]), 1, 2),
    ]
}

fn limits() -> Vec<Edge> {
    let own = |name: &[u8]| Source::with(&include(name), &[(b"p", &[b"a:1\n", &include(name)[..]].concat())]);
    let way = |length: usize| [&vec![b'x'; length][..], b"/../p"].concat();
    let ring = Source::with(&include(b"d/p"), &[(b"d/p", b"a:\n#include \"../q\""), (b"q", b"b:\n#include \"x/../d/./p\"")]);
    let many = |end: &[u8]| {
        let text = [repeated(b"#include \"./p\"\n", 64), end.to_vec()].concat();
        Source::with(&text, &[(b"p", &repeated(b"#include \"d/../q\"\n", 63)), (b"q", b"")])
    };
    let fills = [&b"#include \""[..], &repeated(b"./", 16_378), b"p\""].concat();
    let last = [&b"#include \"x"[..], &repeated(b"x", 32_751), b"/../p\""].concat();
    let deep = joined(b"n", 48, b"/");
    let deepest = [&repeated(b"n/", 47)[..], &repeated(b"../", 47), &deep].concat();
    vec![
        edge("includes itself by a dot", own(b"./p"), Ok((100, 100))),
        edge("includes itself by a folder and back", own(b"d/../p"), Ok((100, 100))),
        edge("includes itself by ways of 3,400 bytes in all", own(&way(30)), Ok((100, 100))),
        edge("includes itself by ways of 6,400 bytes in all", own(&way(60)), Ok((100, 100))),
        edge("two folders that include each other", ring, Ok((100, 100))),
        edge("4,096 opens by dots", many(b""), Ok((0, 4096))),
        edge("4,097 opens by dots", many(b"#include \"./d/../q\""), Err(4)),
        edge("4,096 opens by dots and an include above the root", many(b"#include \"../q\"\na:"), Ok((1, 4096))),
        edge("a name that fills a text", Source::with(&fills, &[(b"p", b"a:")]), Ok((1, 1))),
        edge("a part that fills a text", Source::with(&last, &[(b"p", b"a:")]), Ok((1, 1))),
        edge("48 folders down, up and down", Source::with(&include(&deepest), &[(&deep, b"b:")]), Ok((1, 1))),
    ]
}

// ---- All short names

/// All names of up to so many of the parts, each with this last part, if any.
fn every_name_of(parts: &[&[u8]], most: usize, last: &[&[u8]]) -> Vec<Vec<u8>> {
    let mut names = Vec::new();
    let letters: Vec<u8> = (0..parts.len() as u8).collect();
    each_word(&letters, most, &mut |word| {
        let name: Vec<&[u8]> = word.iter().map(|&letter| parts[letter as usize]).chain(last.iter().copied()).collect();
        if !name.is_empty() {
            names.push(name.join(&b'/'));
        }
    });
    names
}

const DOTS_AND_NAMES: [&[u8]; 5] = [b".", b"..", b"a", b"b", b"..."];
const FOLDERS: [&[u8]; 4] = [b"", b"a", b"a/b", b"a/b/..."];

/// Includes that a source holds at most: an entry for each, and a line after it to tell them apart.
const IN_ONE: usize = 200;

/// Some files, each of one entry that tells its name, and all the names that are included with them from a folder.
struct Many {
    files: Vec<Vec<u8>>,
    folder: Vec<u8>,
    names: Vec<Vec<u8>>,
}

impl Many {
    fn archive(&self) -> Archive {
        let files: Vec<(&[u8], &[u8])> = self.files.iter().map(|name| (&name[..], &b""[..])).collect();
        judge(&archive_of(&files)).expect("names of an archive")
    }

    fn source(&self, names: &[Vec<u8>]) -> Source {
        let line = |(number, name): (usize, &Vec<u8>)| [include(name), format!("n{number}:\n").into_bytes()].concat();
        let lines: Vec<u8> = names.iter().enumerate().flat_map(line).collect();
        let mut files: Vec<(Vec<u8>, Vec<u8>)> =
            self.files.iter().map(|name| (name.clone(), [b"p: ", &name[..]].concat())).collect();
        if self.folder.is_empty() {
            return with_files(lines, &files);
        }
        let includer = join(&self.folder, b"i");
        files.push((includer.clone(), lines));
        with_files(include(&includer), &files)
    }

    /// Calls `see` with the names, many in one source; where that fails, with each by itself, to tell the one.
    fn see(&self, names: &[Vec<u8>], see: See) -> Seen {
        names.chunks(IN_ONE).try_for_each(|some| {
            see(&self.source(some)).or_else(|why| {
                some.iter().try_for_each(|name| see(&self.source(std::slice::from_ref(name))))?;
                Err(why)
            })
        })
    }
}

/// Shelves on which many of the short names find a file, with the folders from which they are included.
fn shelves(most: usize) -> Vec<Many> {
    let names: [&[u8]; 3] = [b"a", b"b", b"..."];
    // A file `p` in every folder of up to three parts.
    let in_every_folder = every_name_of(&names, 3, &[b"p"]);
    // Files with the names that are folders elsewhere.
    let as_elsewhere = [&b"b"[..], b"a/a", b"a/b/b", b"a/b/.../...", b".../a", b".../b/a", b"a/.../b"].map(<[u8]>::to_vec);
    let mut shelves = around_96_bytes();
    for folder in FOLDERS.map(<[u8]>::to_vec) {
        let names = every_name_of(&DOTS_AND_NAMES, most, &[b"p"]);
        shelves.push(Many { files: in_every_folder.clone(), folder: folder.clone(), names });
        shelves.push(Many { files: as_elsewhere.to_vec(), folder, names: every_name_of(&DOTS_AND_NAMES, most, &[]) });
    }
    shelves
}

/// Short names below a folder whose name has nearly 96 bytes: the path passes them, comes back, and passes them again.
fn around_96_bytes() -> Vec<Many> {
    let mut shelves = Vec::new();
    for length in 88..=97 {
        let long = vec![b'n'; length];
        let below = [b"q".as_slice(), b"a/q", b"bbb/q", b"a/a/q", b"a/bbb/q"];
        let files = below.iter().map(|name| join(&long, name)).chain([b"q".to_vec(), b"a/q".to_vec()]);
        let files: Vec<Vec<u8>> = files.filter(|name| is_file_name(name)).collect();
        let names = every_name_of(&[b".", b"..", b"a", b"bbb"], 5, &[b"q"]);
        let from_the_root = names.iter().map(|name| join(&long, name)).collect();
        shelves.push(Many { files: files.clone(), folder: Vec::new(), names: from_the_root });
        if is_file_name(&join(&long, b"i")) {
            shelves.push(Many { files, folder: long, names });
        }
    }
    shelves
}

/// All short names that are admitted to the run beside the Rust.
pub fn every_admitted_name(_: Extent, see: See) -> Seen {
    for many in shelves(6) {
        let archive = many.archive();
        let admitted = |name: &&Vec<u8>| follow(&many.folder, &many.folder, name, &archive, &mut BTreeSet::new()).is_ok();
        let names: Vec<Vec<u8>> = many.names.iter().filter(admitted).cloned().collect();
        many.see(&names, see)?;
    }
    Ok(())
}

/// All short names, admitted or not: with empty parts, through files and above the root.
pub fn every_name(_: Extent, see: See) -> Seen {
    const PARTS: [&[u8]; 7] = [b".", b"..", b"a", b"b", b"", b"p", b" "];
    for many in shelves(5) {
        many.see(&many.names, see)?;
        many.see(&every_name_of(&PARTS, 4, &[]), see)?;
    }
    Ok(())
}

// ---- Random ways

/// Parts on the way that `..` removes again; some are folders or files of most archives.
const DETOURS: [&[u8]; 10] = [b"x", b"x", b"y", b"d", b"e", b"...", b"..x", b"x.", b"a_b", b"d"];

/// A name that leads from a folder to a file, by no more of the folder than both share, with dots and ways there and back.
/// `length` draws how long a part may be that is removed again.
fn way_by(draw: &mut Draw, folder: &[u8], file: &[u8], noise: usize, length: fn(&mut Draw) -> usize) -> Vec<u8> {
    let split = |path: &[u8]| -> Vec<Vec<u8>> { path.split(|b| *b == b'/').map(<[u8]>::to_vec).collect() };
    let from = if folder.is_empty() { Vec::new() } else { split(folder) };
    let to = split(file);
    let shared = from.iter().zip(&to[..to.len() - 1]).take_while(|(from, to)| from == to).count();
    let kept = draw.between(0, shared);
    let straight = from[kept..].iter().map(|_| b"..".to_vec()).chain(to[kept..].iter().cloned());
    let mut parts = Vec::new();
    for part in straight {
        while draw.below(10) < noise {
            put_detour(draw, &mut parts, length);
        }
        parts.push(part);
    }
    parts.join(&b'/')
}

fn put_detour(draw: &mut Draw, parts: &mut Vec<Vec<u8>>, length: fn(&mut Draw) -> usize) {
    if draw.one_in(3) {
        parts.push(b".".to_vec());
        return;
    }
    let depth = [1, 1, 1, 2, 3][draw.below(5)];
    for _ in 0..depth {
        let part = draw.pick(&DETOURS);
        let longer = length(draw).saturating_sub(part.len());
        parts.push([part, &vec![draw.pick_byte(b"xX-_.9"); longer][..]].concat());
        if draw.one_in(8) {
            parts.push(b".".to_vec());
        }
    }
    parts.extend(vec![b"..".to_vec(); depth]);
}

/// A short way for a name of the documents' kind.
pub(crate) fn way(draw: &mut Draw, folder: &[u8], file: &[u8]) -> Vec<u8> {
    way_by(draw, folder, file, 2, |_| 0)
}

/// A name with something in it that keeps it from being found, or the Rust from finding it.
fn broken(draw: &mut Draw, mut name: Vec<u8>, names: &[Vec<u8>]) -> Vec<u8> {
    let slashes: Vec<usize> = (0..name.len()).filter(|at| name[*at] == b'/').collect();
    let at = if slashes.is_empty() { 0 } else { slashes[draw.below(slashes.len())] };
    match draw.below(8) {
        0 => [repeated(b"../", draw.between(1, 4)), name].concat(),
        1 => {
            name.insert(at, b'/');
            name
        }
        2 => [name, draw.pick(&[b"/.".as_slice(), b"/..", b"/", b"/x/.."]).to_vec()].concat(),
        3 => [draw.pick(&[b"a b/../".as_slice(), b"\xff/../", b"\x00/../", b"*/../", b"\xc3\xa9/../"]).to_vec(), name].concat(),
        4 => [vec![b'x'; draw.between(256, 5_000)], b"/../".to_vec(), name].concat(),
        5 if !names.is_empty() => [names[draw.below(names.len())].clone(), b"/../".to_vec(), name].concat(),
        6 => [repeated(b"x/../", draw.between(700, 1_200)), name].concat(),
        _ => draw.pick(&[b".".as_slice(), b"..", b"./..", b"../.", b"/", b"//", b"./", b"../"]).to_vec(),
    }
}

/// A way with dots to one of the names; seldom one that is broken.
pub(crate) fn include_name(draw: &mut Draw, names: &[Vec<u8>], folder: &[u8]) -> Vec<u8> {
    let length: fn(&mut Draw) -> usize = match draw.below(8) {
        0 => |draw| draw.between(1, 255),
        1 => |draw| [90, 96, 97, 254, 255][draw.below(5)],
        _ => |_| 0,
    };
    let noise = [1, 3, 5, 7][draw.below(4)];
    let file = if names.is_empty() || draw.one_in(10) { b"d/e/q" } else { &names[draw.below(names.len())][..] };
    let name = way_by(draw, folder, file, noise, length);
    if draw.one_in(20) {
        return broken(draw, name, names);
    }
    name
}

/// Lines of every kind, or of few values, and includes that all have dots.
pub(crate) const DOTTED: Style = Style { write: texts::text, name: include_name };
pub(crate) const DOTTED_OF_FEW_VALUES: Style = Style { write: texts::text_of_few_values, name: include_name };

/// A main text and an archive whose includes all have dots, and a query with which many of their entries align.
pub fn source(draw: &mut Draw) -> (Source, Query) {
    archives::source_of(draw, DOTTED)
}

pub(crate) fn random_ways(extent: Extent, see: See) -> Seen {
    extent.draw("readings with dots", 3_000, |draw| see(&source(draw).0))
}

pub(crate) fn by_name(_: Extent, see: See) -> Seen {
    edges().iter().try_for_each(|edge| see(&edge.source))
}

/// Each file of such archives struck off.
pub(crate) fn random_struck(extent: Extent, strike: struck::Strike) -> Seen {
    extent.draw("third term with dots", 800, |draw| {
        let (source, query) = archives::source_of(draw, DOTTED_OF_FEW_VALUES);
        struck::each_file(&source, &struck::and_another(draw, query), strike)
    })
}

/// The model's rule and the slips' without a slip are one, and each slip differs from it on some path chosen by hand.
pub fn each_slip_shows() -> Result<String, String> {
    let paths = paths();
    let mut told: BTreeSet<Slip> = BTreeSet::new();
    for path in &paths {
        let archive = judge(&path.source().archive).expect("a good archive");
        let right = slipped(None, &archive, &path.folder, &path.name);
        if right.as_ref().map(|(target, _)| target) != target(&path.folder, &path.name).as_ref() {
            return Err(format!("{}: {:?}", path.label, path.name.escape_ascii().to_string()));
        }
        told.extend(
            SLIPS
                .iter()
                .filter(|(slip, _)| slipped(Some(*slip), &archive, &path.folder, &path.name) != right)
                .map(|(slip, _)| *slip),
        );
    }
    match SLIPS.iter().find(|(slip, _)| !told.contains(slip)) {
        Some((_, label)) => Err(format!("no path tells: {label}")),
        None => Ok(format!("{} paths, {} slips", paths.len(), told.len())),
    }
}

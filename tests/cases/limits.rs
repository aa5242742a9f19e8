//! Cases at document 01's limits and one past them, with what each must give.

use model::archive::{lay_out, File};
use records::{Query, Source};

/// Entries and opens, or the refusal's number.
pub type Expected = Result<(usize, usize), u8>;

pub struct Edge {
    pub label: &'static str,
    pub source: Source,
    pub expected: Expected,
    pub queries: Vec<Query>,
}

pub(crate) fn edge(label: &'static str, source: Source, expected: Expected) -> Edge {
    Edge { label, source, expected, queries: Vec::new() }
}

pub fn edges() -> Vec<Edge> {
    let mut edges = Vec::new();
    edges.extend(parts());
    edges.extend(entries());
    edges.extend(store());
    edges.extend(texts());
    edges.extend(depth());
    edges.extend(opens());
    edges.extend(archives());
    edges.extend(folders());
    edges.extend(order_of_refusals());
    edges.extend(queries());
    edges
}

/// As many copies of `piece`, with `joint` between.
pub(crate) fn joined(piece: &[u8], times: usize, joint: &[u8]) -> Vec<u8> {
    vec![piece.to_vec(); times].join(joint)
}

pub(crate) fn repeated(piece: &[u8], times: usize) -> Vec<u8> {
    joined(piece, times, b"")
}

pub(crate) fn long_key(parts: usize) -> Vec<u8> {
    joined(b"a", parts, b".")
}

/// `a:` and a value of this many bytes: two bytes of key more in the store.
pub(crate) fn long_value(length: usize) -> Vec<u8> {
    [b"a:".to_vec(), vec![b'z'; length]].concat()
}

fn lines(pieces: &[&[u8]]) -> Vec<u8> {
    pieces.join(&b'\n')
}

fn parts() -> Vec<Edge> {
    let line = |parts, end: &[u8]| Source::plain(&[&long_key(parts), end].concat());
    let loose = [repeated(b"*b", 15), b"*a: 1".to_vec()].concat();
    let letters: Vec<Vec<u8>> = (b'a'..=b'p').map(|b| vec![b]).collect();
    let apart = [b"*".to_vec(), letters.join(&b'*'), b": 1".to_vec()].concat();
    vec![
        edge("15 parts", line(15, b": 1"), Ok((1, 0))),
        edge("16 parts", line(16, b": 1"), Ok((1, 0))),
        edge("17 parts", line(17, b":"), Err(5)),
        edge("17 parts and no entry", line(17, b" 1"), Ok((0, 0))),
        edge("17 parts with a last ?", line(16, b".?: 1"), Ok((0, 0))),
        edge("17 parts by adjoining", Source::plain(&[repeated(b"?", 16), b"a:".to_vec()].concat()), Err(5)),
        Edge {
            label: "16 loose parts, each once",
            source: Source::plain(&apart),
            expected: Ok((1, 0)),
            queries: vec![
                Query::new(&letters.join(&b'.'), b""),
                Query::new(&[b"z.", &letters.join(&b".z."[..])[..]].concat(), b""),
                Query::new(b"z.a", &letters.join(&b'.')),
            ],
        },
        Edge {
            label: "16 loose parts",
            source: Source::plain(&loose),
            expected: Ok((1, 0)),
            queries: vec![
                Query::new(&joined(b"b", 15, b"."), b""),
                Query::new(&[joined(b"b", 17, b"."), b".a".to_vec()].concat(), b""),
            ],
        },
    ]
}

fn entries() -> Vec<Edge> {
    let eight = |end: &[u8]| {
        let text = [repeated(b"#include \"p\"\n", 8), end.to_vec()].concat();
        Source::with(&text, &[(b"p", &repeated(b"a:\n", 64))])
    };
    let full = Edge {
        label: "512 lines",
        source: Source::plain(&repeated(b"a:\n", 512)),
        expected: Ok((512, 0)),
        queries: vec![Query::new(b"a", b"")],
    };
    vec![
        edge("511 lines", Source::plain(&repeated(b"a:\n", 511)), Ok((511, 0))),
        full,
        edge("513 lines", Source::plain(&repeated(b"a:\n", 513)), Err(6)),
        edge(
            "512 lines and one that makes no entry",
            Source::plain(&[repeated(b"a:\n", 512), b"a.?:".to_vec()].concat()),
            Ok((512, 0)),
        ),
        edge("512 entries by includes", eight(b""), Ok((512, 8))),
        edge("512 entries by includes and one", eight(b"a:"), Err(6)),
    ]
}

fn store() -> Vec<Edge> {
    let sixteen = |end: &[u8]| {
        let text = [repeated(b"#include \"p\"\n", 16), end.to_vec()].concat();
        Source::with(&text, &[(b"p", &long_value(2046))])
    };
    let fifteen = |last: usize| {
        let text = [repeated(b"#include \"p\"\n", 15), long_value(last)].concat();
        Source::with(&text, &[(b"p", &long_value(2046))])
    };
    let last_wins = Edge {
        label: "store of 32,768",
        source: fifteen(2046),
        expected: Ok((16, 15)),
        queries: vec![Query::new(b"a", b""), Query::new(b"b", b"")],
    };
    vec![
        edge("store of 32,767", fifteen(2045), Ok((16, 15))),
        last_wins,
        edge("store of 32,769", fifteen(2047), Err(7)),
        edge("a store filled by includes", sixteen(b""), Ok((16, 16))),
        edge("a full store and a line that makes no entry", sixteen(b"a"), Ok((16, 16))),
        edge("a full store and an entry", sixteen(b"a:"), Err(7)),
        edge("20,000 bytes twice", Source::with(&repeated(b"#include \"p\"\n", 2), &[(b"p", &long_value(19_998))]), Err(7)),
        edge("a key that fills the store", Source::plain(&[vec![b'a'; 32_767], b":".to_vec()].concat()), Ok((1, 0))),
        edge("escapes shrink the store", Source::plain(&[b"a:".to_vec(), repeated(b"\\101", 8191)].concat()), Ok((1, 0))),
    ]
}

fn texts() -> Vec<Edge> {
    let value = Edge {
        label: "one value of a whole text",
        source: Source::plain(&long_value(32_766)),
        expected: Ok((1, 0)),
        queries: vec![Query::new(b"a", b"")],
    };
    vec![
        edge("an empty text", Source::plain(b""), Ok((0, 0))),
        edge("32,768 newlines", Source::plain(&repeated(b"\n", 32_768)), Ok((0, 0))),
        edge("32,769 newlines", Source::plain(&repeated(b"\n", 32_769)), Err(2)),
        edge("a comment of 32,768", Source::plain(&repeated(b"!", 32_768)), Ok((0, 0))),
        edge("bindings of 32,768", Source::plain(&repeated(b".*", 16_384)), Ok((0, 0))),
        edge("blanks of 32,768", Source::plain(&[b"a:".to_vec(), repeated(b"\\\n", 16_383)].concat()), Ok((1, 0))),
        value,
    ]
}

fn depth() -> Vec<Edge> {
    let own = |body: &[u8]| Source::with(b"#include \"p\"", &[(b"p", body)]);
    let two = Source::with(b"#include \"p\"\nc:", &[(b"p", b"#include \"q\"\na:"), (b"q", b"b:\n#include \"p\"")]);
    let folders = Source::with(b"#include \"d/p\"", &[(b"d/p", b"a:\n#include \"p\"")]);
    let astray = Source::with(b"#include \"d/p\"", &[(b"d/p", b"a:\n#include \"d/p\"")]);
    let branch = Source::with(b"#include \"p\"", &[(b"p", b"#include \"p\"\n#include \"q\""), (b"q", b"a:")]);
    vec![
        edge("includes itself, then an entry", own(b"#include \"p\"\na:1"), Ok((100, 100))),
        edge("an entry, then includes itself", own(b"a:1\n#include \"p\""), Ok((100, 100))),
        edge("two that include each other", two, Ok((101, 100))),
        edge("includes itself in a folder", folders, Ok((100, 100))),
        edge("looks for itself a folder down", astray, Ok((1, 1))),
        edge("a branch at each depth", branch, Ok((99, 199))),
        edge("includes itself twice", own(b"#include \"p\"\n#include \"p\""), Err(4)),
    ]
}

fn opens() -> Vec<Edge> {
    // 64 times p with its 63 q: 4,096 opens.
    let many = |end: &[u8]| {
        let text = [repeated(b"#include \"p\"\n", 64), end.to_vec()].concat();
        Source::with(&text, &[(b"p", &repeated(b"#include \"q\"\n", 63)), (b"q", b"")])
    };
    let deep = |end: &[u8]| {
        let text = [repeated(b"#include \"p\"\n", 40), end.to_vec()].concat();
        Source::with(&text, &[(b"p", b"#include \"p\""), (b"q", b"")])
    };
    let text = [repeated(b"#include \"p\"\n", 40), repeated(b"#include \"q\"\n", 96)].concat();
    let mixed = |end: &[u8]| Source::with(&[&text, end].concat(), &[(b"p", b"#include \"p\""), (b"q", b"")]);
    vec![
        edge("4,096 opens", many(b""), Ok((0, 4096))),
        edge("4,097 opens", many(b"#include \"q\""), Err(4)),
        edge("4,096 opens and a missing file", many(b"#include \"r\"\na:"), Ok((1, 4096))),
        edge("40 times the depth", deep(b""), Ok((0, 4000))),
        edge("41 times the depth", deep(b"#include \"p\"\na:"), Err(4)),
        edge("the depth's end is no open", mixed(b""), Ok((0, 4096))),
        edge("one open past the depths", mixed(b"#include \"q\""), Err(4)),
    ]
}

fn archives() -> Vec<Edge> {
    let names: Vec<Vec<u8>> = (0..65).map(|n| format!("f{n:02}").into_bytes()).collect();
    let includes: Vec<u8> = names.iter().flat_map(|name| [b"#include \"", &name[..], b"\"\n"].concat()).collect();
    let of = |count: usize| -> Vec<File> {
        names[..count].iter().map(|name| File { name: name.clone(), body: [name, b":1".as_slice()].concat() }).collect()
    };
    let one = |name: &[u8], body: &[u8]| File { name: name.to_vec(), body: body.to_vec() };
    let laid = |text: &[u8], files: &[File]| Source::text(text.to_vec(), lay_out(files));
    let name = |length| vec![b'n'; length];
    let include = |name: &[u8]| [b"#include \"", name, b"\""].concat();
    let bad = |label, bytes: &[u8]| edge(label, Source::text(b"a:".to_vec(), bytes.to_vec()), Err(3));
    let body = |length: usize| vec![b'!'; length];
    vec![
        edge("64 files", laid(&includes, &of(64)), Ok((64, 64))),
        edge("65 files", laid(&includes, &of(65)), Err(3)),
        edge("a name of 96 bytes", laid(&include(&name(96)), &[one(&name(96), b"a:")]), Ok((1, 1))),
        edge("a name of 97 bytes", laid(&include(&name(97)), &[one(&name(97), b"a:")]), Err(3)),
        edge("an archive of 65,536 bytes", laid(&include(b"p"), &[one(b"p", &body(65_529))]), Ok((0, 1))),
        edge("an archive of 65,537 bytes", laid(&include(b"p"), &[one(b"p", &body(65_530))]), Err(3)),
        bad("an archive of no bytes", b""),
        bad("an archive of one byte", b"\x00"),
        bad("a byte after the archive", b"\x00\x00\x00"),
        bad("a count too high", b"\x01\x00"),
        bad("a body cut short", b"\x01\x00\x01\x00\x03\x00pb:"),
        bad("a byte after the body", b"\x01\x00\x01\x00\x03\x00pb:12"),
        bad("an empty name", b"\x01\x00\x00\x00\x03\x00b:1"),
        bad("a name of dots", &lay_out(&[one(b"..", b"")])),
        bad("a name with a dot as a part", &lay_out(&[one(b"d/./p", b"")])),
        bad("a name with an empty part", &lay_out(&[one(b"d//p", b"")])),
        bad("a name that begins with /", &lay_out(&[one(b"/p", b"")])),
        bad("a name that ends with /", &lay_out(&[one(b"p/", b"")])),
        bad("a name with a blank", &lay_out(&[one(b"p q", b"")])),
        bad("a name twice", &lay_out(&[one(b"p", b""), one(b"p", b"")])),
        bad("names that fall", &lay_out(&[one(b"q", b""), one(b"p", b"")])),
        bad("a prefix last", &lay_out(&[one(b"pp", b""), one(b"p", b"")])),
        edge("a prefix first", laid(&include(b"pp"), &[one(b"p", b"a:"), one(b"pp", b"b:\nc:")]), Ok((2, 1))),
        edge(
            "names by bytes",
            laid(&include(b"d/p"), &[one(b"d-p", b""), one(b"d.p", b""), one(b"d/p", b"a:"), one(b"dp", b"")]),
            Ok((1, 1)),
        ),
        edge("dots that are no folder", laid(&include(b"..."), &[one(b"...", b"a:")]), Ok((1, 1))),
    ]
}

fn folders() -> Vec<Edge> {
    let include = |name: &[u8]| [b"#include \"", name, b"\""].concat();
    let files: [(&[u8], &[u8]); 4] =
        [(b"d/e/p", b"#include \"q\"\n#include \"e/q\""), (b"d/e/q", b"a:1"), (b"d/e/e/q", b"b:2"), (b"q", b"c:3")];
    let mut edges = vec![
        edge("two folders down", Source::with(&include(b"d/e/p"), &files), Ok((2, 3))),
        edge("a folder is no file", Source::with(&include(b"d/e"), &files), Ok((0, 0))),
        edge("an empty name", Source::with(b"#include \"\"", &files), Ok((0, 0))),
        edge(
            "names that a file system would resolve",
            Source::with(b"#include \"./p\"\n#include \"d/../p\"\n#include \"/p\"\n#include \"p/\"", &[(b"p", b"a:")]),
            Ok((2, 2)),
        ),
        edge("a name that is not UTF-8", Source::with(b"#include \"\xff\"\na:1", &[(b"p", b"b:")]), Ok((1, 0))),
        edge("an empty file", Source::with(&include(b"p"), &[(b"p", b"")]), Ok((0, 1))),
        edge("a file that ends in a backslash", Source::with(b"#include \"p\"\nb:2", &[(b"p", b"a:1\\")]), Ok((2, 1))),
    ];
    for length in [96, 97, 98, 255, 256, 300, 1000, 4000, 4100, 30_000] {
        let text = [include(&vec![b'p'; length]), b"\na:1".to_vec()].concat();
        edges.push(edge("an include of a long name", Source::with(&text, &[(b"p", b"b:")]), Ok((1, 0))));
    }
    let deep = joined(b"n", 48, b"/");
    edges.push(edge("48 folders", Source::with(&include(&deep), &[(&deep, b"#include \"n\"\nb:")]), Ok((100, 100))));
    edges
}

fn order_of_refusals() -> Vec<Edge> {
    let full = repeated(b"a:\n", 512);
    let wide = long_key(17);
    let then = |end: &[u8]| Source::plain(&[&full, end].concat());
    let past = |first: &[u8], body: &[u8], last: &[u8]| Source::with(&lines(&[first, b"#include \"p\"", last]), &[(b"p", body)]);
    let twice: [(&[u8], &[u8]); 1] = [(b"p", b"#include \"p\"\n#include \"p\"")];
    vec![
        edge("a long text before a bad archive", Source::text(repeated(b"\n", 32_769), Vec::new()), Err(2)),
        edge("17 parts in a 513th entry", then(&[&wide, b":".as_slice()].concat()), Err(5)),
        edge("a 513th entry past the store", past(&full, &long_value(32_000), b""), Err(6)),
        edge("17 parts past the store", past(b"", &long_value(32_760), &[&wide, b":".as_slice()].concat()), Err(5)),
        edge(
            "opens before parts",
            Source::with(&lines(&[b"#include \"p\"", &[&wide, b":".as_slice()].concat()]), &twice),
            Err(4),
        ),
        edge(
            "parts before opens",
            Source::with(&lines(&[&[&wide, b":".as_slice()].concat(), b"#include \"p\""]), &twice),
            Err(5),
        ),
    ]
}

fn queries() -> Vec<Edge> {
    let at = |label, text: &[u8], queries: Vec<Query>| Edge { label, source: Source::plain(text), expected: Ok((1, 0)), queries };
    let dotted = |count| joined(b"a", count, b".");
    let long = |length| vec![b'a'; length];
    let key = [long(1024), b":1".to_vec()].concat();
    let wide = [long_key(16), b":1".to_vec()].concat();
    vec![
        at(
            "32 query parts",
            b"*a: 1",
            vec![Query::new(&dotted(32), b""), Query::new(b"", &dotted(32)), Query::new(&dotted(32), &dotted(31))],
        ),
        at(
            "33 query parts",
            b"*a: 1",
            vec![Query::new(&dotted(33), b""), Query::new(b"a", &dotted(33)), Query::new(&dotted(33), b".")],
        ),
        at(
            "1,024 query bytes",
            &key,
            vec![
                Query::new(&long(1024), b""),
                Query::new(b"", &long(1024)),
                Query::new(&[b"a".to_vec(), vec![b'.'; 1023]].concat(), b""),
            ],
        ),
        at(
            "1,025 query bytes",
            &key,
            vec![Query::new(&long(1025), b""), Query::new(b"a", &long(1025)), Query::new(&vec![b'.'; 1025], b"")],
        ),
        at(
            "16 parts of 16",
            &wide,
            vec![Query::new(&dotted(16), b""), Query::new(&dotted(15), b""), Query::new(&dotted(17), b"")],
        ),
    ]
}

//! Families for the buyer's third term: sources with archives, files of them, and queries.

use crate::draw::Draw;
use crate::readings::{Extent, Seen};
use crate::texts;
use crate::{archives, crowded, dotted, realistic};
use model::archive::judge;
use records::{Query, Source};

/// Called with a source, the number of a file of its archive, and queries.
pub type Strike<'a> = &'a mut dyn FnMut(&Source, usize, &[Query]) -> Seen;

pub type Family = fn(Extent, Strike) -> Seen;

pub const FAMILIES: [(&str, Family); 5] = [
    ("archives", random),
    ("few-values", few_values),
    ("dotted", dotted::random_struck),
    ("realistic", like_real_files),
    ("near-limits", near_the_limits),
];

/// Strikes off each file of a source.
pub(crate) fn each_file(source: &Source, queries: &[Query], strike: Strike) -> Seen {
    let count = judge(&source.archive).expect("a good archive").files.len();
    (0..count).try_for_each(|which| strike(source, which, queries))
}

/// The query that a source was drawn for, the same with no class, and another.
pub(crate) fn and_another(draw: &mut Draw, query: Query) -> [Query; 3] {
    let bare = Query::new(&query.name, b"");
    [query, bare, texts::query(draw)]
}

fn random(extent: Extent, strike: Strike) -> Seen {
    extent.draw("third term", 4_000, |draw| {
        let (source, query) = archives::source(draw);
        each_file(&source, &and_another(draw, query), strike)
    })
}

/// Entries that often carry the same bytes.
fn few_values(extent: Extent, strike: Strike) -> Seen {
    extent.draw("third term with few values", 4_000, |draw| {
        let (source, query) = archives::source_of_few_values(draw);
        each_file(&source, &and_another(draw, query), strike)
    })
}

/// What both the realistic lines and the files that they include may set.
const CONTESTED: [(&[u8], &[u8]); 5] = [
    (b"reader.dict.search.range", b"Reader.Dict.Search.Range"),
    (b"reader.dict.range", b"Reader.Dict.Range"),
    (b"xterm.vt100.background", b"XTerm.VT100.Background"),
    (b"xterm.vt100.foreground", b"XTerm.VT100.Foreground"),
    (b"xterm.cursorBlink", b"XTerm.CursorBlink"),
];

fn like_real_files(extent: Extent, strike: Strike) -> Seen {
    extent.draw("third term of real files", 6_000, |draw| {
        let source = realistic::source(draw, 12);
        let (name, class) = CONTESTED[draw.below(CONTESTED.len())];
        each_file(&source, &[Query::new(name, class), realistic::query(draw)], strike)
    })
}

/// Deep chains of includes, many entries and full stores, with a file of each.
fn near_the_limits(extent: Extent, strike: Strike) -> Seen {
    extent.draw("third term near the limits", 1_000, |draw| {
        let source = crowded::source(draw);
        let count = judge(&source.archive).expect("a good archive").files.len();
        if count == 0 {
            return Ok(());
        }
        let queries = [Query::new(b"a", b""), texts::query(draw)];
        strike(&source, draw.below(count), &queries)
    })
}

//! Resource files as people write them, and the queries that programs make of them.

use crate::draw::Draw;
use records::{Query, Source};

const LINES: [&str; 47] = [
    "! Terminal settings",
    "!",
    "",
    "XTerm*background: black",
    "XTerm*foreground:\tgrey90",
    "XTerm.vt100.background: #1d1f21",
    "xterm.VT100.Background: navy",
    "XTerm*VT100*geometry: 100x40",
    "XTerm*saveLines:        4096",
    "xterm*scrollBar: true",
    "XTerm*scrollBar: off",
    "*vt100*scrollBar: Yes",
    "XTerm*faceName: DejaVu Sans Mono:size=11",
    "XTerm*faceSize: 11",
    "XTerm*utf8: 1",
    "XTerm*locale: false",
    "XTerm*selectToClipboard: on",
    "*VT100.Translations: #override \\n\\\n    Ctrl Shift <Key>C: copy-selection(CLIPBOARD) \\n\\\n    Ctrl Shift <Key>V: insert-selection(CLIPBOARD)",
    "XTerm*charClass: 33:48,35:48,37-38:48,\\\n43-47:48,64:48",
    "UXTerm*font: -misc-fixed-medium-r-normal--18-120-100-100-c-90-iso10646-1",
    "*customization: -color",
    "?.vt100.cursorBlink: NO",
    "XTerm?cursorBlink: yes",
    "XTerm.?.cursorBlink: 0",
    "Xft.dpi: 96",
    "Xft.antialias: 1",
    "Xft.hintstyle:  hintslight",
    "Xcursor.size: 24",
    "Xcursor*theme: whiteglass",
    "Emacs.geometry: 80x50",
    "emacs*Background: rgb:d/d/c",
    "Emacs.dialog*.background: grey",
    "emacs.toolBar: -1",
    "URxvt.perl-ext-common: default,matcher",
    "URxvt.colorUL: #4682B4",
    "URxvt*transparent: False",
    "*dict.search.range: book",
    "*search.range: chapter",
    "Reader*range: \\ page",
    "reader.dict?range: line",
    "Reader.title: Caf\\303\\251 \\\\ ol\\351",
    "reader.title: Café\\040du\\40jour",
    "  indented: not an entry",
    "no colon on this line",
    "#define BLACK #000000",
    "#include \"colours/dark\"",
    "#include \"./packs/common\"",
];

const BODIES: [(&str, &str); 4] = [
    ("colours/dark", "*background: #002b36\n*foreground: #839496\n#include \"cursor\"\n"),
    ("colours/cursor", "! Beside dark\nXTerm*cursorColor: #93a1a1\n*cursorBlink: on"),
    (
        "packs/dictionary",
        "Reader.dict.search.range: chapter\n*dict*font: 14\n#include \"./common\"\n#include \"../colours/cursor\"\n",
    ),
    ("packs/common", "*search.wrap: true\n*range: book\n"),
];

const QUERIES: [(&str, &str); 24] = [
    ("xterm.vt100.background", "XTerm.VT100.Background"),
    ("XTerm.vt100.background", "XTerm.VT100.Background"),
    ("xterm.vt100.foreground", "XTerm.VT100.Foreground"),
    ("xterm.vt100.geometry", "XTerm.VT100.Geometry"),
    ("xterm.vt100.saveLines", "XTerm.VT100.SaveLines"),
    ("xterm.vt100.scrollBar", "XTerm.VT100.ScrollBar"),
    ("xterm.vt100.cursorBlink", "XTerm.VT100.CursorBlink"),
    ("xterm.vt100.translations", "XTerm.VT100.Translations"),
    ("xterm.vt100.charClass", "XTerm.VT100.CharClass"),
    ("xterm.vt100.utf8", "XTerm.VT100.Utf8"),
    ("xterm.vt100.locale", ""),
    ("xterm.customization", "XTerm.Customization"),
    ("xterm.cursorBlink", "XTerm.CursorBlink"),
    ("Xft.dpi", ""),
    ("Xft.antialias", "Xft.Antialias"),
    ("Xcursor.size", ""),
    ("emacs.pane.background", "Emacs.Pane.Background"),
    ("emacs.dialog.button.background", "Emacs.Dialog.Button.Background"),
    ("emacs.toolBar", "Emacs.ToolBar"),
    ("urxvt.transparent", "URxvt.Transparent"),
    ("reader.dict.search.range", "Reader.Dict.Search.Range"),
    ("reader.dict.range", "Reader.Dict.Range"),
    ("reader.title", "Reader.Title"),
    ("reader.*.title", "Reader.Title"),
];

/// Some of the lines in their order, most with all the files.
pub fn source(draw: &mut Draw, most: usize) -> Source {
    let mut lines: Vec<&str> = (0..draw.between(1, most)).map(|_| draw.pick(&LINES)).collect();
    if draw.one_in(3) {
        lines.insert(draw.below(lines.len()), "#include \"packs/dictionary\"");
    }
    let mut text = lines.join("\n").into_bytes();
    if draw.one_in(2) {
        text.push(b'\n');
    }
    // An archive with no use for the text makes the case long for nothing.
    let included = text.windows(9).any(|piece| piece == b"#include ");
    let files: Vec<(&[u8], &[u8])> = BODIES.iter().map(|(name, body)| (name.as_bytes(), body.as_bytes())).collect();
    Source::with(&text, if included { &files } else { &[] })
}

pub fn query(draw: &mut Draw) -> Query {
    let (name, class) = QUERIES[draw.below(QUERIES.len())];
    Query::new(name.as_bytes(), class.as_bytes())
}

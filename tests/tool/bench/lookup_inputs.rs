//! What the benchmark looks up: the same every time.

use cases::draw::Draw;
use model::limits::{ENTRIES, QUERY_BYTES, QUERY_PARTS, WINDOW_PARTS};

pub struct Questions {
    pub name: &'static str,
    pub what: &'static str,
    pub text: Vec<u8>,
    pub entries: usize,
    /// Names and classes.
    pub queries: Vec<(String, String)>,
    /// What is answered, query by query: so many values, nothing, or a refusal.
    pub answers: Answers,
    /// Who is asked.
    pub asked: Asked,
}

#[derive(Clone, Copy, PartialEq)]
pub enum Asked {
    ThePort,
    /// The port alone, by the dictionary window's call.
    TheWindow,
    All,
    /// All, each in a process of its own first: some do not end.
    AllThatEnd,
}

#[derive(Clone, Copy, Debug, PartialEq)]
pub enum Answers {
    Found(usize),
    Refused(u16),
}

const QUERIES: usize = 10_000;
/// How many of those find a value; half are drawn to.
const QUERIES_FOUND: usize = 5_838;

pub fn questions() -> Vec<Questions> {
    let keys = keys();
    // Each entry has a value of its own, which tells it from the others.
    let line = |(n, key): (usize, &Vec<Part>)| format!("{}: value{n}\n", written(key));
    let text: Vec<u8> = keys.iter().enumerate().map(line).collect::<String>().into_bytes();
    let one = |name: &'static str, what, found| Questions {
        name,
        what,
        text: b"*reader*font: fixed\n".to_vec(),
        entries: 1,
        queries: vec![(format!("app.reader.page.{}", if found { "font" } else { "size" }), "App.Reader.Page.Any".to_string())],
        answers: Answers::Found(found.into()),
        asked: Asked::All,
    };
    let single = |name, what, query: (String, &str), answers, asked| Questions {
        name,
        what,
        text: text.clone(),
        entries: ENTRIES,
        queries: vec![(query.0, query.1.to_string())],
        answers,
        asked,
    };
    vec![
        Questions {
            name: "lookups",
            what: "512 entries, 10,000 queries",
            text: text.clone(),
            entries: ENTRIES,
            queries: queries(&keys),
            answers: Answers::Found(QUERIES_FOUND),
            asked: Asked::All,
        },
        one("one-found", "1 entry, found", true),
        one("one-none", "1 entry, not found", false),
        single(
            "judging",
            "512 entries, a name that is too long: the image is judged",
            ("a".repeat(QUERY_BYTES + 1), ""),
            Answers::Refused(9),
            Asked::ThePort,
        ),
        single(
            "no-ending",
            "512 entries, none ends as the query does",
            ("desk.left.zzz".to_string(), "Desk.Left.Zzz"),
            Answers::Found(0),
            Asked::All,
        ),
        Questions {
            name: "window-lookups",
            what: "by the dictionary window: 512 entries, the same 10,000 queries",
            text: text.clone(),
            entries: ENTRIES,
            queries: queries(&keys),
            answers: Answers::Found(QUERIES_FOUND),
            asked: Asked::TheWindow,
        },
        Questions {
            name: "window-costliest",
            what: "by the dictionary window: 512 keys of seven `*?` and `*a`, a name of 8 parts `a`",
            text: format!("{}*a: 1\n", "*?".repeat(7)).repeat(ENTRIES).into_bytes(),
            queries: vec![(["a"; WINDOW_PARTS].join("."), String::new())],
            asked: Asked::TheWindow,
            ..costliest()
        },
        costliest(),
        costliest_of_different_keys("costliest-different", "512 different keys of that kind, found", "?", 1),
        costliest_of_different_keys(
            "costliest-none",
            "512 different keys of that kind, with a `*b` before the end: not found",
            "b",
            0,
        ),
    ]
}

/// Every part of every key may stand at every position: the Rust would keep each partial alignment.
fn costliest() -> Questions {
    Questions {
        name: "costliest",
        what: "512 keys of fifteen `*?` and `*a`, a name of 32 parts `a`",
        text: format!("{}*a: 1\n", "*?".repeat(15)).repeat(ENTRIES).into_bytes(),
        entries: ENTRIES,
        queries: vec![(["a"; QUERY_PARTS].join("."), String::new())],
        answers: Answers::Found(1),
        asked: Asked::AllThatEnd,
    }
}

/// As above, with keys that no library takes for one: of each nine parts are `?` or `a`.
fn costliest_of_different_keys(name: &'static str, what: &'static str, last_but_one: &str, found: usize) -> Questions {
    let key = |n: usize| {
        let first: String = (0..9).map(|bit| if n >> bit & 1 == 0 { "*?" } else { "*a" }).collect();
        format!("{first}{}*{last_but_one}*a: {n}\n", "*?".repeat(5))
    };
    Questions {
        name,
        what,
        text: (0..ENTRIES).map(key).collect::<String>().into_bytes(),
        answers: Answers::Found(found),
        ..costliest()
    }
}

/// Names of applications and of what they are made of; a class is the name with a capital.
const WORDS: [&str; 48] = [
    "reader",
    "dictionary",
    "library",
    "settings",
    "notes",
    "search",
    "browser",
    "term",
    "mail",
    "clock",
    "page",
    "toolbar",
    "menu",
    "menuBar",
    "button",
    "label",
    "text",
    "list",
    "scrollBar",
    "dialog",
    "form",
    "icon",
    "border",
    "title",
    "range",
    "font",
    "fontSet",
    "background",
    "foreground",
    "geometry",
    "width",
    "height",
    "cursor",
    "translations",
    "highlight",
    "borderWidth",
    "shadow",
    "margin",
    "spacing",
    "language",
    "dictionaryFile",
    "pageTurn",
    "contrast",
    "autoSave",
    "vt100",
    "utf8",
    "dpi",
    "left",
];

fn class_of(word: &str) -> String {
    let (first, rest) = word.split_at(1);
    first.to_uppercase() + rest
}

/// A part of a key: loose or not, and a name or `?`.
type Part = (bool, Option<String>);

fn keys() -> Vec<Vec<Part>> {
    let mut draw = Draw::new(1, "keys");
    let name = |draw: &mut Draw| {
        let word = draw.pick(&WORDS);
        if draw.one_in(4) {
            class_of(word)
        } else {
            word.to_string()
        }
    };
    let mut key = || {
        let mut parts: Vec<Part> = Vec::new();
        for _ in 1..draw.between(2, 5) {
            let component = if draw.one_in(8) { None } else { Some(name(&mut draw)) };
            parts.push((draw.one_in(3), component));
        }
        parts.push((draw.one_in(3), Some(name(&mut draw))));
        parts
    };
    (0..ENTRIES).map(|_| key()).collect()
}

fn written(key: &[Part]) -> String {
    let part = |(loose, name): &Part| format!("{}{}", if *loose { '*' } else { '.' }, name.as_deref().unwrap_or("?"));
    key.iter().map(part).collect()
}

/// Every other query is made from a key, which it then meets, if that gives it 3 parts or more; the rest are drawn freely.
fn queries(keys: &[Vec<Part>]) -> Vec<(String, String)> {
    let mut draw = Draw::new(1, "queries");
    let mut query = |n: usize| {
        let length = draw.between(3, 6);
        let free: Vec<&str> = (0..length).map(|_| draw.pick(&WORDS)).collect();
        let met = meeting(&keys[draw.below(keys.len())], length, &free);
        let words = if n % 2 == 0 && met.len() >= 3 { met } else { free };
        let classes: Vec<String> = words.iter().map(|word| class_of(word)).collect();
        (words.join("."), classes.join("."))
    };
    (0..QUERIES).map(|n| query(n)).collect()
}

/// The words of a query that meets the key: its own, and `free` ones for `?` and for what a loose part skips.
fn meeting<'a>(key: &[Part], length: usize, free: &[&'a str]) -> Vec<&'a str> {
    let mut skipped = length.saturating_sub(key.len());
    let mut words = Vec::new();
    for (loose, name) in key {
        if *loose {
            words.extend(&free[..std::mem::take(&mut skipped)]);
        }
        let word = |name: &String| *WORDS.iter().find(|word| class_of(word) == class_of(name)).expect("a word");
        words.push(name.as_ref().map_or(free[0], word));
    }
    words
}

//! Cases and their recorded answers: how a line is written and read, and what the model answers.
//! crates/replay/data/README.md and crates/replay_default/data/README.md describe the lines.

use model::archive::{lay_out, strike, File};
use model::image;
use model::limits::{Refusal, BODIES_BYTES, CONTENTS_WORDS, GREATEST_DEPTH};
use model::line::write_key;
use model::lookup::{get_bool, get_bytes, get_string, get_value, Number};
use model::startup::StartUp;

/// What a reading takes.
#[derive(Clone, Debug, PartialEq, Eq)]
pub struct Source {
    pub start: Start,
    /// Laid out as bytes.
    pub archive: Vec<u8>,
    /// The greatest, which is the Rust's, unless it is said.
    pub depth: u64,
}

/// Where the texts of a reading come from.
#[derive(Clone, Debug, PartialEq, Eq)]
pub enum Start {
    /// A main text.
    Text(Vec<u8>),
    /// Those that a start-up uses.
    Chain(StartUp),
}

impl Source {
    pub fn text(text: Vec<u8>, archive: Vec<u8>) -> Self {
        Self { start: Start::Text(text), archive, depth: GREATEST_DEPTH }
    }

    pub fn chain(start_up: StartUp, archive: Vec<u8>) -> Self {
        Self { start: Start::Chain(start_up), archive, depth: GREATEST_DEPTH }
    }

    /// The same at another depth.
    pub fn at(&self, depth: u64) -> Self {
        Self { depth, ..self.clone() }
    }

    /// A main text with an archive of no files.
    pub fn plain(text: &[u8]) -> Self {
        Self::with(text, &[])
    }

    /// A main text with these files.
    pub fn with(text: &[u8], files: &[(&[u8], &[u8])]) -> Self {
        Self::text(text.to_vec(), archive_of(files))
    }

    /// None if it has a chain.
    pub fn main_text(&self) -> Option<&[u8]> {
        match &self.start {
            Start::Text(text) => Some(text),
            Start::Chain(_) => None,
        }
    }

    /// The texts that are read, in their order.
    pub fn texts(&self) -> Vec<&[u8]> {
        match &self.start {
            Start::Text(text) => vec![text],
            Start::Chain(start_up) => start_up.texts(),
        }
    }

    /// The same with a file of its archive struck off.
    pub fn struck(&self, which: usize) -> Self {
        Self { archive: strike(&self.archive, which), ..self.clone() }
    }
}

/// The archive of these files, in the order that it asks for.
pub fn archive_of(files: &[(&[u8], &[u8])]) -> Vec<u8> {
    let mut files: Vec<File> = files.iter().map(|(name, body)| File { name: name.to_vec(), body: body.to_vec() }).collect();
    files.sort_by(|a, b| a.name.cmp(&b.name));
    lay_out(&files)
}

/// What a lookup takes beside an image.
#[derive(Clone, Debug, PartialEq, Eq)]
pub struct Query {
    pub name: Vec<u8>,
    pub class: Vec<u8>,
}

impl Query {
    pub fn new(name: &[u8], class: &[u8]) -> Self {
        Self { name: name.to_vec(), class: class.to_vec() }
    }
}

/// What is asked of a source.
#[derive(Clone, Copy, Debug, PartialEq, Eq)]
pub enum Kind {
    Read,
    Bytes,
    String,
    Bool,
    Value,
}

#[derive(Clone, Debug, PartialEq, Eq)]
pub struct Case {
    pub kind: Kind,
    pub source: Source,
    /// Not used by a reading.
    pub query: Query,
}

impl Case {
    pub fn read(source: Source) -> Self {
        Self { kind: Kind::Read, source, query: Query::new(b"", b"") }
    }

    pub fn ask(kind: Kind, source: Source, query: Query) -> Self {
        Self { kind, source, query }
    }
}

#[derive(Clone, Debug, PartialEq, Eq)]
pub enum Answer {
    /// Opens, and the entries as key and value.
    Read {
        opens: usize,
        entries: Vec<(Vec<u8>, Vec<u8>)>,
    },
    Bytes(Option<Vec<u8>>),
    Bool(Option<bool>),
    Value(Number),
}

const KINDS: [(Kind, &str); 5] =
    [(Kind::Read, "read"), (Kind::Bytes, "bytes"), (Kind::String, "string"), (Kind::Bool, "bool"), (Kind::Value, "value")];

pub fn kind_word(kind: Kind) -> &'static str {
    KINDS.iter().find(|(of, _)| *of == kind).expect("every kind has a word").1
}

/// The word of a reading of a chain, the only case of chains that is recorded.
const CHAIN: &str = "default";

pub fn write_line(case: &Case, answer: &Answer) -> String {
    let mut fields = match &case.source.start {
        Start::Text(text) => vec![kind_word(case.kind).to_string(), hex(text)],
        Start::Chain(start_up) => chain_fields(start_up),
    };
    fields.push(hex(&case.source.archive));
    if case.kind != Kind::Read {
        fields.extend([hex(&case.query.name), hex(&case.query.class)]);
    }
    fields.extend(answer_fields(answer));
    fields.join(" ")
}

fn chain_fields(start_up: &StartUp) -> Vec<String> {
    let StartUp { format, property, xresources, xdefaults, xenvironment_set, xenvironment, host } = start_up;
    let text = |text: &Option<Vec<u8>>| text.as_ref().map_or(UNREADABLE.to_string(), |text| hex(text));
    let named = if *xenvironment_set { text(xenvironment) } else { UNSET.to_string() };
    vec![CHAIN.to_string(), format.to_string(), hex(property), text(xresources), text(xdefaults), named, text(host)]
}

const UNREADABLE: &str = "unreadable";
const UNSET: &str = "unset";

pub fn answer_fields(answer: &Answer) -> Vec<String> {
    match answer {
        Answer::Read { opens, entries } => {
            let counts = [opens.to_string(), entries.len().to_string()];
            counts.into_iter().chain(entries.iter().flat_map(|(key, value)| [hex(key), hex(value)])).collect()
        }
        Answer::Bytes(found) => vec![found.as_ref().map_or("none".to_string(), |bytes| hex(bytes))],
        Answer::Bool(found) => vec![found.map_or("none".to_string(), |is| is.to_string())],
        Answer::Value(Number::Is(number)) => vec![number.to_string()],
        Answer::Value(Number::NotANumber) => vec!["notnumber".to_string()],
        Answer::Value(Number::None) => vec!["none".to_string()],
    }
}

pub fn hex(bytes: &[u8]) -> String {
    if bytes.is_empty() {
        return "-".to_string();
    }
    bytes.iter().map(|b| format!("{b:02x}")).collect()
}

/// The case and the answer of a line, or what is wrong with it.
pub fn parse_line(line: &str) -> Result<(Case, Answer), String> {
    let mut fields = line.split(' ');
    let mut next = || fields.next().ok_or("a field is missing".to_string());
    let (kind, start) = match next()? {
        CHAIN => (Kind::Read, Start::Chain(take_chain(&mut next)?)),
        word => (kind_of(word)?, Start::Text(unhex(next()?)?)),
    };
    let source = Source { start, archive: unhex(next()?)?, depth: GREATEST_DEPTH };
    let query = match kind {
        Kind::Read => Query::new(b"", b""),
        _ => Query { name: unhex(next()?)?, class: unhex(next()?)? },
    };
    let answer = match kind {
        Kind::Read => {
            let opens = decimal(next()?)?;
            let count: usize = decimal(next()?)?;
            let entries = (0..count).map(|_| Ok((unhex(next()?)?, unhex(next()?)?))).collect::<Result<_, String>>()?;
            Answer::Read { opens, entries }
        }
        Kind::Bytes | Kind::String => Answer::Bytes(match next()? {
            "none" => None,
            bytes => Some(unhex(bytes)?),
        }),
        Kind::Bool => Answer::Bool(match next()? {
            "none" => None,
            "true" => Some(true),
            "false" => Some(false),
            other => return Err(format!("no boolean: {other}")),
        }),
        Kind::Value => Answer::Value(match next()? {
            "none" => Number::None,
            "notnumber" => Number::NotANumber,
            digits => Number::Is(decimal(digits)?),
        }),
    };
    match fields.next() {
        Some(field) => Err(format!("a field too many: {field}")),
        None => Ok((Case { kind, source, query }, answer)),
    }
}

fn kind_of(word: &str) -> Result<Kind, String> {
    KINDS.iter().find(|(_, of)| *of == word).map(|(kind, _)| *kind).ok_or(format!("no kind: {word}"))
}

/// What `chain_fields` has written after its word.
fn take_chain<'a>(next: &mut impl FnMut() -> Result<&'a str, String>) -> Result<StartUp, String> {
    let text = |field: &str| if field == UNREADABLE { Ok(None) } else { unhex(field).map(Some) };
    let (format, property) = (decimal(next()?)?, unhex(next()?)?);
    let (xresources, xdefaults) = (text(next()?)?, text(next()?)?);
    let (xenvironment_set, xenvironment) = match next()? {
        UNSET => (false, None),
        field => (true, text(field)?),
    };
    Ok(StartUp { format, property, xresources, xdefaults, xenvironment_set, xenvironment, host: text(next()?)? })
}

/// A number in its one decimal form: no sign but `-`, and no leading zeros.
fn decimal<T: std::str::FromStr + ToString>(field: &str) -> Result<T, String> {
    let number = field.parse::<T>().map_err(|_| format!("no number: {field}"))?;
    if number.to_string() == field {
        Ok(number)
    } else {
        Err(format!("a number in another form: {field}"))
    }
}

pub fn unhex(field: &str) -> Result<Vec<u8>, String> {
    let bytes = field.as_bytes();
    if field == "-" {
        return Ok(Vec::new());
    }
    if bytes.is_empty() || bytes.len() % 2 != 0 {
        return Err(format!("no bytes: {field}"));
    }
    let digit = |b: &u8| match b {
        b'0'..=b'9' => Ok(b - b'0'),
        b'a'..=b'f' => Ok(b - b'a' + 10),
        _ => Err(format!("no bytes: {field}")),
    };
    bytes.chunks(2).map(|pair| Ok(digit(&pair[0])? * 16 + digit(&pair[1])?)).collect()
}

/// Buffers of a reading that are just long enough.
pub fn buffers() -> (Vec<u16>, Vec<u8>) {
    (vec![0; CONTENTS_WORDS], vec![0; BODIES_BYTES])
}

/// The entries of an image as key and value.
pub fn listed(contents: &[u16], bodies: &[u8]) -> Vec<(Vec<u8>, Vec<u8>)> {
    let rows = image::judge(contents, bodies).expect("an image");
    rows.iter().map(|row| (write_key(&row.key), row.value.of(bodies).to_vec())).collect()
}

/// What the model answers to a case, or its refusal.
pub fn model_answer(case: &Case) -> Result<Answer, Refusal> {
    let (mut contents, mut bodies) = buffers();
    let accepted = image::read(&mut contents, &mut bodies, &case.source.texts(), &case.source.archive, case.source.depth)?;
    let (name, class) = (&case.query.name[..], &case.query.class[..]);
    Ok(match case.kind {
        Kind::Read => Answer::Read { opens: accepted.opens, entries: listed(&contents, &bodies) },
        Kind::Bytes => Answer::Bytes(get_bytes(&contents, &bodies, name, class)?.map(|place| place.of(&bodies).to_vec())),
        Kind::String => Answer::Bytes(get_string(&contents, &bodies, name, class)?.map(|place| place.of(&bodies).to_vec())),
        Kind::Bool => Answer::Bool(get_bool(&contents, &bodies, name, class)?),
        Kind::Value => Answer::Value(get_value(&contents, &bodies, name, class)?),
    })
}

//! The lookups of the port and of the model in one image: the words that the calls return, the number
//! that one of them writes, the part that one shows, and that every lent byte stays as it was. A query that
//! the dictionary window admits must get the shell's words from it.

use crate::both::Both;
use crate::fenced::Fenced;
use model::image::Place;
use model::limits::Refusal;
use model::lookup::{Bounds, Number, SHELL, WINDOW};
use records::Query;

pub type Lookup = fn(&[u16], &[u8], &[u8], &[u8]) -> u64;
pub type ValueLookup = fn(&[u16], &[u8], &[u8], &[u8], &mut i64) -> u64;
pub type ShowLookup = for<'a> fn(&[u16], &'a [u8], &[u8], &[u8], &mut &'a [u8]) -> u64;

/// The lookups of the port at some bounds, or faulty ones in their place.
#[derive(Clone, Copy)]
pub struct Lookups {
    pub bounds: Bounds,
    pub get_bytes: Lookup,
    pub get_string: Lookup,
    pub get_bool: Lookup,
    pub get_value: ValueLookup,
    pub show: ShowLookup,
}

pub const PORTS: Lookups = Lookups {
    bounds: SHELL,
    get_bytes: port::get_bytes_word,
    get_string: port::get_string_word,
    get_bool: port::get_bool_word,
    get_value: port::get_value_word,
    show: port::show_word,
};

/// The dictionary window's.
pub const WINDOWS: Lookups = Lookups {
    bounds: WINDOW,
    get_bytes: port::window_get_bytes_word,
    get_string: port::window_get_string_word,
    get_bool: port::window_get_bool_word,
    get_value: port::window_get_value_word,
    show: port::window_show_word,
};

const NONE: u64 = 65_535;
const NOT_A_NUMBER: u64 = 65_534;
const TRUE: u64 = 65_536;
const FALSE: u64 = 0;

const QUERY_PAGES: usize = 1;

/// What is shown where there is no value.
const DEFAULT: &[u8] = b"default";

/// One lookup in so many is asked of the show call too, the first among them.
const SHOWN_OF: usize = 4;

/// A part of one of two slices: its start there, and its length.
#[derive(Clone, Copy, Debug, PartialEq, Eq)]
pub enum Part {
    OfBodies(usize, usize),
    OfDefault(usize, usize),
}

fn part(shown: &[u8], bodies: &[u8]) -> Part {
    let from = |slice: &[u8]| (shown.as_ptr() as usize).wrapping_sub(slice.as_ptr() as usize);
    if from(bodies) <= bodies.len() {
        Part::OfBodies(from(bodies), shown.len())
    } else {
        Part::OfDefault(from(DEFAULT), shown.len())
    }
}

/// What the calls return for one query, the lent number afterwards, and the word and the part of the show
/// call where it is asked.
#[derive(Clone, Copy, Debug, PartialEq, Eq)]
pub struct Words {
    pub bytes: u64,
    pub string: u64,
    pub boolean: u64,
    pub value: u64,
    pub out: i64,
    pub show: Option<(u64, Part)>,
}

impl Words {
    /// The number of the refusal.
    pub fn refused(&self) -> Option<u8> {
        (1..=10).contains(&self.bytes).then_some(self.bytes as u8)
    }

    pub fn found(&self) -> bool {
        self.bytes & 0xFFFF == 0
    }
}

/// What the words say of a lookup that is not refused.
#[derive(Clone, Copy, Debug, PartialEq, Eq)]
pub struct Said<'a> {
    pub bytes: Option<&'a [u8]>,
    pub string: Option<&'a [u8]>,
    pub boolean: Option<bool>,
    pub number: Number,
}

pub struct Asking {
    pub lookups: Lookups,
    name: Fenced,
    class: Fenced,
    turn: usize,
}

impl Asking {
    pub fn new(lookups: Lookups) -> Self {
        Self { lookups, name: Fenced::new(QUERY_PAGES), class: Fenced::new(QUERY_PAGES), turn: 0 }
    }

    /// Compares the lookups in the image that both hold.
    pub fn compare(&mut self, both: &mut Both, query: &Query) -> Result<Words, String> {
        let words = self.call(both, query)?;
        both.same_buffers()?;
        let (contents, bodies) = both.models_image();
        let models = models_words(self.lookups.bounds, contents, bodies, query, self.lent_number(), words.show.is_some());
        if words != models {
            return Err(format!("the port answers {}, the model {}", shown(words), shown(models)));
        }
        if self.lookups.bounds == WINDOW && !matches!(words.refused(), Some(9 | 10)) {
            let shells = self.call_by(PORTS, both, query)?;
            if words != shells {
                return Err(format!("the window answers {}, the shell {}", shown(words), shown(shells)));
            }
        }
        Ok(words)
    }

    /// Asks the port alone.
    pub fn call(&mut self, both: &mut Both, query: &Query) -> Result<Words, String> {
        self.turn += 1;
        self.call_by(self.lookups, both, query)
    }

    fn call_by(&mut self, lookups: Lookups, both: &mut Both, query: &Query) -> Result<Words, String> {
        let mut out = self.lent_number();
        let at_end = self.turn % 2 == 0;
        // A query that is too long for the fenced memory is lent where it is.
        let name = self.name.copy(&query.name, at_end).unwrap_or(&query.name);
        let class = self.class.copy(&query.class, at_end).unwrap_or(&query.class);
        let (contents, bodies) = both.image();
        let words = Words {
            bytes: (lookups.get_bytes)(contents, bodies, name, class),
            string: (lookups.get_string)(contents, bodies, name, class),
            boolean: (lookups.get_bool)(contents, bodies, name, class),
            value: (lookups.get_value)(contents, bodies, name, class, &mut out),
            out,
            show: (self.turn % SHOWN_OF == 1).then(|| {
                let mut shown = DEFAULT;
                let word = (lookups.show)(contents, bodies, name, class, &mut shown);
                (word, part(shown, bodies))
            }),
        };
        if name != &query.name[..] || class != &query.class[..] {
            return Err("the port changed the query".to_string());
        }
        Ok(words)
    }

    /// What the lent number is before a call: another in each turn.
    fn lent_number(&self) -> i64 {
        (self.turn as i64).wrapping_mul(0x5851_F42D_4C95_7F2D)
    }
}

/// The words that the model's answers make.
fn models_words(bounds: Bounds, contents: &[u16], bodies: &[u8], query: &Query, lent: i64, is_shown: bool) -> Words {
    let (name, class) = (&query.name[..], &query.class[..]);
    let value = bounds.get_value(contents, bodies, name, class);
    let bytes = place_word(bounds.get_bytes(contents, bodies, name, class));
    Words {
        bytes,
        string: place_word(bounds.get_string(contents, bodies, name, class)),
        boolean: coded(bounds.get_bool(contents, bodies, name, class), |is| if is { TRUE } else { FALSE }),
        value: match value {
            Ok(Number::Is(_)) => 0,
            Ok(Number::NotANumber) => NOT_A_NUMBER,
            Ok(Number::None) => NONE,
            Err(refusal) => refusal.number().into(),
        },
        out: if let Ok(Number::Is(number)) = value { number } else { lent },
        show: is_shown.then(|| (bytes, part(bounds.show(contents, bodies, name, class, DEFAULT), bodies))),
    }
}

fn coded<T>(answer: Result<Option<T>, Refusal>, code: impl Fn(T) -> u64) -> u64 {
    match answer {
        Ok(Some(given)) => code(given),
        Ok(None) => NONE,
        Err(refusal) => refusal.number().into(),
    }
}

pub fn place_word(answer: Result<Option<Place>, Refusal>) -> u64 {
    coded(answer, |place| (place.start as u64) << 16 | (place.length as u64) << 32)
}

/// What the port's words say, with its bodies; an error if a word is no answer, or its place is not in
/// the bodies.
pub fn said(words: Words, bodies: &[u8]) -> Result<Said<'_>, String> {
    let odd = |what: &str, word: u64| Err(format!("{what} gives the word {word:#x}"));
    Ok(Said {
        bytes: bytes_at(words.bytes, bodies)?,
        string: bytes_at(words.string, bodies)?,
        boolean: match words.boolean {
            TRUE => Some(true),
            FALSE => Some(false),
            NONE => None,
            word => return odd("get_bool", word),
        },
        number: match words.value {
            0 => Number::Is(words.out),
            NOT_A_NUMBER => Number::NotANumber,
            NONE => Number::None,
            word => return odd("get_value", word),
        },
    })
}

/// The bytes whose place a word tells, or none.
pub fn bytes_at(word: u64, bodies: &[u8]) -> Result<Option<&[u8]>, String> {
    if word == NONE {
        return Ok(None);
    }
    let (start, length) = ((word >> 16 & 0xFFFF) as usize, (word >> 32) as usize);
    match bodies.get(start..start + length) {
        Some(bytes) if word & 0xFFFF == 0 => Ok(Some(bytes)),
        _ => Err(format!("the word {word:#x} tells no place in the bodies")),
    }
}

pub fn shown(words: Words) -> String {
    let place = |word: u64| match word {
        NONE => "none".to_string(),
        1..=10 => format!("refused {word}"),
        _ if word & 0xFFFF == 0 => format!("{} bytes at {}", word >> 32, word >> 16 & 0xFFFF),
        _ => format!("the word {word:#x}"),
    };
    let Words { bytes, string, boolean, value, out, show } = words;
    let show = show.map_or(String::new(), |(word, part)| format!(", and shows {part:?} with {}", place(word)));
    format!("{}, as a string {}, as a boolean {boolean}, as a value {value} with {out}{show}", place(bytes), place(string))
}

//! Shows that the comparison of the dictionary window's lookups can fail: windows with a fault each, every one of which it must see.

use crate::asking::{Lookup, Lookups, PORTS, WINDOWS};
use crate::faults::{each_seen, peek};
use crate::window_tests::whole_comparison;
use port::{
    get_bytes_word, window_get_bool_word, window_get_bytes_word, window_get_string_word, window_get_value_word, window_show_word,
};

const fn bytes(get_bytes: Lookup) -> Lookups {
    Lookups { get_bytes, ..WINDOWS }
}

const FAULTS: [(&str, Lookups); 24] = [
    ("window: the shell's bounds", Lookups { bounds: WINDOWS.bounds, ..PORTS }),
    ("window: the shell's string", Lookups { get_string: PORTS.get_string, ..WINDOWS }),
    ("window: the shell's boolean", Lookups { get_bool: PORTS.get_bool, ..WINDOWS }),
    ("window: the shell's number", Lookups { get_value: PORTS.get_value, ..WINDOWS }),
    ("window: the shell's show call", Lookups { show: PORTS.show, ..WINDOWS }),
    ("window: a name of 129 bytes", bytes(|c, b, n, k| by_shell(n.len() == 129 && k.len() < 129, c, b, n, k))),
    ("window: a class of 129 bytes", bytes(|c, b, n, k| by_shell(k.len() == 129 && n.len() < 129, c, b, n, k))),
    ("window: a name of 9 parts", bytes(|c, b, n, k| by_shell(parts(n) == 9 && parts(k) < 9 && n.len() < 129, c, b, n, k))),
    ("window: a class of 9 parts", bytes(|c, b, n, k| by_shell(parts(k) == 9 && parts(n) < 9 && k.len() < 129, c, b, n, k))),
    ("window: the shell's bound in the class", bytes(|c, b, n, k| by_shell(n.len() <= 128 && parts(n) <= 8, c, b, n, k))),
    ("window: the shell's bound in the name", bytes(|c, b, n, k| by_shell(k.len() <= 128 && parts(k) <= 8, c, b, n, k))),
    ("window: a name of 127 bytes at most", bytes(|c, b, n, k| refused_if(n.len() == 128, 9, c, b, n, k))),
    ("window: a class of 127 bytes at most", bytes(|c, b, n, k| refused_if(k.len() == 128, 9, c, b, n, k))),
    ("window: a name of 7 parts at most", bytes(|c, b, n, k| refused_if(parts(n) == 8, 10, c, b, n, k))),
    ("window: a class of 7 parts at most", bytes(|c, b, n, k| refused_if(parts(k) == 8, 10, c, b, n, k))),
    ("window: 10 before malformed", bytes(|c, b, n, k| refused_if(parts(n) > 8, 10, c, b, n, k))),
    ("window: 9 before 8", bytes(|c, b, n, k| if n.len() > 128 { 9 } else { window_get_bytes_word(c, b, n, k) })),
    ("window: 9 gives none", bytes(|c, b, n, k| in_place_of(9, window_get_bytes_word(c, b, n, k)))),
    ("window: 10 gives none", bytes(|c, b, n, k| in_place_of(10, window_get_bytes_word(c, b, n, k)))),
    ("window: a string of any bytes", Lookups { get_string: window_get_bytes_word, ..WINDOWS }),
    (
        "window: 9 is no string",
        Lookups { get_string: |c, b, n, k| in_place_of(9, window_get_string_word(c, b, n, k)), ..WINDOWS },
    ),
    ("window: 10 is no boolean", Lookups { get_bool: |c, b, n, k| in_place_of(10, window_get_bool_word(c, b, n, k)), ..WINDOWS }),
    ("window: a refusal writes a number", Lookups { get_value: zero_if_refused, ..WINDOWS }),
    ("window: a refusal shows nothing", Lookups { show: nothing_if_refused, ..WINDOWS }),
];

/// A fault that the fences around lent memory stop.
const TRESPASSES: [(&str, Lookups); 1] = [(
    "window: reads past the class",
    bytes(|c, b, n, k| peek(k.as_ptr().wrapping_add(k.len()), || window_get_bytes_word(c, b, n, k))),
)];

/// Holds one fault to the comparison, or none if there is no such fault.
pub fn one(label: &str, room: &str) -> Option<Result<(), String>> {
    let (_, lookups) = FAULTS.iter().chain(&TRESPASSES).find(|(of, _)| *of == label)?;
    Some(whole_comparison(*lookups, room))
}

/// Each fault in a process of its own.
pub fn all_seen(room: &str) -> Result<String, String> {
    each_seen(&FAULTS.map(|(label, _)| label), &TRESPASSES.map(|(label, _)| label), &[], room)
}

/// How many parts the start of a query has.
fn parts(query: &[u8]) -> usize {
    query[..query.len().min(2_000)].split(|b| *b == b'.').filter(|part| !part.is_empty()).count()
}

fn by_shell(is: bool, c: &[u16], b: &[u8], n: &[u8], k: &[u8]) -> u64 {
    if is {
        get_bytes_word(c, b, n, k)
    } else {
        window_get_bytes_word(c, b, n, k)
    }
}

/// Refused by another number what is not refused.
fn refused_if(is: bool, number: u64, c: &[u16], b: &[u8], n: &[u8], k: &[u8]) -> u64 {
    match window_get_bytes_word(c, b, n, k) {
        word @ 1..=10 => word,
        _ if is => number,
        word => word,
    }
}

/// None in the place of a refusal.
fn in_place_of(number: u64, word: u64) -> u64 {
    if word == number {
        65_535
    } else {
        word
    }
}

fn zero_if_refused(c: &[u16], b: &[u8], n: &[u8], k: &[u8], out: &mut i64) -> u64 {
    let word = window_get_value_word(c, b, n, k, out);
    if (1..=10).contains(&word) {
        *out = 0;
    }
    word
}

fn nothing_if_refused<'a>(c: &[u16], b: &'a [u8], n: &[u8], k: &[u8], shown: &mut &'a [u8]) -> u64 {
    let word = window_show_word(c, b, n, k, shown);
    if (1..=10).contains(&word) {
        *shown = &b[..0];
    }
    word
}

//! What a value says: a string, a boolean, a number.

/// Well-formed UTF-8: the rows of Unicode's table 3-7, one after another.
pub fn is_utf8(bytes: &[u8]) -> bool {
    let mut rest = bytes;
    while !rest.is_empty() {
        match sequence_length(rest) {
            Some(length) => rest = &rest[length..],
            None => return false,
        }
    }
    true
}

fn sequence_length(bytes: &[u8]) -> Option<usize> {
    const LOW: u8 = 0x80;
    const HIGH: u8 = 0xBF;
    match bytes {
        [0x00..=0x7F, ..] => Some(1),
        [0xC2..=0xDF, LOW..=HIGH, ..] => Some(2),
        [0xE0, 0xA0..=HIGH, LOW..=HIGH, ..] => Some(3),
        [0xE1..=0xEC, LOW..=HIGH, LOW..=HIGH, ..] => Some(3),
        [0xED, LOW..=0x9F, LOW..=HIGH, ..] => Some(3),
        [0xEE..=0xEF, LOW..=HIGH, LOW..=HIGH, ..] => Some(3),
        [0xF0, 0x90..=HIGH, LOW..=HIGH, LOW..=HIGH, ..] => Some(4),
        [0xF1..=0xF3, LOW..=HIGH, LOW..=HIGH, LOW..=HIGH, ..] => Some(4),
        [0xF4, LOW..=0x8F, LOW..=HIGH, LOW..=HIGH, ..] => Some(4),
        _ => None,
    }
}

/// A decimal number of 64 bits with an optional sign.
pub fn number(bytes: &[u8]) -> Option<i64> {
    let (sign, digits) = match bytes {
        [b'-', digits @ ..] => (-1, digits),
        [b'+', digits @ ..] => (1, digits),
        digits => (1, digits),
    };
    if digits.is_empty() || !digits.iter().all(u8::is_ascii_digit) {
        return None;
    }
    // Held at 10^20, which is past the range and stays there with every further digit.
    let magnitude = digits.iter().fold(0i128, |n, d| (n * 10 + i128::from(d - b'0')).min(100_000_000_000_000_000_000));
    i64::try_from(sign * magnitude).ok()
}

pub fn boolean(bytes: &[u8]) -> Option<bool> {
    if let Some(n) = number(bytes) {
        return Some(n != 0);
    }
    let is = |word: &[u8]| bytes.eq_ignore_ascii_case(word);
    if is(b"true") || is(b"on") || is(b"yes") {
        Some(true)
    } else if is(b"false") || is(b"off") || is(b"no") {
        Some(false)
    } else {
        None
    }
}

//! One line of a text: nothing, an include, or an entry.

#[derive(Clone, Copy, Debug, PartialEq, Eq)]
pub enum Binding {
    Tight,
    Loose,
}

#[derive(Clone, Debug, PartialEq, Eq)]
pub enum Component {
    Name(Vec<u8>),
    Any,
}

/// A component with the binding before it.
#[derive(Clone, Debug, PartialEq, Eq)]
pub struct Part {
    pub binding: Binding,
    pub component: Component,
}

#[derive(Clone, Debug, PartialEq, Eq)]
pub enum Line {
    Nothing,
    Include(Vec<u8>),
    Entry { key: Vec<Part>, value: Vec<u8> },
}

pub fn is_name_byte(b: u8) -> bool {
    b.is_ascii_alphanumeric() || b == b'_' || b == b'-'
}

/// The first line of a text that is not empty, and what stands after it.
pub fn take_line(text: &[u8]) -> (Line, &[u8]) {
    match text[0] {
        b'\n' => (Line::Nothing, &text[1..]),
        b'!' => (Line::Nothing, after_line(text)),
        b'#' => (include_line(text), after_line(text)),
        _ => take_entry(text).unwrap_or((Line::Nothing, after_line(text))),
    }
}

/// The text from the next plain newline on, with no escapes seen.
fn after_line(text: &[u8]) -> &[u8] {
    drop_while(text, |b| b != b'\n')
}

fn drop_while(text: &[u8], holds: impl Fn(u8) -> bool) -> &[u8] {
    take_while(text, holds).1
}

fn take_while(text: &[u8], holds: impl Fn(u8) -> bool) -> (&[u8], &[u8]) {
    let end = text.iter().position(|&b| !holds(b)).unwrap_or(text.len());
    text.split_at(end)
}

/// `#`, spaces, `include`, spaces, `"`, name, `"`.
fn include_line(text: &[u8]) -> Line {
    match included_name(&text[1..]) {
        Some(name) => Line::Include(name.to_vec()),
        None => Line::Nothing,
    }
}

fn included_name(text: &[u8]) -> Option<&[u8]> {
    let text = drop_while(text, |b| b == b' ').strip_prefix(b"include")?;
    let text = drop_while(text, |b| b == b' ').strip_prefix(b"\"")?;
    let (name, rest) = take_while(text, |b| b != b'"' && b != b'\n');
    (rest.first() == Some(&b'"')).then_some(name)
}

/// Parts of which the last is a name, spaces, `:`, value. None: the line makes no entry.
fn take_entry(text: &[u8]) -> Option<(Line, &[u8])> {
    let (key, rest) = take_parts(text);
    if !ends_in_a_name(&key) {
        return None;
    }
    let rest = drop_while(rest, |b| b == b' ').strip_prefix(b":")?;
    let (value, rest) = take_value(drop_blanks(rest));
    Some((Line::Entry { key, value }, rest))
}

pub fn ends_in_a_name(key: &[Part]) -> bool {
    matches!(key.last(), Some(Part { component: Component::Name(_), .. }))
}

fn take_parts(text: &[u8]) -> (Vec<Part>, &[u8]) {
    let mut parts = Vec::new();
    let mut rest = text;
    while let Some((part, after)) = take_part(rest) {
        parts.push(part);
        rest = after;
    }
    (parts, rest)
}

/// Any number of `.` and `*`, then a component: loose if one of them is `*`.
fn take_part(text: &[u8]) -> Option<(Part, &[u8])> {
    let (marks, rest) = take_while(text, |b| b == b'.' || b == b'*');
    let binding = if marks.contains(&b'*') { Binding::Loose } else { Binding::Tight };
    let (component, rest) = take_component(rest)?;
    Some((Part { binding, component }, rest))
}

fn take_component(text: &[u8]) -> Option<(Component, &[u8])> {
    if let Some(rest) = text.strip_prefix(b"?") {
        return Some((Component::Any, rest));
    }
    let (name, rest) = take_while(text, is_name_byte);
    (!name.is_empty()).then(|| (Component::Name(name.to_vec()), rest))
}

/// Spaces, tabs and backslash-newline pairs after the `:`.
fn drop_blanks(text: &[u8]) -> &[u8] {
    let mut rest = text;
    while let [b' ' | b'\t', after @ ..] | [b'\\', b'\n', after @ ..] = rest {
        rest = after;
    }
    rest
}

/// The value up to a plain newline or the end, escapes undone, and what stands after the newline.
fn take_value(text: &[u8]) -> (Vec<u8>, &[u8]) {
    let mut value = Vec::new();
    let mut rest = text;
    loop {
        rest = match rest {
            [] => return (value, rest),
            [b'\n', after @ ..] => return (value, after),
            [b'\\', after @ ..] => take_escape(after, &mut value),
            [b, after @ ..] => {
                value.push(*b);
                after
            }
        };
    }
}

/// What stands after a backslash: puts what the escape gives, and returns what stands after it.
fn take_escape<'a>(text: &'a [u8], value: &mut Vec<u8>) -> &'a [u8] {
    match text {
        [b @ (b' ' | b'\t' | b'\\'), rest @ ..] => {
            value.push(*b);
            rest
        }
        [b'n', rest @ ..] => {
            value.push(0x0A);
            rest
        }
        [b'\n', rest @ ..] => rest,
        [b'0'..=b'7', ..] => take_octal(text, value),
        _ => {
            value.push(b'\\');
            text
        }
    }
}

/// Three digits give a byte. One or two stay with their backslash before another byte, and go with
/// it before a plain newline or the end.
fn take_octal<'a>(text: &'a [u8], value: &mut Vec<u8>) -> &'a [u8] {
    let (digits, _) = take_while(&text[..text.len().min(3)], |b| matches!(b, b'0'..=b'7'));
    let rest = &text[digits.len()..];
    if digits.len() == 3 {
        let number = digits.iter().fold(0u32, |n, d| n * 8 + u32::from(d - b'0'));
        value.push((number % 256) as u8);
    } else if !matches!(rest, [] | [b'\n', ..]) {
        value.push(b'\\');
        value.extend(digits);
    }
    rest
}

/// A key as the image writes it: each part as `.` or `*`, then the name or `?`.
pub fn write_key(key: &[Part]) -> Vec<u8> {
    let mut bytes = Vec::new();
    for part in key {
        bytes.push(if part.binding == Binding::Tight { b'.' } else { b'*' });
        match &part.component {
            Component::Name(name) => bytes.extend(name),
            Component::Any => bytes.push(b'?'),
        }
    }
    bytes
}

/// The parts of a key as the image writes it, or none if the bytes are not so written.
pub fn read_key(bytes: &[u8]) -> Option<Vec<Part>> {
    let mut parts = Vec::new();
    let mut rest = bytes;
    while let [mark @ (b'.' | b'*'), after @ ..] = rest {
        let binding = if *mark == b'*' { Binding::Loose } else { Binding::Tight };
        let (component, after) = take_component(after)?;
        parts.push(Part { binding, component });
        rest = after;
    }
    rest.is_empty().then_some(parts)
}

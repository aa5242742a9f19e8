//! Writing a database out, document 02 (iv): the text of an image, and the call that puts it into a lent buffer.

use crate::image::judge;
use crate::limits::Refusal;
use crate::line::write_key;

/// The length of the text, which stands at the front of the buffer; bytes past it stay. 8, then 11, which leave the buffer
/// unchanged.
pub fn write(contents: &[u16], bodies: &[u8], buffer: &mut [u8]) -> Result<usize, Refusal> {
    let text = text(contents, bodies)?;
    let front = buffer.get_mut(..text.len()).ok_or(Refusal::ShortTextBuffer)?;
    front.copy_from_slice(&text);
    Ok(text.len())
}

/// Per entry its key, `: `, the value and a newline.
pub fn text(contents: &[u16], bodies: &[u8]) -> Result<Vec<u8>, Refusal> {
    let rows = judge(contents, bodies).ok_or(Refusal::NoImage)?;
    let mut text = Vec::new();
    for row in rows {
        text.extend(write_key(&row.key));
        text.extend(b": ");
        text.extend(escaped(row.value.of(bodies)));
        text.push(b'\n');
    }
    Ok(text)
}

/// Backslash is doubled, newline is `\n`, a space or tab that begins the value gets a backslash, all other bytes are plain.
fn escaped(value: &[u8]) -> Vec<u8> {
    let mut escaped = Vec::new();
    for (place, b) in value.iter().enumerate() {
        match b {
            b'\\' => escaped.extend(b"\\\\"),
            b'\n' => escaped.extend(b"\\n"),
            b' ' | b'\t' if place == 0 => escaped.extend([b'\\', *b]),
            _ => escaped.push(*b),
        }
    }
    escaped
}

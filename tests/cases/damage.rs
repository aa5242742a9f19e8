//! Damaged copies of good texts.

use crate::draw::Draw;
use records::{Source, Start};

/// A copy with a few bytes changed, put in, taken out or doubled.
pub fn damaged(draw: &mut Draw, text: &[u8]) -> Vec<u8> {
    let mut text = text.to_vec();
    for _ in 0..draw.between(1, 3) {
        damage_once(draw, &mut text);
    }
    text
}

/// Damages the main text of a source.
pub fn damage_text(draw: &mut Draw, source: &mut Source) {
    let Start::Text(text) = &mut source.start else { return };
    *text = damaged(draw, text);
}

fn damage_once(draw: &mut Draw, text: &mut Vec<u8>) {
    let b = if draw.one_in(4) { draw.byte() } else { draw.pick_byte(b"\\\n\n:.*?# !\"\t17a") };
    let at = draw.below(text.len() + 1);
    if at == text.len() || draw.one_in(3) {
        text.insert(at, b);
        return;
    }
    match draw.below(4) {
        0 => text[at] = b,
        1 => text[at] ^= 1 << draw.below(8),
        2 => {
            text.remove(at);
        }
        _ => {
            let end = (at + draw.between(1, 6)).min(text.len());
            let piece = text[at..end].to_vec();
            text.splice(at..at, piece);
        }
    }
}

//! The texts of a start-up as the calls take them: each in fenced memory of its own, with flags that say yes in every
//! way, and with bytes that must not be looked at where a text could not be read.

use crate::fenced::Fenced;
use model::limits::TEXT_BYTES;
use model::startup::StartUp;
use port::Text;

/// Something done to a start-up that is lent.
pub type Edit = for<'a> fn(port::StartUp<'a>) -> port::StartUp<'a>;

/// What says yes: anything but 0.
const YES: [u8; 4] = [1, 255, 2, 128];

/// What is lent for a text that could not be read.
const UNREAD: [&[u8]; 3] = [b"unread: 1", &[b'\n'; TEXT_BYTES + 1], b""];

pub struct StartUpRoom {
    property: Fenced,
    xresources: Fenced,
    xdefaults: Fenced,
    xenvironment: Fenced,
    host: Fenced,
    turn: usize,
}

impl StartUpRoom {
    pub fn new(pages: usize) -> Self {
        let fenced = || Fenced::new(pages);
        let (property, xresources, xdefaults, xenvironment, host) = (fenced(), fenced(), fenced(), fenced(), fenced());
        Self { property, xresources, xdefaults, xenvironment, host, turn: 0 }
    }

    /// Lends the texts, with other flags and other unread bytes each time.
    pub fn lend<'a>(&'a mut self, start_up: &'a StartUp, at_end: bool) -> port::StartUp<'a> {
        self.turn += 1;
        let turn = self.turn;
        port::StartUp {
            format: start_up.format,
            property: lent(&mut self.property, &start_up.property, at_end),
            xresources: text(&mut self.xresources, &start_up.xresources, at_end, turn),
            xdefaults: text(&mut self.xdefaults, &start_up.xdefaults, at_end, turn + 1),
            xenvironment_set: flag(start_up.xenvironment_set, turn / 4),
            xenvironment: text(&mut self.xenvironment, &start_up.xenvironment, at_end, turn + 2),
            host: text(&mut self.host, &start_up.host, at_end, turn + 3),
        }
    }
}

fn flag(is: bool, turn: usize) -> u8 {
    if is {
        YES[turn % YES.len()]
    } else {
        0
    }
}

/// A copy at one of the fences; what is too long for the memory between them is lent where it is.
fn lent<'a>(room: &'a mut Fenced, bytes: &'a [u8], at_end: bool) -> &'a [u8] {
    room.copy(bytes, at_end).unwrap_or(bytes)
}

fn text<'a>(room: &'a mut Fenced, bytes: &'a Option<Vec<u8>>, at_end: bool, turn: usize) -> Text<'a> {
    let unread = UNREAD[turn % UNREAD.len()];
    Text { read: flag(bytes.is_some(), turn), bytes: lent(room, bytes.as_deref().unwrap_or(unread), at_end) }
}

/// Whether what was lent still holds the texts.
pub fn holds(lent: &port::StartUp, start_up: &StartUp) -> bool {
    let is = |text: &Text, bytes: &Option<Vec<u8>>| match bytes {
        Some(bytes) => text.bytes == &bytes[..],
        None => UNREAD.contains(&text.bytes),
    };
    lent.property == &start_up.property[..]
        && is(&lent.xresources, &start_up.xresources)
        && is(&lent.xdefaults, &start_up.xdefaults)
        && is(&lent.xenvironment, &start_up.xenvironment)
        && is(&lent.host, &start_up.host)
}

//! Texts of many lines, and where a reader of one stands.

use crate::inputs::chance::Chance;
use crate::inputs::lines::{damaged, good, random, summed};
use crate::inputs::shrink::{fewer_flags, readable, smaller_number, smaller_text, with_each, Case};
use crate::inputs::spelling::line_of;

#[derive(Clone)]
pub struct TextCase {
    pub text: Vec<u8>,
    /// The pool's length.
    pub pool: usize,
    /// The state at the beginning.
    pub state: State,
}

#[derive(Clone, Copy, PartialEq, Eq, Debug)]
pub struct State {
    pub position: usize,
    pub line: usize,
    pub flags: u8,
}

impl State {
    fn smaller(&self) -> Vec<Self> {
        with_each!(
            self,
            position in smaller_number(self.position),
            line in smaller_number(self.line),
            flags in fewer_flags(self.flags),
        )
    }
}

impl TextCase {
    /// From the text's beginning, with these stops.
    pub fn new(text: Vec<u8>, pool: usize, flags: u8) -> Self {
        let state = State {
            position: 0,
            line: 0,
            flags,
        };
        TextCase { text, pool, state }
    }
}

impl Case for TextCase {
    fn smaller(&self) -> Vec<Self> {
        with_each!(
            self,
            text in smaller_text(&self.text),
            pool in smaller_number(self.pool),
            state in self.state.smaller(),
        )
    }

    fn size(&self) -> usize {
        self.text.len()
    }

    fn show(&self) -> String {
        format!(
            "text {} pool {} {:?}",
            readable(&self.text),
            self.pool,
            self.state
        )
    }
}

/// A text of many lines, good and bad, with all line ends.
pub fn text(chance: &mut Chance) -> Vec<u8> {
    let mut text = Vec::new();
    let quiet = chance.once_in(2);
    for _ in 0..chance.under(12) {
        let line = match chance.under(12) {
            0 => vec![],
            1 => random(chance),
            2 if !quiet => damaged(chance),
            3 if !quiet => summed(chance),
            4 if chance.once_in(3) => line_of(1, 0, &[]),
            _ => good(chance),
        };
        text.extend(line);
        let end: &[u8] = match chance.under(16) {
            0 => b"\r\r\n",
            1 => b"\n\r\n",
            2 => b"\r",
            3 => b"\n\n\n",
            4..=6 => b"\r\n",
            7 if !quiet => b"",
            _ => b"\n",
        };
        text.extend(end);
    }
    if chance.once_in(3) {
        text.extend(line_of(1, 0, &[]));
        text.extend(
            chance
                .one_of(&["", "\n", "\r\n", "\r", "\n:", "\n\0", "\n\r\n\n"])
                .bytes(),
        );
    }
    text
}

/// A pool for a text: usually with room for all, sometimes a narrow one.
pub fn pool_for(text: &[u8], chance: &mut Chance) -> usize {
    if chance.once_in(4) {
        chance.under(64)
    } else {
        text.len() / 2
    }
}

/// A text from its beginning, with these stops.
pub fn stopped_text(flags: u8, chance: &mut Chance) -> TextCase {
    let text = text(chance);
    let pool = pool_for(&text, chance);
    TextCase::new(text, pool, flags)
}

/// A text with a state that no call need have left.
pub fn by_hand(chance: &mut Chance) -> TextCase {
    let text = text(chance);
    let state = State {
        position: match chance.under(8) {
            0 => chance.around(text.len()),
            _ => chance.under(text.len() + 2),
        },
        line: if chance.once_in(2) {
            usize::MAX - chance.under(4)
        } else {
            chance.under(9)
        },
        flags: if chance.once_in(2) {
            chance.byte()
        } else {
            chance.under(4) as u8
        },
    };
    TextCase {
        pool: pool_for(&text, chance),
        text,
        state,
    }
}

//! Loaders that treat the marks wrongly.

use ihex_sys::REFUSED;

use crate::inputs::marks::{packed_length, unused};
use crate::models::loads::{Rules, RIGHT};
use crate::subjects::port::{Port, Real};
use crate::wrong::loads::ruled;
use crate::wrong::named::{Numbers, Places, Wrong};

/// The code of marks of another length, among others.
const BAD_WINDOW: u32 = REFUSED + 16;
/// The code of an unused bit of the marks that is set.
const BAD_MARK: u32 = REFUSED + 19;

/// A load that was made: its code, how many places there are, and what the marks held before.
struct Made<'a> {
    code: u32,
    places: usize,
    before: &'a [u8],
}

impl Made<'_> {
    /// The bits of the last byte that have a place.
    fn used(&self) -> u8 {
        match self.places % 8 {
            0 => 0xFF,
            n => (1 << n) - 1,
        }
    }
}

/// What is done to the marks after a load, and the code that is returned.
type Change = fn(&Made, &mut [u8]) -> u32;

/// A loader that does something to its marks.
struct Marked(Change);

impl Port for Marked {
    fn load(
        &self,
        text: &[u8],
        first: u32,
        page: &mut [u8],
        marks: &mut [u8],
        places: Places,
        numbers: Numbers,
    ) -> u32 {
        let before = marks.to_vec();
        let made = Made {
            code: Real.load(text, first, page, marks, places, numbers),
            places: page.len(),
            before: &before,
        };
        self.0(&made, marks)
    }
}

fn marked(name: &'static str, change: Change) -> Wrong {
    (name, Box::new(Marked(change)))
}

/// Every loader that treats the marks wrongly.
pub fn all() -> Vec<Wrong> {
    [orders(), unused_bits(), lengths(), neighbours()]
        .into_iter()
        .flatten()
        .collect()
}

/// Turns each byte of the marks of an accepted load.
fn turned(made: &Made, marks: &mut [u8], turn: fn(u8) -> u8) -> u32 {
    if made.code == 0 {
        marks.iter_mut().for_each(|byte| *byte = turn(*byte));
    }
    made.code
}

/// Those that give a place another bit.
fn orders() -> Vec<Wrong> {
    vec![
        marked("marks the highest bit of a byte first", |made, marks| {
            turned(made, marks, u8::reverse_bits)
        }),
        marked("swaps the halves of a byte of marks", |made, marks| {
            turned(made, marks, |byte| byte.rotate_left(4))
        }),
    ]
}

/// Those that treat the unused bits wrongly.
fn unused_bits() -> Vec<Wrong> {
    vec![
        marked("leaves unused bits from before", |made, marks| {
            let pair = marks.last_mut().zip(made.before.last());
            if let Some((last, before)) = pair.filter(|_| made.code == 0) {
                *last |= before & !made.used();
            }
            made.code
        }),
        marked("sets the unused bits of a full last byte", |made, marks| {
            let last = marks.last_mut().filter(|last| **last == made.used());
            if let Some(last) = last.filter(|_| made.code == 0) {
                *last = 0xFF;
            }
            made.code
        }),
        marked("clears unused bits before it refuses", |made, marks| {
            let fits = marks.len() == packed_length(made.places);
            if let Some(last) = marks.last_mut().filter(|_| made.code != 0 && fits) {
                *last &= made.used();
            }
            made.code
        }),
        marked(
            "refuses an unused bit that was set",
            |made, _| match unused(made.before, made.places).next() {
                Some(_) if made.code == 0 => BAD_MARK,
                _ => made.code,
            },
        ),
    ]
}

/// Those that want another length of the marks, and one that clears marks of another length. Where marks are
/// too short, the places without a bit are not marked.
fn lengths() -> Vec<Wrong> {
    let fitting = |name, fits| ruled(name, Rules { fits, ..RIGHT });
    vec![
        fitting("rounds the length of the marks down", |places, marks| {
            marks == places / 8
        }),
        fitting("wants a byte of marks more than that", |places, marks| {
            marks == places / 8 + 1
        }),
        fitting("wants a byte of marks a place", |places, marks| {
            marks == places
        }),
        fitting("takes marks that are too long", |places, marks| {
            marks >= packed_length(places)
        }),
        fitting("takes marks that are too short", |places, marks| {
            marks <= packed_length(places)
        }),
        marked("clears marks of a window that it refuses", |made, marks| {
            if made.code == BAD_WINDOW {
                marks.fill(0);
            }
            made.code
        }),
    ]
}

/// Those in which a place that is stated changes the mark of another, or its own mark the second time.
fn neighbours() -> Vec<Wrong> {
    let marking = |name, mark| ruled(name, Rules { mark, ..RIGHT });
    vec![
        marking("clears the mark of the next place", |marks, place| {
            marks[place] = 1;
            if let Some(next) = marks.get_mut(place + 1) {
                *next = 0;
            }
        }),
        marking("clears the other marks of the byte", |marks, place| {
            let byte = place / 8 * 8;
            let end = marks.len().min(byte + 8);
            marks[byte..end].fill(0);
            marks[place] = 1;
        }),
        marking("marks each place of the byte", |marks, place| {
            let byte = place / 8 * 8;
            let end = marks.len().min(byte + 8);
            marks[byte..end].fill(1);
        }),
        marking("takes the mark away the second time", |marks, place| {
            marks[place] ^= 1;
        }),
    ]
}

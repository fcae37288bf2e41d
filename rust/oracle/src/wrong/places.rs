//! Readers that name another place of a byte that is not a digit.

use ihex_sys::REFUSED;

use crate::subjects::port::{Port, Real};
use crate::wrong::loads::load;
use crate::wrong::named::{Numbers, State, Wrong};

/// A record reader that names another place of a byte that is not a digit: from the line and the right one.
struct Named(fn(&[u8], u64) -> u64);

impl Port for Named {
    fn read_record(&self, line: &[u8], pool: &mut [u8], at: usize, (a, b, c): Numbers) -> u32 {
        let code = Real.read_record(line, pool, at, (a, b, c));
        if code == REFUSED + 2 {
            *a = self.0(line, *a);
        }
        code
    }
}

/// A text reader that names another place: from where the call began in the text, and the right one.
struct NamedInText(fn(usize, u64) -> u64);

impl Port for NamedInText {
    fn next(
        &self,
        text: &[u8],
        pool: &mut [u8],
        at: usize,
        (position, line, flags): State,
        (a, b, c): Numbers,
    ) -> u32 {
        let before = *position;
        let code = Real.next(text, pool, at, (position, line, flags), (a, b, c));
        if code == REFUSED + 2 {
            *a = self.0(before, *a);
        }
        code
    }
}

/// The places of a line's bytes after the colon that are not digits.
fn odd(line: &[u8]) -> impl DoubleEndedIterator<Item = u64> + '_ {
    let odd = move |&place: &usize| !line[place].is_ascii_hexdigit();
    (1..line.len()).filter(odd).map(|place| place as u64)
}

/// Every such reader.
pub fn all() -> Vec<Wrong> {
    let named = |name, change| -> Wrong { (name, Box::new(Named(change))) };
    let in_text = |name, change| -> Wrong { (name, Box::new(NamedInText(change))) };
    vec![
        named("names the last byte that is no digit", |line, place| {
            odd(line).next_back().map_or(place, |last| last.min(65_535))
        }),
        named("counts places from 1", |_, place| place + 1),
        named("does not count the colon", |_, place| place - 1),
        named("lets a place wrap at 65,536", |line, place| {
            odd(line).next().map_or(place, |first| first % 65_536)
        }),
        named("names a place beyond 65,535", |line, place| {
            odd(line).next().unwrap_or(place)
        }),
        named("takes 65,534 for the last place", |_, place| {
            place.min(65_534)
        }),
        in_text("names no place in a text", |_, _| 0),
        in_text(
            "names the place in the text, not in the line",
            |before, place| (before as u64 + place).min(65_535),
        ),
        load("names no place in a load", |code, _, _, a| {
            if code == REFUSED + 2 {
                *a = 0;
            }
        }),
    ]
}

//! Text readers that are wrong.

use ihex_sys::REFUSED;

use crate::subjects::port::{Port, Real};
use crate::wrong::named::{Numbers, State, Wrong};

/// A text reader that reads another text.
struct OtherText(fn(&[u8]) -> &[u8]);

impl Port for OtherText {
    fn next(&self, text: &[u8], pool: &mut [u8], at: usize, state: State, numbers: Numbers) -> u32 {
        Real.next(self.0(text), pool, at, state, numbers)
    }
}

/// A text reader that does something to the state: from the code and the line number before the call.
struct Text(fn(u32, usize, State));

impl Port for Text {
    fn next(
        &self,
        text: &[u8],
        pool: &mut [u8],
        at: usize,
        (position, line, flags): State,
        numbers: Numbers,
    ) -> u32 {
        let before = *line;
        let code = Real.next(text, pool, at, (position, line, flags), numbers);
        self.0(code, before, (position, line, flags));
        code
    }
}

/// Every wrong text reader.
pub fn all() -> Vec<Wrong> {
    let text = |name, change| -> Wrong { (name, Box::new(Text(change))) };
    vec![
        (
            "drops a CR at the text's end",
            Box::new(OtherText(|text| text.strip_suffix(b"\r").unwrap_or(text))),
        ),
        text("repeats the first line", |code, _, (position, _, _)| {
            if code == 0 {
                *position = 0;
            }
        }),
        text("does not count empty lines", |_, before, (_, line, _)| {
            *line = before.wrapping_add(usize::from(*line != before));
        }),
        text(
            "uses up the line that finds the pool full",
            |code, _, (position, _, _)| {
                if code == REFUSED + 10 {
                    *position += 1;
                }
            },
        ),
        text("goes on after an end record", |code, _, (_, _, flags)| {
            if code == 1 {
                *flags &= 3;
            }
        }),
    ]
}

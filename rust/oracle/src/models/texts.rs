//! What is answered to a text, what each answer leaves, and which line is shown with it.

use ihex_sys::{FINISHED, REFUSED, STOP_AFTER_EOF, STOP_AFTER_FIRST_ERROR};

use crate::inputs::texts::State;
use crate::subjects::the_crate::{by_crate, rows, Row};
use crate::subjects::told::{Shown, Told};

/// The flags after an answer.
pub fn flags_behind(flags: u8, answer: &Told) -> u8 {
    let refused = answer.code >= REFUSED && flags & STOP_AFTER_FIRST_ERROR != 0;
    let ended = answer.code == 1 && flags & STOP_AFTER_EOF != 0;
    flags & 7 | if refused || ended { FINISHED } else { 0 }
}

/// The crate's answers to what lies after this state.
pub fn rows_from(state: State, text: &[u8]) -> Vec<Row> {
    if state.flags & FINISHED != 0 {
        return vec![];
    }
    rows(text.get(state.position..).unwrap_or(&[]), state.flags)
}

/// The line of a row as it should be shown: its own, if it gave a record.
pub fn line_of(text: &[u8], (answer, place): &Row) -> Vec<u8> {
    let mut pieces = text.split_inclusive(|&byte| byte == b'\n');
    let piece = pieces.nth(place.line - 1).filter(|_| answer.is_ok());
    let piece = piece.unwrap_or(&[]);
    match piece.strip_suffix(b"\n") {
        Some(line) => line.strip_suffix(b"\r").unwrap_or(line).to_vec(),
        None => piece.to_vec(),
    }
}

/// A row of a text as it should be told and shown.
pub fn shown_row(text: &[u8], row: &Row) -> Shown {
    (by_crate::answer(&row.0, 0), row.1.line, line_of(text, row))
}

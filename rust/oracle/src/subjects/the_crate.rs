//! The crate: what it can take, and how it is asked.

use std::borrow::Cow;
use std::io::{self, Write};
use std::str;

use ihex_sys::{STOP_AFTER_EOF, STOP_AFTER_FIRST_ERROR};
use original::{Reader, ReaderError, ReaderOptions, Record};

use crate::subjects::told::{teller, LAST_PLACE};

/// Why something is passed over where the crate's source is not at hand.
pub const NO_SOURCE: &str =
    "the source of the crate ihex is not found, and nothing was compared with it";

/// Whether the crate's source is at hand. Where it is not, a line says that these tests compared
/// nothing. It goes past the harness, which shows no line of a test that passes, and which may have
/// begun one.
pub fn at_hand(tests: &str) -> bool {
    if !original::AT_HAND {
        let line = format!("\n-- passed over: rust/oracle/tests/{tests}.rs: {NO_SOURCE}\n");
        let written = io::stderr().write_all(line.as_bytes());
        written.expect("standard error can be written");
    }
    original::AT_HAND
}

/// The bytes as a string, which is all that the crate takes. Bytes that are not UTF-8 lie outside
/// its domain and count as no digit and no colon: each byte from 80 on becomes a `~`, which is
/// neither.
pub fn as_str(bytes: &[u8]) -> Cow<'_, str> {
    match str::from_utf8(bytes) {
        Ok(string) => Cow::Borrowed(string),
        Err(_) => {
            let plain = |&byte: &u8| char::from(if byte < 0x80 { byte } else { b'~' });
            Cow::Owned(bytes.iter().map(plain).collect())
        }
    }
}

/// Whether `str::lines` keeps a CR at the text's end that no LF follows, as its documentation says.
/// The library of a Rust before 1.67 drops it.
pub fn keeps_last_cr() -> bool {
    "\r".lines().next() == Some("\r")
}

/// A line with a byte in it: its number, where it begins, and where the next does.
pub struct Span {
    pub line: usize,
    pub start: usize,
    pub end: usize,
}

/// The lines of a text that have a byte, cut by the rule.
pub fn places(text: &[u8]) -> Vec<Span> {
    let mut found = Vec::new();
    let mut end = 0;
    for (i, piece) in text.split_inclusive(|&byte| byte == b'\n').enumerate() {
        let (line, start) = (i + 1, end);
        end += piece.len();
        if !matches!(piece, b"\n" | b"\r\n") {
            found.push(Span { line, start, end });
        }
    }
    found
}

pub fn options(flags: u8) -> ReaderOptions {
    ReaderOptions {
        stop_after_first_error: flags & STOP_AFTER_FIRST_ERROR != 0,
        stop_after_eof: flags & STOP_AFTER_EOF != 0,
    }
}

/// A refusal of the crate, with the place that it does not name.
#[derive(Clone, Copy, Debug)]
pub struct Refusal {
    pub error: ReaderError,
    /// Where the crate finds a character that is not a digit, the place of the line's first one: that of its
    /// first byte, the colon's being 0.
    pub offender: Option<usize>,
}

/// An answer of the crate to a line.
pub type Answer = Result<Record, Refusal>;

/// The place of the first character after a line's colon that is not a digit.
fn offender(line: &str) -> Option<usize> {
    let mut behind = line.char_indices().skip(1);
    let (place, _) = behind.find(|(_, character)| !character.is_ascii_hexdigit())?;
    Some(place)
}

/// An answer of the crate to a line, with the place. The pattern takes a number too, which there is where
/// the face stands in for the crate.
#[allow(clippy::unneeded_struct_pattern)]
fn judged(answer: Result<Record, ReaderError>, line: &str) -> Answer {
    answer.map_err(|error| Refusal {
        error,
        offender: match error {
            ReaderError::ContainsInvalidCharacters { .. } => offender(line),
            _ => None,
        },
    })
}

/// The place of the character that is not a digit, where a line is refused for one.
pub fn offender_of(answer: &Answer) -> Option<usize> {
    answer.as_ref().err()?.offender
}

impl Refusal {
    /// The place as a refusal names it.
    pub fn named(&self) -> u16 {
        self.offender
            .map_or(0, |place| place.min(LAST_PLACE) as u16)
    }

    /// What people are to read: the crate's text, after the line where that is known, and the column.
    pub fn printed(&self, line: Option<usize>) -> String {
        let line = line.map(|number| format!("line {number}"));
        let column = self.offender.map(|place| match place {
            0..=65_534 => format!("column {}", place + 1),
            _ => "column 65536 or beyond".into(),
        });
        let found: Vec<String> = line.into_iter().chain(column).collect();
        match found.is_empty() {
            true => self.error.to_string(),
            false => format!("{}: {}", found.join(", "), self.error),
        }
    }
}

/// The crate's answer to a line.
pub fn read(line: &[u8]) -> Answer {
    let string = as_str(line);
    judged(Record::from_record_string(&string), &string)
}

/// An answer of the crate, with the place of its line.
pub type Row = (Answer, Span);

/// The crate's answers to a text with these stops.
pub fn rows(text: &[u8], flags: u8) -> Vec<Row> {
    let mut string = as_str(text);
    if !keeps_last_cr() && string.ends_with('\r') {
        // Of the two that now end the last line, the library drops one with the LF.
        string.to_mut().push_str("\r\n");
    }
    let lines = string.lines().filter(|line| !line.is_empty());
    let answers: Vec<Answer> = Reader::new_with_options(&string, options(flags))
        .zip(lines)
        .map(|(answer, line)| judged(answer, line))
        .collect();
    let places = places(text);
    assert!(answers.len() <= places.len(), "more answers than lines");
    answers.into_iter().zip(places).collect()
}

teller!(
    by_crate,
    original,
    crate::subjects::the_crate::Refusal,
    |given| (given.error, given.named())
);

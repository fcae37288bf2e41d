//! Loading: a text into a page with marks, which the crate does not have.

use std::error::Error;
use std::fmt;

use crate::reader::{write_line, LineError, ReaderError};
use crate::srec::SReaderError;
use crate::stranger;
use crate::table::BadTable;

/// Where a program starts, as a text states it. Two starts are equal only if they are stated alike: 1000:0000
/// and 0FFF:0010 are two starts, and so are 0000:1234 and 00001234.
///
/// ```
#[doc = include_str!("../examples/start.rs")]
/// ```
#[derive(PartialEq, Eq, Clone, Copy, Debug, Hash)]
#[non_exhaustive]
pub enum Start {
    /// By a record of type 03.
    Segment {
        /// The register CS.
        cs: u16,
        /// The register IP.
        ip: u16,
    },
    /// A linear address, by a record of type 05 or by the end of a text of S-records.
    Linear(u32),
}

impl fmt::Display for Start {
    fn fmt(&self, f: &mut fmt::Formatter) -> fmt::Result {
        match self {
            Start::Segment { cs, ip } => write!(f, "{cs:04X}:{ip:04X}"),
            Start::Linear(address) => write!(f, "{address:08X}"),
        }
    }
}

/// What an accepted load comes to.
#[derive(PartialEq, Eq, Clone, Copy, Debug, Hash)]
#[non_exhaustive]
pub struct Loaded {
    /// How many data records the text has before its end record.
    pub data_records: usize,
    /// The start that the text states, if it states one. S-records always do: by the address of their end.
    pub start: Option<Start>,
}

/// Why a text is not loaded. [`ask`](crate::ask) refuses a text with some of these too.
#[derive(PartialEq, Eq, Clone, Copy, Debug, Hash)]
#[non_exhaustive]
pub enum LoadError {
    /// A line of Intel HEX gives no record.
    Line(LineError),
    /// A line of S-records gives no record.
    SRecordLine {
        /// The line's number. Empty lines count.
        line: usize,
        /// Why the line gives no record.
        error: SReaderError,
    },
    /// The text has no end record.
    MissingEndOfFileRecord,
    /// The marks do not have [`marks_len`](crate::marks_len) bytes for the places of the page, the page has
    /// over 65,536 places, or it ends beyond 2^32; at a dump, also if the page does not have the length that the
    /// [`Light`](crate::Light) was made for; at a [commit](crate::Ready::commit), if page and marks do not have the lengths that
    /// the [`Intake`](crate::Intake) was made for.
    BadWindow,
    /// The pool or the marks do not have the length that the window table was made for.
    BadTable(BadTable),
    /// A byte of a data record lies outside the window; through a [`Table`](crate::Table), outside all windows of
    /// the owner.
    OutsideWindow {
        /// The record's line.
        line: usize,
        /// The address of the record's first byte that lies outside.
        address: u32,
    },
    /// An S5 states another count than the text has data records before it.
    CountMismatch {
        /// The line of the S5.
        line: usize,
        /// The count that it states.
        stated: u16,
        /// How many data records the text has before it.
        seen: usize,
    },
    /// A start record states another start than the first that the text states.
    StartConflict {
        /// The record's line.
        line: usize,
    },
}

impl LoadError {
    /// The number of the line that decided, if it was one.
    pub fn line(&self) -> Option<usize> {
        match self {
            LoadError::Line(LineError { line, .. })
            | LoadError::SRecordLine { line, .. }
            | LoadError::OutsideWindow { line, .. }
            | LoadError::CountMismatch { line, .. }
            | LoadError::StartConflict { line } => Some(*line),
            LoadError::MissingEndOfFileRecord | LoadError::BadWindow | LoadError::BadTable(_) => {
                None
            }
        }
    }

    /// The column that the line's refusal names, if it names one: see [`ReaderError::column`].
    pub fn column(&self) -> Option<usize> {
        match self {
            LoadError::Line(LineError { error, .. }) => error.column(),
            LoadError::SRecordLine { error, .. } => error.column(),
            _ => None,
        }
    }

    /// The refusal's number: 1 to 9, 13, 16, 17, 20, 21 or 23.
    pub fn number(&self) -> u32 {
        match self {
            LoadError::Line(LineError { error, .. }) => error.number(),
            LoadError::SRecordLine { error, .. } => error.number(),
            LoadError::MissingEndOfFileRecord => 13,
            LoadError::BadWindow => 16,
            LoadError::OutsideWindow { .. } => 17,
            LoadError::CountMismatch { .. } => 20,
            LoadError::StartConflict { .. } => 21,
            LoadError::BadTable(why) => why.number(),
        }
    }
}

impl fmt::Display for LoadError {
    fn fmt(&self, f: &mut fmt::Formatter) -> fmt::Result {
        match self {
            LoadError::Line(refused) => refused.fmt(f),
            LoadError::SRecordLine { line, error } => write_line(f, *line, error.column(), error),
            LoadError::MissingEndOfFileRecord => write!(f, "text has no end of file record"),
            LoadError::BadWindow => write!(f, "page and marks do not fit the window"),
            LoadError::BadTable(why) => why.fmt(f),
            LoadError::OutsideWindow { line, address } => {
                write!(
                    f,
                    "line {line}: address {address:08X} lies outside the window"
                )
            }
            LoadError::CountMismatch { line, stated, seen } => {
                write!(
                    f,
                    "line {line}: count record states {stated} data records, found {seen} before it"
                )
            }
            LoadError::StartConflict { line } => {
                write!(
                    f,
                    "line {line}: start record states another start than the first one"
                )
            }
        }
    }
}

impl Error for LoadError {
    fn source(&self) -> Option<&(dyn Error + 'static)> {
        match self {
            LoadError::Line(refused) => Some(&refused.error),
            LoadError::SRecordLine { error, .. } => Some(error),
            LoadError::BadTable(why) => Some(why),
            _ => None,
        }
    }
}

/// Loads a text into a page whose first place has the address `first`. On acceptance each place
/// that the text states holds its byte and its mark is 1, and every other place keeps its byte and
/// its mark is 0. A refused load changes neither page nor marks.
///
/// Marks take one bit a place: place p is bit p modulo 8 of byte p / 8, lowest bit first. The marks of n
/// places have [`marks_len(n)`](crate::marks_len) bytes. What they held before does not matter, and on
/// acceptance the unused bits of the last byte are 0. [`Marks`](crate::Marks) reads them.
///
/// While a type 02 is the latest extension record, with base 16 times its number, and before any,
/// with base 0, byte i of a data record lies at base + ((offset + i) modulo 65,536): a record that
/// passes the end of its segment goes on at the segment's start. While a type 04 is, with base 65,536
/// times its number, it lies at (base + offset + i) modulo 2^32.
///
/// [`Loaded::start`] is the start that the text states before its end record, if it states one. The same start
/// may be stated more than once. One that differs from the first is [`LoadError::StartConflict`].
///
/// Noise: let a text be accepted, and then be damaged. One byte of it is changed, lost or added, or two
/// neighbours are swapped; or it is cut off after any byte; or each line has at most one such slip, and
/// every LF stays as it is. The load of the damaged text into the same window is refused, or it is the
/// very same load.
///
/// ```
#[doc = include_str!("../examples/load.rs")]
/// ```
pub fn load<T>(text: &T, first: u32, page: &mut [u8], marks: &mut [u8]) -> Result<Loaded, LoadError>
where
    T: AsRef<[u8]> + ?Sized,
{
    let (mut line, mut start, mut a, mut b, mut c) = (0, 0, 0, 0, 0);
    let text = text.as_ref();
    let code = ihex_sys::load(
        text, first, page, marks, &mut line, &mut start, &mut a, &mut b, &mut c,
    );
    intel_result(code, line, start, [a, b, c])
}

/// What a load comes to, from its code, line, kind of start and values.
pub(crate) type Outcome = fn(u32, usize, u8, [u64; 3]) -> Result<Loaded, LoadError>;

/// What a load of Intel HEX comes to.
pub(crate) fn intel_result(
    code: u32,
    line: usize,
    start: u8,
    values: [u64; 3],
) -> Result<Loaded, LoadError> {
    result(code, line, start, values, |line, error| {
        LoadError::Line(LineError { line, error })
    })
}

/// The start of a kind, with its two values, if the kind is not that of none.
fn start_of(kind: u8, b: u64, c: u64) -> Option<Start> {
    match kind {
        ihex_sys::NO_START => None,
        ihex_sys::START_SEGMENT_ADDRESS => Some(Start::Segment {
            cs: b as u16,
            ip: c as u16,
        }),
        ihex_sys::START_LINEAR_ADDRESS => Some(Start::Linear(b as u32)),
        _ => stranger(kind.into()),
    }
}

/// What a load comes to, from its code, line, kind of start and values; `refused` makes the refusal of a line.
pub(crate) fn result(
    code: u32,
    line: usize,
    start: u8,
    [a, b, c]: [u64; 3],
    refused: fn(usize, ReaderError) -> LoadError,
) -> Result<Loaded, LoadError> {
    match code.wrapping_sub(ihex_sys::REFUSED) {
        13 => Err(LoadError::MissingEndOfFileRecord),
        16 => Err(LoadError::BadWindow),
        17 => Err(LoadError::OutsideWindow {
            line,
            address: a as u32,
        }),
        21 => Err(LoadError::StartConflict { line }),
        _ if code == 0 => Ok(Loaded {
            data_records: a as usize,
            start: start_of(start, b, c),
        }),
        _ => match ReaderError::told(code, a, b) {
            Some(error) => Err(refused(line, error)),
            None => stranger(code),
        },
    }
}

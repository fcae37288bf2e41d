//! Reading: a line, and a text answer by answer, with the names and shapes of the crate.

use std::error::Error;
use std::fmt;
use std::iter::FusedIterator;
use std::str::FromStr;

use crate::record::{types, Record};
use crate::stranger;

/// Why a line gives no record.
#[derive(PartialEq, Eq, Clone, Copy, Debug, Hash)]
pub enum ReaderError {
    /// The line does not begin with a colon.
    MissingStartCode,
    /// Fewer than 10 digits stand behind the colon.
    RecordTooShort,
    /// More than 520 digits stand behind the colon.
    RecordTooLong,
    /// The digits are odd in number.
    RecordNotEvenLength,
    /// A byte behind the colon is no hexadecimal digit: the place of the first such byte, the colon's being
    /// 0, and 65,535 for any place beyond that.
    ContainsInvalidCharacters(u16),
    /// The computed checksum, and the one that the line states.
    ChecksumMismatch(u8, u8),
    /// The length that the line states is not the payload's.
    PayloadLengthMismatch,
    /// The type is over 05.
    UnsupportedRecordType(u8),
    /// The payload does not have its type's length.
    InvalidLengthForType,
}

impl ReaderError {
    /// The refusal's number, 1 to 9, in the order in which a line is judged.
    pub fn number(&self) -> u32 {
        match self {
            ReaderError::MissingStartCode => 1,
            ReaderError::ContainsInvalidCharacters(..) => 2,
            ReaderError::RecordTooShort => 3,
            ReaderError::RecordTooLong => 4,
            ReaderError::RecordNotEvenLength => 5,
            ReaderError::ChecksumMismatch(..) => 6,
            ReaderError::PayloadLengthMismatch => 7,
            ReaderError::UnsupportedRecordType(..) => 8,
            ReaderError::InvalidLengthForType => 9,
        }
    }

    /// The place of the byte that the refusal names, if it names one: the colon's is 0. 65,535 stands for
    /// any place beyond that too.
    pub fn place(&self) -> Option<u16> {
        match *self {
            ReaderError::ContainsInvalidCharacters(place) => Some(place),
            _ => None,
        }
    }

    /// The column of that byte, for people: bytes count from 1, the colon's column being 1, so a place p is
    /// column p + 1. Ahead of it each byte is a character, so an editor shows the same column. 65,536 stands
    /// for any column beyond that too.
    pub fn column(&self) -> Option<usize> {
        self.place().map(|place| usize::from(place) + 1)
    }

    /// The refusal with this code and these values, if it is one of a line.
    pub(crate) fn told(code: u32, a: u64, b: u64) -> Option<Self> {
        Some(match code.wrapping_sub(ihex_sys::REFUSED) {
            1 => ReaderError::MissingStartCode,
            2 => ReaderError::ContainsInvalidCharacters(a as u16),
            3 => ReaderError::RecordTooShort,
            4 => ReaderError::RecordTooLong,
            5 => ReaderError::RecordNotEvenLength,
            6 => ReaderError::ChecksumMismatch(a as u8, b as u8),
            7 => ReaderError::PayloadLengthMismatch,
            8 => ReaderError::UnsupportedRecordType(a as u8),
            9 => ReaderError::InvalidLengthForType,
            _ => return None,
        })
    }
}

impl Error for ReaderError {}

/// The texts are the crate's; ahead of that of `ContainsInvalidCharacters` stands the column, as in
/// "column 17: ". In that of `ChecksumMismatch` the computed checksum stands first, and the one that the
/// line states stands behind "expecting".
impl fmt::Display for ReaderError {
    fn fmt(&self, f: &mut fmt::Formatter) -> fmt::Result {
        match self {
            ReaderError::MissingStartCode => write!(f, "missing start code ':'"),
            ReaderError::RecordTooShort => write!(f, "too short"),
            ReaderError::RecordTooLong => write!(f, "too long"),
            ReaderError::RecordNotEvenLength => {
                write!(f, "record does not contain a whole number of bytes")
            }
            ReaderError::ContainsInvalidCharacters(place) => {
                let column = u32::from(*place) + 1;
                let beyond = if *place == u16::MAX { " or beyond" } else { "" };
                write!(
                    f,
                    "column {column}{beyond}: invalid characters encountered in record"
                )
            }
            ReaderError::ChecksumMismatch(computed, stated) => {
                write!(
                    f,
                    "invalid checksum '{computed:02X}', expecting '{stated:02X}'"
                )
            }
            ReaderError::PayloadLengthMismatch => {
                write!(f, "payload length does not match record header")
            }
            ReaderError::UnsupportedRecordType(record_type) => {
                write!(f, "unsupported IHEX record type '{record_type:02X}'")
            }
            ReaderError::InvalidLengthForType => {
                write!(f, "payload length invalid for record type")
            }
        }
    }
}

/// A refused line: its number, from 1 on, and why.
#[derive(PartialEq, Eq, Clone, Copy, Debug, Hash)]
pub struct LineError {
    /// The line's number. Empty lines count.
    pub line: usize,
    /// Why the line gives no record.
    pub error: ReaderError,
}

/// The line's number ahead of the refusal's text: "line 3, column 17: " where it names a column, else
/// "line 3: ".
impl fmt::Display for LineError {
    fn fmt(&self, f: &mut fmt::Formatter) -> fmt::Result {
        write_line(f, self.line, self.error.column(), &self.error)
    }
}

/// Writes a line's number before a refusal's text, which begins with a column if the refusal names one.
pub(crate) fn write_line(
    f: &mut fmt::Formatter,
    line: usize,
    column: Option<usize>,
    error: &dyn fmt::Display,
) -> fmt::Result {
    let after = column.map_or(':', |_| ',');
    write!(f, "line {line}{after} {error}")
}

impl Error for LineError {
    fn source(&self) -> Option<&(dyn Error + 'static)> {
        Some(&self.error)
    }
}

/// Room for the payload of any record.
pub(crate) type Pool = [u8; 255];

/// The answer to a line, from its code and values. The payload lies at the pool's start.
pub(crate) fn answer(
    code: u32,
    a: u64,
    b: u64,
    c: u64,
    pool: &Pool,
) -> Result<Record, ReaderError> {
    if code > u32::from(types::START_LINEAR_ADDRESS) {
        return Err(ReaderError::told(code, a, b).unwrap_or_else(|| stranger(code)));
    }
    Ok(match code as u8 {
        types::DATA => Record::Data {
            offset: a as u16,
            value: Vec::from(pool.get(..c as usize).unwrap_or_else(|| stranger(code))),
        },
        types::END_OF_FILE => Record::EndOfFile,
        types::EXTENDED_SEGMENT_ADDRESS => Record::ExtendedSegmentAddress(a as u16),
        types::START_SEGMENT_ADDRESS => Record::StartSegmentAddress {
            cs: a as u16,
            ip: b as u16,
        },
        types::EXTENDED_LINEAR_ADDRESS => Record::ExtendedLinearAddress(a as u16),
        _ => Record::StartLinearAddress(a as u32),
    })
}

impl Record {
    /// Reads one line, without its line end.
    ///
    /// ```
    #[doc = include_str!("../examples/record.rs")]
    /// ```
    pub fn from_record_string(string: &str) -> Result<Self, ReaderError> {
        Record::from_record_bytes(string.as_bytes())
    }

    /// Reads one line, without its line end, that need not be UTF-8.
    ///
    /// ```
    #[doc = include_str!("../examples/bytes.rs")]
    /// ```
    pub fn from_record_bytes(line: &[u8]) -> Result<Self, ReaderError> {
        let mut pool: Pool = [0; 255];
        let (mut a, mut b, mut c) = (0, 0, 0);
        let code = ihex_sys::read_record(line, &mut pool, 0, &mut a, &mut b, &mut c);
        answer(code, a, b, c, &pool)
    }
}

impl FromStr for Record {
    type Err = ReaderError;
    fn from_str(input: &str) -> Result<Self, Self::Err> {
        Record::from_record_string(input)
    }
}

/// Which answers end a reading before the text does.
#[derive(Copy, Clone, Eq, PartialEq, Hash, Debug)]
pub struct ReaderOptions {
    /// Whether nothing follows a refused line.
    pub stop_after_first_error: bool,
    /// Whether nothing follows an end record.
    pub stop_after_eof: bool,
}

impl Default for ReaderOptions {
    fn default() -> Self {
        ReaderOptions {
            stop_after_first_error: true,
            stop_after_eof: true,
        }
    }
}

/// The flags of a reader with these stops.
pub(crate) fn flags(options: ReaderOptions) -> u8 {
    let flag = |set, value| if set { value } else { 0 };
    flag(
        options.stop_after_first_error,
        ihex_sys::STOP_AFTER_FIRST_ERROR,
    ) | flag(options.stop_after_eof, ihex_sys::STOP_AFTER_EOF)
}

/// An answer with the number of its line.
pub(crate) fn with_line(
    line: usize,
    answer: Result<Record, ReaderError>,
) -> Result<(usize, Record), LineError> {
    match answer {
        Ok(record) => Ok((line, record)),
        Err(error) => Err(LineError { line, error }),
    }
}

/// The answers to the lines of a text that need not be UTF-8. Empty lines are passed over.
///
/// ```
#[doc = include_str!("../examples/bytes.rs")]
/// ```
#[derive(Clone, Debug)]
pub struct ByteReader<'a> {
    text: &'a [u8],
    position: usize,
    line: usize,
    flags: u8,
}

impl<'a> ByteReader<'a> {
    /// A reader of `text` with these stops.
    pub fn new_with_options<T>(text: &'a T, options: ReaderOptions) -> Self
    where
        T: AsRef<[u8]> + ?Sized,
    {
        ByteReader {
            text: text.as_ref(),
            position: 0,
            line: 0,
            flags: flags(options),
        }
    }

    /// A reader of `text` with both stops.
    pub fn new<T>(text: &'a T) -> Self
    where
        T: AsRef<[u8]> + ?Sized,
    {
        ByteReader::new_with_options(text, ReaderOptions::default())
    }

    /// The number of the line that was answered last, and 0 before any.
    pub fn line(&self) -> usize {
        self.line
    }

    /// The same answers, each with the number of its line.
    pub fn numbered(self) -> Numbered<'a> {
        Numbered { reader: self }
    }
}

impl<'a> Iterator for ByteReader<'a> {
    type Item = Result<Record, ReaderError>;

    fn next(&mut self) -> Option<Self::Item> {
        let mut pool: Pool = [0; 255];
        let (mut a, mut b, mut c) = (0, 0, 0);
        let code = ihex_sys::next(
            self.text,
            &mut pool,
            0,
            &mut self.position,
            &mut self.line,
            &mut self.flags,
            &mut a,
            &mut b,
            &mut c,
        );
        if code == ihex_sys::DONE {
            return None;
        }
        Some(answer(code, a, b, c, &pool))
    }
}

impl<'a> FusedIterator for ByteReader<'a> {}

/// The answers to the lines of a text. Empty lines are passed over.
///
/// ```
#[doc = include_str!("../examples/text.rs")]
/// ```
#[derive(Clone, Debug)]
pub struct Reader<'a> {
    bytes: ByteReader<'a>,
}

impl<'a> Reader<'a> {
    /// A reader of `string` with these stops.
    pub fn new_with_options(string: &'a str, options: ReaderOptions) -> Self {
        Reader {
            bytes: ByteReader::new_with_options(string, options),
        }
    }

    /// A reader of `string` with both stops.
    pub fn new(string: &'a str) -> Self {
        Reader::new_with_options(string, ReaderOptions::default())
    }

    /// The number of the line that was answered last, and 0 before any.
    pub fn line(&self) -> usize {
        self.bytes.line()
    }

    /// The same answers, each with the number of its line.
    ///
    /// ```
    #[doc = include_str!("../examples/lines.rs")]
    /// ```
    pub fn numbered(self) -> Numbered<'a> {
        self.bytes.numbered()
    }
}

impl<'a> Iterator for Reader<'a> {
    type Item = Result<Record, ReaderError>;

    fn next(&mut self) -> Option<Self::Item> {
        self.bytes.next()
    }
}

impl<'a> FusedIterator for Reader<'a> {}

/// The answers to the lines of a text, each with the number of its line.
#[derive(Clone, Debug)]
pub struct Numbered<'a> {
    reader: ByteReader<'a>,
}

impl<'a> Iterator for Numbered<'a> {
    type Item = Result<(usize, Record), LineError>;

    fn next(&mut self) -> Option<Self::Item> {
        let answer = self.reader.next()?;
        Some(with_line(self.reader.line(), answer))
    }
}

impl<'a> FusedIterator for Numbered<'a> {}

//! Motorola S-records: a line to a record and back, and a text of them loaded into a page with marks. The
//! crate has none of it.
//!
//! A line is a capital `S`, a digit for the type, and then two hexadecimal digits for each byte: the count,
//! the address, the data and the checksum. The count says how many bytes follow it. Which kind a text is,
//! Intel HEX or S-records, is for the caller to say; nothing here guesses it.
//!
//! What [`load`](crate::load) promises about noise holds for Intel HEX alone. The checksum of an S-record does
//! not cover the digit of its type, so `S1050000AABB95` with a 2, 0, 3 or 7 in place of the 1 is accepted as
//! something else.
//!
//! ```
#![doc = include_str!("../examples/srecord.rs")]
//! ```

use std::error::Error;
use std::fmt;
use std::str::FromStr;

use crate::loader::{self, LoadError, Loaded};
use crate::reader::ReaderError;
use crate::stranger;

/// The most bytes of data that a record can have: 252 with an address of 2 bytes, one less with 3, two less
/// with 4.
pub const MAX_DATA: usize = ihex_sys::MAX_SRECORD_DATA;

/// The type of an S-record.
#[derive(PartialEq, Eq, Clone, Copy, Debug, Hash)]
#[non_exhaustive]
pub enum SType {
    /// A header, with an address of 2 bytes. It is neither loaded nor counted.
    S0,
    /// Data at an address of 2 bytes.
    S1,
    /// Data at an address of 3 bytes.
    S2,
    /// Data at an address of 4 bytes.
    S3,
    /// How many data records it states to be before it, in place of an address of 2 bytes.
    S5,
    /// The end of the text, with a start address of 4 bytes.
    S7,
    /// The end of the text, with a start address of 3 bytes.
    S8,
    /// The end of the text, with a start address of 2 bytes.
    S9,
}

impl SType {
    /// Every type, by its digit.
    const ALL: [(u8, SType); 8] = [
        (0, SType::S0),
        (1, SType::S1),
        (2, SType::S2),
        (3, SType::S3),
        (5, SType::S5),
        (7, SType::S7),
        (8, SType::S8),
        (9, SType::S9),
    ];

    /// The type with this digit. There is none with 4, with 6, or over 9.
    pub fn from_digit(digit: u8) -> Option<Self> {
        let mut all = SType::ALL.into_iter();
        all.find(|(own, _)| *own == digit).map(|(_, kind)| kind)
    }

    /// The type's digit.
    pub fn digit(self) -> u8 {
        match self {
            SType::S0 => 0,
            SType::S1 => 1,
            SType::S2 => 2,
            SType::S3 => 3,
            SType::S5 => 5,
            SType::S7 => 7,
            SType::S8 => 8,
            SType::S9 => 9,
        }
    }

    /// Whether the type is one of data, S1 to S3. The loader places and counts these.
    pub fn is_data(self) -> bool {
        matches!(self, SType::S1 | SType::S2 | SType::S3)
    }

    /// Whether the type is one of an end, S7 to S9.
    pub fn is_end(self) -> bool {
        matches!(self, SType::S7 | SType::S8 | SType::S9)
    }
}

/// What a line of S-records says.
#[derive(PartialEq, Eq, Clone, Debug, Hash)]
pub struct SRecord {
    /// The type.
    pub kind: SType,
    /// The address: of the first byte of data, or where a program starts. For S5 it is the count.
    pub address: u32,
    /// The bytes of data. Only S0 to S3 have any.
    pub value: Vec<u8>,
}

/// Why a line gives no S-record. The refusals are those of a line of Intel HEX, with the same numbers; the
/// texts of 1 and 8 name S-records. They are judged in the order 1, 2, 3 (no type), 8, 3, 4, 5, 6, 7, 9.
///
/// | Refusal | Of an S-record |
/// |---|---|
/// | `MissingStartCode` | the line does not begin with a capital `S` |
/// | `ContainsInvalidCharacters` | a byte after the `S` is not a hexadecimal digit: the position of the first, the `S` being 0 |
/// | `RecordTooShort` | no type, or under 8, 10 or 12 digits after it with an address of 2, 3 or 4 bytes |
/// | `RecordTooLong` | over 512 digits after the type |
/// | `RecordNotEvenLength` | an odd number of digits after the type |
/// | `ChecksumMismatch` | the computed checksum, and the one that the line states |
/// | `PayloadLengthMismatch` | the count is not the number of bytes that follow it |
/// | `UnsupportedRecordType` | the digit is not a type's: 4, 6, or A to F |
/// | `InvalidLengthForType` | data in an S5 or an end |
#[derive(PartialEq, Eq, Clone, Copy, Debug, Hash)]
pub struct SReaderError(pub ReaderError);

impl SReaderError {
    /// The refusal's number, 1 to 9.
    pub fn number(&self) -> u32 {
        self.0.number()
    }

    /// The position of the byte that the refusal names, if it names one: the `S` is at 0. 65,535 means position
    /// 65,535 or later.
    pub fn place(&self) -> Option<u16> {
        self.0.place()
    }

    /// The column of that byte, for people: bytes count from 1, so the `S` is in column 1. 65,536 means column
    /// 65,536 or later.
    pub fn column(&self) -> Option<usize> {
        self.0.column()
    }
}

impl Error for SReaderError {}

impl fmt::Display for SReaderError {
    fn fmt(&self, f: &mut fmt::Formatter) -> fmt::Result {
        match self.0 {
            ReaderError::MissingStartCode => write!(f, "missing start code 'S'"),
            ReaderError::UnsupportedRecordType(digit) => {
                write!(f, "unsupported S-record type '{digit:X}'")
            }
            other => other.fmt(f),
        }
    }
}

/// Why an S-record is not written.
#[derive(PartialEq, Eq, Clone, Copy, Debug, Hash)]
#[non_exhaustive]
pub enum SWriterError {
    /// An S5 or an end has data.
    InvalidLengthForType,
    /// More data than the count can cover, and how many bytes: over 252, 251 or 250 with an address of 2, 3
    /// or 4 bytes.
    DataExceedsMaximumLength(usize),
    /// The address needs more bytes than the type has.
    AddressTooWide,
    /// There is no memory for the line.
    SynthesisFailed,
}

impl SWriterError {
    /// The refusal's number: 9, 12 or 25. `SynthesisFailed`, which is not a refusal of the rules, has 0.
    pub fn number(&self) -> u32 {
        match self {
            SWriterError::InvalidLengthForType => 9,
            SWriterError::DataExceedsMaximumLength(..) => 12,
            SWriterError::AddressTooWide => 25,
            SWriterError::SynthesisFailed => 0,
        }
    }
}

impl Error for SWriterError {}

impl fmt::Display for SWriterError {
    fn fmt(&self, f: &mut fmt::Formatter) -> fmt::Result {
        match self {
            SWriterError::InvalidLengthForType => write!(f, "record of this type has no data"),
            SWriterError::DataExceedsMaximumLength(bytes) => {
                write!(f, "record has {bytes} bytes, more than its count can cover")
            }
            SWriterError::AddressTooWide => write!(f, "address does not fit the record type"),
            SWriterError::SynthesisFailed => {
                write!(f, "unable to write string representation of record")
            }
        }
    }
}

impl SRecord {
    /// Reads one line, without its line end.
    ///
    /// ```
    #[doc = include_str!("../examples/srecord.rs")]
    /// ```
    pub fn from_record_string(string: &str) -> Result<Self, SReaderError> {
        SRecord::from_record_bytes(string.as_bytes())
    }

    /// Reads one line, without its line end, that need not be UTF-8.
    pub fn from_record_bytes(line: &[u8]) -> Result<Self, SReaderError> {
        let mut pool = [0; MAX_DATA];
        let (mut a, mut b, mut c) = (0, 0, 0);
        let code = ihex_sys::read_srecord(line, &mut pool, 0, &mut a, &mut b, &mut c);
        if code >= ihex_sys::REFUSED {
            let refused = ReaderError::told(code, a, b).unwrap_or_else(|| stranger(code));
            return Err(SReaderError(refused));
        }
        let data = pool.get(..c as usize).map(Vec::from);
        match SType::from_digit(code as u8).zip(data) {
            Some((kind, value)) => Ok(SRecord {
                kind,
                address: a as u32,
                value,
            }),
            None => stranger(code),
        }
    }

    /// The record's line in capitals, without a line end. It reads back to the same record.
    ///
    /// ```
    #[doc = include_str!("../examples/srecord.rs")]
    /// ```
    pub fn to_record_string(&self) -> Result<String, SWriterError> {
        let mut out = Vec::new();
        out.try_reserve_exact(ihex_sys::MAX_SRECORD_LINE)
            .map_err(|_| SWriterError::SynthesisFailed)?;
        out.resize(ihex_sys::MAX_SRECORD_LINE, 0);
        let mut value = 0;
        let code = ihex_sys::to_srecord_string(
            self.kind.digit(),
            self.address,
            0,
            self.value.len(),
            &self.value,
            &mut out,
            &mut value,
        );
        match code.wrapping_sub(ihex_sys::REFUSED) {
            9 => Err(SWriterError::InvalidLengthForType),
            12 => Err(SWriterError::DataExceedsMaximumLength(value as usize)),
            25 => Err(SWriterError::AddressTooWide),
            _ if code == 0 => {
                out.truncate(value as usize);
                String::from_utf8(out).map_err(|_| SWriterError::SynthesisFailed)
            }
            _ => stranger(code),
        }
    }
}

impl FromStr for SRecord {
    type Err = SReaderError;
    fn from_str(input: &str) -> Result<Self, Self::Err> {
        SRecord::from_record_string(input)
    }
}

/// Loads a text of S-records into a page whose first place has the address `first`, as [`load`](crate::load)
/// does a text of Intel HEX: page, marks and line numbers are as there, and a refused load changes neither
/// page nor marks.
///
/// Byte i of a data record, S1 to S3, lies at (address + i) modulo 2^32. An S0 places nothing and is not counted.
/// An S5 is compared with all data records before it, and [`LoadError::CountMismatch`] says where it states
/// another count. The first S7, S8 or S9 ends the text, whatever types the data has; what follows it changes
/// nothing. Its address is the start, [`Start::Linear`](crate::Start::Linear), also where it is 0. A text without
/// an end is refused.
///
/// ```
#[doc = include_str!("../examples/srecords.rs")]
/// ```
pub fn load_srecords<T>(
    text: &T,
    first: u32,
    page: &mut [u8],
    marks: &mut [u8],
) -> Result<Loaded, LoadError>
where
    T: AsRef<[u8]> + ?Sized,
{
    let (mut line, mut start, mut a, mut b, mut c) = (0, 0, 0, 0, 0);
    let text = text.as_ref();
    let code = ihex_sys::load_srecords(
        text, first, page, marks, &mut line, &mut start, &mut a, &mut b, &mut c,
    );
    result(code, line, start, [a, b, c])
}

/// What a load of S-records comes to.
pub(crate) fn result(
    code: u32,
    line: usize,
    start: u8,
    values: [u64; 3],
) -> Result<Loaded, LoadError> {
    if code == ihex_sys::REFUSED + 20 {
        return Err(LoadError::CountMismatch {
            line,
            stated: values[0] as u16,
            seen: values[1] as usize,
        });
    }
    loader::result(code, line, start, values, |line, error| {
        LoadError::SRecordLine {
            line,
            error: SReaderError(error),
        }
    })
}

//! Writing: a record, and a list of records, with the names and shapes of the crate.

use std::error::Error;
use std::fmt;

use crate::record::Record;
use crate::stranger;

/// Why a record or an object is not written.
#[derive(PartialEq, Eq, Clone, Copy, Debug, Hash)]
pub enum WriterError {
    /// A payload of more than 255 bytes, and its length.
    DataExceedsMaximumLength(usize),
    /// The list is empty or its last record is no end record.
    MissingEndOfFileRecord,
    /// More than one end record, and how many.
    MultipleEndOfFileRecords(usize),
    /// There is no memory for the result.
    SynthesisFailed,
}

impl WriterError {
    /// The refusal's number, 12 to 14. `SynthesisFailed`, which is no rule's refusal, has 0.
    pub fn number(&self) -> u32 {
        match self {
            WriterError::DataExceedsMaximumLength(..) => 12,
            WriterError::MissingEndOfFileRecord => 13,
            WriterError::MultipleEndOfFileRecords(..) => 14,
            WriterError::SynthesisFailed => 0,
        }
    }
}

impl Error for WriterError {}

/// The texts are the crate's.
impl fmt::Display for WriterError {
    fn fmt(&self, f: &mut fmt::Formatter) -> fmt::Result {
        match self {
            WriterError::DataExceedsMaximumLength(bytes) => {
                write!(f, "record has {bytes} bytes (max 255)")
            }
            WriterError::MissingEndOfFileRecord => {
                write!(f, "object is missing end of file record")
            }
            WriterError::MultipleEndOfFileRecords(eofs) => {
                write!(f, "object contains {eofs} end of file records")
            }
            WriterError::SynthesisFailed => {
                write!(f, "unable to write string representation of record")
            }
        }
    }
}

/// The payload that a record owns: none but that of data.
fn payload(record: &Record) -> &[u8] {
    match record {
        Record::Data { value, .. } => value,
        _ => &[],
    }
}

/// The two numbers of a record besides its payload.
fn numbers(record: &Record) -> (u32, u16) {
    match *record {
        Record::Data { offset, .. } => (u32::from(offset), 0),
        Record::EndOfFile => (0, 0),
        Record::ExtendedSegmentAddress(number) => (u32::from(number), 0),
        Record::StartSegmentAddress { cs, ip } => (u32::from(cs), ip),
        Record::ExtendedLinearAddress(number) => (u32::from(number), 0),
        Record::StartLinearAddress(number) => (number, 0),
    }
}

/// At least the length of a record's line with its LF, if the record can be written.
fn room(record: &Record) -> usize {
    match record {
        Record::Data { value, .. } => value.len().min(255) * 2 + 12,
        _ => 20,
    }
}

/// Memory for this many more bytes, or the refusal.
fn reserve(bytes: &mut Vec<u8>, n: usize) -> Result<(), WriterError> {
    bytes
        .try_reserve_exact(n)
        .map_err(|_| WriterError::SynthesisFailed)
}

/// The first bytes of the output as a text, or the refusal that the code names.
fn result(code: u32, value: u64, mut out: Vec<u8>) -> Result<String, WriterError> {
    match code.wrapping_sub(ihex_sys::REFUSED) {
        12 => Err(WriterError::DataExceedsMaximumLength(value as usize)),
        13 => Err(WriterError::MissingEndOfFileRecord),
        14 => Err(WriterError::MultipleEndOfFileRecords(value as usize)),
        _ if code == 0 => {
            out.truncate(value as usize);
            String::from_utf8(out).map_err(|_| WriterError::SynthesisFailed)
        }
        _ => stranger(code),
    }
}

impl Record {
    /// The record's line, without a line end.
    ///
    /// ```
    #[doc = include_str!("../examples/record.rs")]
    /// ```
    pub fn to_record_string(&self) -> Result<String, WriterError> {
        let pool = payload(self);
        let (number, second) = numbers(self);
        let mut out = Vec::new();
        reserve(&mut out, room(self))?;
        out.resize(room(self), 0);
        let mut value = 0;
        let code = ihex_sys::to_record_string(
            self.record_type(),
            number,
            second,
            0,
            pool.len(),
            pool,
            &mut out,
            &mut value,
        );
        result(code, value, out)
    }
}

/// The text of an object: the line of each record, each with one LF. The list must have one end
/// record, as its last.
///
/// ```
#[doc = include_str!("../examples/object.rs")]
/// ```
pub fn create_object_file_representation(records: &[Record]) -> Result<String, WriterError> {
    let total = |each: fn(&Record) -> usize| {
        let sum = |sum: usize, record| sum.saturating_add(each(record));
        records.iter().fold(0, sum)
    };
    let (mut list, mut pool, mut out) = (Vec::new(), Vec::new(), Vec::new());
    reserve(&mut list, records.len().saturating_mul(ihex_sys::ENTRY))?;
    reserve(&mut pool, total(|record| payload(record).len()))?;
    reserve(&mut out, total(room))?;
    for record in records {
        let (number, second) = numbers(record);
        let bytes = payload(record);
        let kind = record.record_type();
        let entry = ihex_sys::entry(kind, number, second, pool.len(), bytes.len());
        list.extend_from_slice(&entry);
        pool.extend_from_slice(bytes);
    }
    out.resize(total(room), 0);
    let mut value = 0;
    let code = ihex_sys::create_object_file_representation(&list, &pool, &mut out, &mut value);
    result(code, value, out)
}

//! Answers in one form, whoever gives them: the code and values of the C entry points.

/// An answer to a line or to a call of the text reader.
#[derive(Clone, PartialEq, Eq, Debug)]
pub struct Told {
    pub code: u32,
    pub values: [u64; 3],
    /// The payload of a data record.
    pub payload: Vec<u8>,
}

pub fn told(code: u32, a: u64, b: u64, c: u64) -> Told {
    Told {
        code,
        values: [a, b, c],
        payload: Vec::new(),
    }
}

/// The answer to a data record whose payload does not fit the pool.
pub fn pool_full() -> Told {
    told(ihex_sys::REFUSED + 10, 0, 0, 0)
}

/// An answer, its line's number, and the line shown.
pub type Shown = (Told, usize, Vec<u8>);

/// Where a line lies: in which buffer, from where on, and how long it is.
pub type Place = (u8, usize, usize);

/// The greatest place that a refusal names; it stands for any beyond that too.
pub const LAST_PLACE: usize = 65_535;

/// What should be written: a record as the C entry points take it.
#[derive(Clone, PartialEq, Eq, Debug)]
pub struct Entry {
    pub kind: u8,
    pub number: u32,
    pub second: u16,
    pub at: usize,
    pub len: usize,
}

impl Entry {
    /// The payload of a data record, if it lies in the pool.
    pub fn payload<'a>(&self, pool: &'a [u8]) -> Option<&'a [u8]> {
        part(pool, self.at, self.len)
    }

    /// How long the line of a record is, with its LF.
    pub fn written(&self) -> usize {
        match self.kind {
            0 => self.len.saturating_mul(2).saturating_add(12),
            1 => 12,
            2 | 4 => 16,
            _ => 20,
        }
    }

    /// Whether this is a record at all.
    pub fn is_record(&self) -> bool {
        match self.kind {
            1 | 5 => true,
            0 | 2 | 3 | 4 => self.number <= 0xFFFF,
            _ => false,
        }
    }
}

/// An S-record that should be written, as the C entry points take it.
#[derive(Clone, PartialEq, Eq, Debug)]
pub struct SEntry {
    pub kind: u8,
    pub address: u32,
    pub at: usize,
    pub len: usize,
}

/// A light as the C entry points take it, but for the count that it knows.
#[derive(Clone, Copy, PartialEq, Eq, Debug)]
pub struct Light {
    pub first: u32,
    pub length: usize,
    pub high: usize,
    pub low: usize,
}

/// The seven numbers of a listener, by value.
#[derive(Clone, Copy, PartialEq, Eq, Debug, Default)]
pub struct Listening {
    pub flags: u8,
    pub skipped: u16,
    pub base: u16,
    pub begin: u32,
    pub lines: usize,
    pub used: usize,
    pub records: usize,
}

impl Listening {
    /// The same as the C entry points take them.
    pub fn lend(&mut self) -> ihex_sys::Listener<'_> {
        (
            &mut self.flags,
            &mut self.skipped,
            &mut self.base,
            &mut self.begin,
            &mut self.lines,
            &mut self.used,
            &mut self.records,
        )
    }
}

/// So many bytes of a pool from a position on, if they lie in it.
pub fn part(pool: &[u8], at: usize, len: usize) -> Option<&[u8]> {
    pool.get(at..at.checked_add(len)?)
}

/// The same functions for the crate and for the Rust face, which have the same shapes; but the face's
/// refusals name a place, and the crate's are given one.
macro_rules! teller {
    ($name:ident, $from:ident, $refusal:ty, $parts:expr) => {
        pub mod $name {
            use $crate::subjects::told::{told, Entry, Told};
            use $from::{ReaderError, Record, WriterError};

            /// A record whose payload goes to this position.
            pub fn record(given: &Record, at: usize) -> Told {
                let kind = u32::from(given.record_type());
                match given {
                    Record::Data { offset, value } => Told {
                        payload: value.clone(),
                        ..told(kind, u64::from(*offset), at as u64, value.len() as u64)
                    },
                    Record::EndOfFile => told(kind, 0, 0, 0),
                    Record::ExtendedSegmentAddress(n) => told(kind, u64::from(*n), 0, 0),
                    Record::StartSegmentAddress { cs, ip } => {
                        told(kind, u64::from(*cs), u64::from(*ip), 0)
                    }
                    Record::ExtendedLinearAddress(n) => told(kind, u64::from(*n), 0, 0),
                    Record::StartLinearAddress(n) => told(kind, u64::from(*n), 0, 0),
                }
            }

            pub fn refusal(given: &$refusal) -> Told {
                let parts: fn(&$refusal) -> (ReaderError, u16) = $parts;
                let (error, place) = parts(given);
                let (n, a, b) = match error {
                    ReaderError::MissingStartCode => (1, 0, 0),
                    ReaderError::ContainsInvalidCharacters { .. } => (2, place, 0),
                    ReaderError::RecordTooShort => (3, 0, 0),
                    ReaderError::RecordTooLong => (4, 0, 0),
                    ReaderError::RecordNotEvenLength => (5, 0, 0),
                    ReaderError::ChecksumMismatch(computed, stated) => (6, computed.into(), stated),
                    ReaderError::PayloadLengthMismatch => (7, 0, 0),
                    ReaderError::UnsupportedRecordType(kind) => (8, kind.into(), 0),
                    ReaderError::InvalidLengthForType => (9, 0, 0),
                };
                told(ihex_sys::REFUSED + n, a.into(), b.into(), 0)
            }

            pub fn answer(given: &Result<Record, $refusal>, at: usize) -> Told {
                match given {
                    Ok(read) => record(read, at),
                    Err(refused) => refusal(refused),
                }
            }

            /// The code and the value of a writer's refusal.
            pub fn unwritten(given: &WriterError) -> (u32, u64) {
                let (n, value) = match *given {
                    WriterError::DataExceedsMaximumLength(n) => (12, n),
                    WriterError::MissingEndOfFileRecord => (13, 0),
                    WriterError::MultipleEndOfFileRecords(n) => (14, n),
                    WriterError::SynthesisFailed => (0, 0),
                };
                (ihex_sys::REFUSED + n, value as u64)
            }

            /// The record that an entry stands for, if it is one and its payload lies in the pool.
            pub fn made(entry: &Entry, pool: &[u8]) -> Option<Record> {
                if !entry.is_record() {
                    return None;
                }
                let number = entry.number as u16;
                Some(match entry.kind {
                    0 => Record::Data {
                        offset: number,
                        value: entry.payload(pool)?.to_vec(),
                    },
                    1 => Record::EndOfFile,
                    2 => Record::ExtendedSegmentAddress(number),
                    3 => Record::StartSegmentAddress {
                        cs: number,
                        ip: entry.second,
                    },
                    4 => Record::ExtendedLinearAddress(number),
                    _ => Record::StartLinearAddress(entry.number),
                })
            }
        }
    };
}

pub(crate) use teller;

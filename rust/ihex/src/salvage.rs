//! Salvage: what can be saved of a noisy capture, which the crate does not have.

use std::error::Error;
use std::fmt;
use std::iter::FusedIterator;
use std::slice::ChunksExact;
use std::str;

use crate::reader::{write_line, ReaderError};
use crate::stranger;

/// How many bytes an entry takes of the list that [`salvage_into`] is lent.
pub const DROPPED_SIZE: usize = ihex_sys::DROPPED;

/// Why a line is not in the clean file, or why the clean file has an end record that the text has not.
#[derive(PartialEq, Eq, Clone, Copy, Debug, Hash)]
#[non_exhaustive]
pub enum Reason {
    /// The line gives no record.
    Refused(ReaderError),
    /// The line is a data record. A line before it was refused, and no good type 02 or 04 has come since.
    BaseUnknown,
    /// The text has no end record, and one was added.
    EndAdded,
}

impl Reason {
    /// The number that stands in the list of the C entry point: the refusal's, 1 to 9, 0 for `BaseUnknown`, and
    /// 13 for `EndAdded`.
    pub fn number(&self) -> u32 {
        match self {
            Reason::Refused(error) => error.number(),
            Reason::BaseUnknown => ihex_sys::BASE_UNKNOWN,
            Reason::EndAdded => ihex_sys::MISSING_END_OF_FILE_RECORD,
        }
    }

    /// The column that the refusal names, if it names one: see [`ReaderError::column`].
    pub fn column(&self) -> Option<usize> {
        match self {
            Reason::Refused(error) => error.column(),
            _ => None,
        }
    }
}

impl fmt::Display for Reason {
    fn fmt(&self, f: &mut fmt::Formatter) -> fmt::Result {
        match self {
            Reason::Refused(error) => error.fmt(f),
            Reason::BaseUnknown => write!(f, "base unknown after a refused line"),
            Reason::EndAdded => write!(f, "end of file record added, the text has none"),
        }
    }
}

/// An entry of the list: a line that was dropped, or the end record that was added.
#[derive(PartialEq, Eq, Clone, Copy, Debug, Hash)]
#[non_exhaustive]
pub struct Dropped {
    /// The line's number, from 1 on. Empty lines count. It is 0 for an end record that was added.
    pub line: usize,
    /// Why the line is not in the clean file.
    pub reason: Reason,
}

impl Dropped {
    /// The entry that these bytes stand for.
    fn told(entry: &[u8]) -> Self {
        let number = |from: usize, size: usize| {
            let bytes = entry.iter().skip(from).take(size).rev();
            bytes.fold(0, |sum, &byte| sum << 8 | u64::from(byte))
        };
        let (why, a, b, line) = (
            number(0, 4) as u32,
            number(4, 2),
            number(6, 2),
            number(8, 8),
        );
        let reason = match why {
            ihex_sys::BASE_UNKNOWN => Reason::BaseUnknown,
            ihex_sys::MISSING_END_OF_FILE_RECORD => Reason::EndAdded,
            _ => match ReaderError::told(ihex_sys::REFUSED.wrapping_add(why), a, b) {
                Some(error) => Reason::Refused(error),
                None => stranger(why),
            },
        };
        Dropped {
            line: line as usize,
            reason,
        }
    }
}

/// The line's number before the reason: "line 3, column 17: " if the reason names a column, else "line 3: ". An
/// end record that was added has no line.
impl fmt::Display for Dropped {
    fn fmt(&self, f: &mut fmt::Formatter) -> fmt::Result {
        match self.reason {
            Reason::EndAdded => self.reason.fmt(f),
            reason => write_line(f, self.line, reason.column(), &reason),
        }
    }
}

/// The entries of a list, in order. Line numbers ascend; only an end record that was added, which is last, has 0.
#[derive(Clone, Debug)]
pub struct DroppedLines<'a> {
    entries: ChunksExact<'a, u8>,
}

impl<'a> DroppedLines<'a> {
    fn new(list: &'a [u8]) -> Self {
        DroppedLines {
            entries: list.chunks_exact(DROPPED_SIZE),
        }
    }
}

impl<'a> Iterator for DroppedLines<'a> {
    type Item = Dropped;

    fn next(&mut self) -> Option<Dropped> {
        self.entries.next().map(Dropped::told)
    }

    fn size_hint(&self) -> (usize, Option<usize>) {
        self.entries.size_hint()
    }
}

impl<'a> ExactSizeIterator for DroppedLines<'a> {}

impl<'a> FusedIterator for DroppedLines<'a> {}

/// What was saved of a text, and what was dropped.
#[derive(PartialEq, Eq, Clone, Debug, Hash)]
#[non_exhaustive]
pub struct Salvaged {
    /// The clean file.
    pub clean: String,
    /// The list, as the C entry point writes it.
    list: Vec<u8>,
}

impl Salvaged {
    /// What was dropped, in order.
    pub fn dropped(&self) -> DroppedLines<'_> {
        DroppedLines::new(&self.list)
    }
}

/// What was saved of a text, and what was dropped, in buffers that are lent.
#[derive(Clone, Debug)]
#[non_exhaustive]
pub struct SalvagedInto<'a> {
    /// The clean file: the front of the output.
    pub clean: &'a str,
    /// What was dropped, in order, from the front of the list.
    pub dropped: DroppedLines<'a>,
}

/// Why nothing was saved.
#[derive(PartialEq, Eq, Clone, Copy, Debug, Hash)]
#[non_exhaustive]
pub enum SalvageError {
    /// The clean file is longer than the output.
    OutputFull,
    /// The list has more entries than there is room for.
    ListFull,
    /// There is no memory for the clean file or the list.
    SynthesisFailed,
}

impl SalvageError {
    /// The refusal's number: 15 or 22. `SynthesisFailed`, which is not a refusal of the rules, has 0.
    pub fn number(&self) -> u32 {
        match self {
            SalvageError::OutputFull => 15,
            SalvageError::ListFull => 22,
            SalvageError::SynthesisFailed => 0,
        }
    }
}

impl Error for SalvageError {}

impl fmt::Display for SalvageError {
    fn fmt(&self, f: &mut fmt::Formatter) -> fmt::Result {
        match self {
            SalvageError::OutputFull => write!(f, "clean file is longer than the output"),
            SalvageError::ListFull => write!(f, "list of dropped lines is longer than its room"),
            SalvageError::SynthesisFailed => write!(f, "no memory for what is saved of the text"),
        }
    }
}

/// How many lines of a text have a byte.
fn lines_with_a_byte(text: &[u8]) -> usize {
    let pieces = text.split_inclusive(|&byte| byte == b'\n');
    let with_a_byte = pieces.filter(|&piece| !matches!(piece, b"\n" | b"\r\n"));
    with_a_byte.count()
}

/// So many bytes.
fn room(length: Option<usize>) -> Result<Vec<u8>, SalvageError> {
    let length = length.ok_or(SalvageError::SynthesisFailed)?;
    let mut bytes = Vec::new();
    bytes
        .try_reserve_exact(length)
        .map_err(|_| SalvageError::SynthesisFailed)?;
    bytes.resize(length, 0);
    Ok(bytes)
}

/// Saves what can be saved of a noisy capture of Intel HEX: a clean file, and a list of what was dropped.
///
/// Reading goes on past refused lines and ends at the first end record. After a refused line the base is unknown,
/// since the line may stand for a record of type 02 or 04. Data records are dropped then, also those without data,
/// until the next good type 02 or 04. At the beginning the base is known. Every other record up to the end is kept,
/// in order, and written as [`Record::to_record_string`](crate::Record::to_record_string) writes it, with one LF
/// after it. If the text has no end record, one is added. Each line that was dropped is in the list, and last the
/// end record that was added.
///
/// What can be relied on: a text is undamaged if no line of it is refused up to its end record, or up to its end if it
/// has none. Let the lines of the capture stand, in order, for the first lines of an undamaged text.
/// Lines that are not refused are equal. A stretch of one or more refused lines may stand for any stretch of lines
/// that does not hold the end record. Then each byte that the clean file states is stated by the undamaged text
/// before its end record, at the same address. The same holds for an undamaged text that is cut off after any byte;
/// and for one with nothing but empty lines after its end record, in which one byte is changed, lost or added.
/// Salvaged again, the clean file is itself, and the list is empty. [`load`](crate::load) accepts it, unless the window
/// is refused, a byte lies outside it, or two starts differ: both are kept.
///
/// Not promised:
///
/// - A kept byte may be older than the last one stated, if the record that stated that one was dropped.
/// - If the end record was damaged, what follows it gets in. Its line is in the list.
/// - A line that was emptied or lost whole leaves no trace.
/// - Two wrong characters in one line can cancel each other. Such a line is not refused.
///
/// It allocates room for both; the only refusal is [`SalvageError::SynthesisFailed`], if there is no memory. The
/// clean file has at most 13 bytes more than the text. The list has at most one entry for each line that has a
/// byte, and one; an entry takes [`DROPPED_SIZE`] bytes.
///
/// ```
#[doc = include_str!("../examples/salvage.rs")]
/// ```
pub fn salvage<T>(text: &T) -> Result<Salvaged, SalvageError>
where
    T: AsRef<[u8]> + ?Sized,
{
    let text = text.as_ref();
    let entries = lines_with_a_byte(text).checked_add(1);
    let mut list = room(entries.and_then(|entries| entries.checked_mul(DROPPED_SIZE)))?;
    let mut out = room(text.len().checked_add(13))?;
    let (length, entries) = saved(text, &mut out, &mut list)?;
    out.truncate(length);
    list.truncate(entries * DROPPED_SIZE);
    let clean = String::from_utf8(out).map_err(|_| SalvageError::SynthesisFailed)?;
    Ok(Salvaged { clean, list })
}

/// Saves what can be saved of a text, as [`salvage`] does, into an output and a list that are lent, from their
/// starts on. The list has room for an entry in each [`DROPPED_SIZE`] bytes. No byte after the clean file and after
/// the last entry changes, and on a refusal none at all. `OutputFull` goes before `ListFull`.
pub fn salvage_into<'a, T>(
    text: &T,
    out: &'a mut [u8],
    list: &'a mut [u8],
) -> Result<SalvagedInto<'a>, SalvageError>
where
    T: AsRef<[u8]> + ?Sized,
{
    let (length, entries) = saved(text.as_ref(), out, list)?;
    let (out, list): (&'a [u8], &'a [u8]) = (out, list);
    let clean = out
        .get(..length)
        .and_then(|clean| str::from_utf8(clean).ok());
    let list = list.get(..entries * DROPPED_SIZE);
    let (clean, list) = clean.zip(list).ok_or(SalvageError::SynthesisFailed)?;
    Ok(SalvagedInto {
        clean,
        dropped: DroppedLines::new(list),
    })
}

/// The length of the clean file and the number of entries, or the refusal that the code names.
fn saved(text: &[u8], out: &mut [u8], list: &mut [u8]) -> Result<(usize, usize), SalvageError> {
    let (mut a, mut b) = (0, 0);
    let code = ihex_sys::salvage(text, out, list, &mut a, &mut b);
    match code.wrapping_sub(ihex_sys::REFUSED) {
        15 => Err(SalvageError::OutputFull),
        22 => Err(SalvageError::ListFull),
        _ if code == 0 => Ok((a as usize, b as usize)),
        _ => stranger(code),
    }
}

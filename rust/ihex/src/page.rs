//! Writing a page with marks as a file, which the crate does not have.

use std::error::Error;
use std::fmt;

use crate::stranger;

/// The most bytes that the file of a page has: 7 for each of 65,536 places, and 58.
pub const MAX_PAGE_FILE: usize = ihex_sys::MAX_PAGE_FILE;

/// Why a page is not written.
#[derive(PartialEq, Eq, Clone, Copy, Debug, Hash)]
#[non_exhaustive]
pub enum PageError {
    /// The file is longer than the output.
    OutputFull,
    /// The marks do not have [`marks_len`](crate::marks_len) bytes for the places of the page, the page has
    /// over 65,536 places, or it ends beyond 2^32.
    BadWindow,
    /// An unused bit of the last byte of the marks is set: the place that the lowest such bit would have,
    /// counted from place 0. It never comes where the number of places is a multiple of 8.
    BadMark(usize),
    /// There is no memory for the file.
    SynthesisFailed,
}

impl PageError {
    /// The refusal's number: 15, 16 or 19. `SynthesisFailed`, which is no rule's refusal, has 0.
    pub fn number(&self) -> u32 {
        match self {
            PageError::OutputFull => 15,
            PageError::BadWindow => 16,
            PageError::BadMark(..) => 19,
            PageError::SynthesisFailed => 0,
        }
    }
}

impl Error for PageError {}

impl fmt::Display for PageError {
    fn fmt(&self, f: &mut fmt::Formatter) -> fmt::Result {
        match self {
            PageError::OutputFull => write!(f, "file is longer than the output"),
            PageError::BadWindow => write!(f, "page and marks do not fit the window"),
            PageError::BadMark(place) => {
                write!(f, "place {place} is marked, but the page has no such place")
            }
            PageError::SynthesisFailed => write!(f, "no memory for the file of the page"),
        }
    }
}

/// The file's length, or the refusal that the code names.
fn told(code: u32, value: u64) -> Result<usize, PageError> {
    match code.wrapping_sub(ihex_sys::REFUSED) {
        15 => Err(PageError::OutputFull),
        16 => Err(PageError::BadWindow),
        19 => Err(PageError::BadMark(value as usize)),
        _ if code == 0 => Ok(value as usize),
        _ => stranger(code),
    }
}

/// How long the file of a page is: the length of what [`write_page`] gives. At most it is
/// [`MAX_PAGE_FILE`].
pub fn page_file_length(first: u32, page: &[u8], marks: &[u8]) -> Result<usize, PageError> {
    let mut value = 0;
    let code = ihex_sys::page_file_length(first, page, marks, &mut value);
    told(code, value)
}

/// The file of a page whose first place has the address `first`: the bytes of the places whose mark is
/// 1. Marks take one bit a place, as in [`load`](crate::load). Of two refusals that hold, `BadWindow` goes
/// before `BadMark`.
///
/// Each run of marked places becomes data records of 16 bytes, the last of them shorter where need be,
/// counted from the run's start and afresh at each multiple of 65,536, where a record is cut too. A
/// type 04 record stands before the first data record and wherever the upper 16 bits of the address
/// change; the end record is last, and stands alone where no place is marked. One LF stands after each
/// line.
///
/// [`load`](crate::load) of the file with the same `first` and lengths gives the same marks and the
/// same bytes at them. It gives no start: a page has none.
///
/// ```
#[doc = include_str!("../examples/page.rs")]
/// ```
pub fn write_page(first: u32, page: &[u8], marks: &[u8]) -> Result<String, PageError> {
    let length = page_file_length(first, page, marks)?;
    let mut out = Vec::new();
    out.try_reserve_exact(length)
        .map_err(|_| PageError::SynthesisFailed)?;
    out.resize(length, 0);
    write_page_into(first, page, marks, &mut out)?;
    String::from_utf8(out).map_err(|_| PageError::SynthesisFailed)
}

/// Writes the file of a page, as [`write_page`] gives it, into an output that is lent, from its start on,
/// and says how long it is. No byte after it changes, and on a refusal none at all. `OutputFull` goes after
/// the other refusals.
pub fn write_page_into(
    first: u32,
    page: &[u8],
    marks: &[u8],
    out: &mut [u8],
) -> Result<usize, PageError> {
    let mut value = 0;
    let code = ihex_sys::write_page(first, page, marks, out, &mut value);
    told(code, value)
}

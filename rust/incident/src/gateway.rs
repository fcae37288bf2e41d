//! The gateway's loop, written as its programmer would have: record by record into the page.

use original::{Reader, ReaderError, ReaderOptions, Record};

/// Marks a place: one bit, the lowest of a byte first.
fn mark(marks: &mut [u8], place: usize) {
    marks[place / 8] |= 1 << (place % 8);
}

/// Fills page and marks from a text, and counts its data records. Bytes outside the window are passed
/// over.
pub fn fill(
    text: &str,
    stop_after_eof: bool,
    first: u32,
    page: &mut [u8],
    marks: &mut [u8],
) -> Result<usize, ReaderError> {
    let options = ReaderOptions {
        stop_after_eof,
        ..Default::default()
    };
    let (mut base, mut records) = (0, 0);
    marks.fill(0);
    for record in Reader::new_with_options(text, options) {
        match record? {
            Record::Data { offset, value } => {
                records += 1;
                // One sum, as its programmer wrote it, and no segment's wrap. The window lies out of
                // any segment's reach, so nothing shown depends on it.
                let place = (base + u32::from(offset)).wrapping_sub(first) as usize;
                for (i, byte) in value.into_iter().enumerate() {
                    if place + i < page.len() {
                        page[place + i] = byte;
                        mark(marks, place + i);
                    }
                }
            }
            Record::ExtendedSegmentAddress(n) => base = u32::from(n) << 4,
            Record::ExtendedLinearAddress(n) => base = u32::from(n) << 16,
            Record::StartSegmentAddress { .. } | Record::StartLinearAddress(_) => {}
            // With the stop off the reader goes on, and so does this loop.
            Record::EndOfFile => {}
        }
    }
    Ok(records)
}

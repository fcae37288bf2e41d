//! The file of a page with marks: a plain model over the crate's own writer.

use std::ops::Range;

use ihex_sys::{MAX_PAGE, REFUSED};
use original::{create_object_file_representation, Record};

use crate::inputs::marks::{packed_length, unpacked, unused};
use crate::models::writes::{answered, refused, Written};

/// The code of page and marks that are not a window.
pub const BAD_WINDOW: u32 = REFUSED + 16;
/// The code of an unused bit of the marks that is set.
pub const BAD_MARK: u32 = REFUSED + 19;

/// What a page writer goes by.
#[derive(Clone, Copy)]
pub struct Rules {
    /// Whether so many places want so many bytes of marks.
    pub fits: fn(usize, usize) -> bool,
    /// The bit of a row that is refused, if one is, by the place that it would have.
    pub refused: fn(&[u8], usize) -> Option<usize>,
    /// The list of marks of so many places, from the row.
    pub unpacked: fn(&[u8], usize) -> Vec<u8>,
    /// The runs of places that are written, from the list of marks.
    pub runs: fn(&[u8]) -> Vec<Range<u64>>,
    /// The records of a run, by their addresses.
    pub records: fn(Range<u64>) -> Vec<Range<u64>>,
    /// Whether a type 04 stands before a record, from the record before it, if there is one.
    pub extends: fn(Option<&Range<u64>>, &Range<u64>) -> bool,
}

/// The right rules.
pub const RIGHT: Rules = Rules {
    fits: |places, row| row == packed_length(places),
    refused: |row, places| unused(row, places).next(),
    unpacked,
    runs,
    records: |run| records(run, 16),
    extends: |last, next| last.map(upper) != Some(upper(next)),
};

/// The upper 16 bits of a record's address.
pub fn upper(record: &Range<u64>) -> u64 {
    record.start >> 16
}

/// The runs of places whose mark is not 0.
pub fn runs(marks: &[u8]) -> Vec<Range<u64>> {
    let mut found = Vec::new();
    let mut start = 0;
    for run in marks.split(|&mark| mark == 0) {
        let end = start + run.len() as u64;
        found.push(start..end);
        start = end + 1;
    }
    found.retain(|run| !run.is_empty());
    found
}

/// A run of at most 65,536 places as it is, or in two where a multiple of 65,536 lies in it.
pub fn parted(run: Range<u64>) -> Vec<Range<u64>> {
    let multiple = (run.end - 1) >> 16 << 16;
    match run.start < multiple {
        true => vec![run.start..multiple, multiple..run.end],
        false => vec![run],
    }
}

/// Records of so many bytes, and of what is left.
pub fn sized(part: Range<u64>, size: u64) -> Vec<Range<u64>> {
    let starts = part.clone().step_by(size as usize);
    let record = |start| start..part.end.min(start + size);
    starts.map(record).collect()
}

/// The records of a run that is cut at a multiple of 65,536, of so many bytes each.
pub fn records(run: Range<u64>, size: u64) -> Vec<Range<u64>> {
    let parts = parted(run).into_iter();
    parts.flat_map(|part| sized(part, size)).collect()
}

/// A run of places as one of addresses.
pub fn moved(run: Range<u64>, first: u64) -> Range<u64> {
    run.start + first..run.end + first
}

/// The list of records of a page, by these rules.
fn listed(rules: Rules, first: u32, page: &[u8], marks: &[u8]) -> Vec<Record> {
    let first = u64::from(first);
    let runs = (rules.runs)(marks).into_iter().map(|run| moved(run, first));
    let mut list = Vec::new();
    let mut last = None;
    for record in runs.flat_map(rules.records) {
        if (rules.extends)(last.as_ref(), &record) {
            list.push(Record::ExtendedLinearAddress(upper(&record) as u16));
        }
        let place = |address| (address - first) as usize;
        list.push(Record::Data {
            offset: record.start as u16,
            value: page[place(record.start)..place(record.end)].to_vec(),
        });
        last = Some(record);
    }
    list.push(Record::EndOfFile);
    list
}

/// A page's file, or the code and the value of the refusal.
pub type Filed = Result<String, (u32, u64)>;

/// The file as the crate writes the records that these rules make of a page and its row of marks.
pub fn filed(rules: Rules, first: u32, page: &[u8], row: &[u8]) -> Filed {
    let places = page.len();
    let end = u64::from(first) + places as u64;
    if !(rules.fits)(places, row.len()) || places > MAX_PAGE || end > 1 << 32 {
        return Err((BAD_WINDOW, 0));
    }
    if let Some(place) = (rules.refused)(row, places) {
        return Err((BAD_MARK, place as u64));
    }
    let list = listed(rules, first, page, &(rules.unpacked)(row, places));
    let text = create_object_file_representation(&list);
    Ok(text.expect("a list of short records and an end"))
}

/// What is answered with room for `out` bytes.
pub fn written(file: &Filed, out: usize) -> Written {
    match file {
        Ok(text) => answered(Ok(text.clone()), out),
        Err((code, value)) => refused(*code, *value),
    }
}

/// What is told of the file's length.
pub fn length(file: &Filed) -> (u32, u64) {
    match file {
        Ok(text) => (0, text.len() as u64),
        Err(refusal) => *refusal,
    }
}

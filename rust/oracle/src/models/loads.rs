//! Loads: a plain model over the crate's own reader.

use std::ops::Range;

use ihex_sys::{REFUSED, STOP_AFTER_EOF, STOP_AFTER_FIRST_ERROR};
use original::Record;

use crate::inputs::loads::LoadCase;
use crate::inputs::marks::{packed, packed_length};
use crate::subjects::the_crate::{by_crate, rows};

/// A load reads with both stops.
pub const BOTH_STOPS: u8 = STOP_AFTER_FIRST_ERROR | STOP_AFTER_EOF;

/// A start as it is told: the type of its record, and its two values.
pub type Start = (u8, u64, u64);

/// What is told where no start is.
const NO_START: Start = (0, 0, 0);

/// What a load answers: its code, the number of the line, the kind of start, and its values.
#[derive(Clone, Copy, PartialEq, Eq, Debug)]
pub struct LoadAnswer {
    pub code: u32,
    pub line: usize,
    pub start: u8,
    pub values: [u64; 3],
}

impl LoadAnswer {
    /// The refusal with this number and these values.
    pub fn refused(number: u32, a: u64, b: u64, line: usize) -> Self {
        LoadAnswer {
            code: REFUSED + number,
            line,
            start: 0,
            values: [a, b, 0],
        }
    }

    /// An accepted load of so many data records, with the start that the text states, if it states one.
    pub fn accepted(records: u64, start: Option<Start>) -> Self {
        let (start, b, c) = start.unwrap_or(NO_START);
        LoadAnswer {
            code: 0,
            line: 0,
            start,
            values: [records, b, c],
        }
    }
}

/// The start that a record states, if it states one.
pub fn start_of(record: &Record) -> Option<Start> {
    match *record {
        Record::StartSegmentAddress { cs, ip } => Some((3, cs.into(), ip.into())),
        Record::StartLinearAddress(address) => Some((5, address.into(), 0)),
        _ => None,
    }
}

/// The latest extension record, with its base.
#[derive(Clone, Copy)]
pub enum Latest {
    None,
    /// A type 02 before which no type 04 stands.
    Segment(u64),
    /// A type 02 after a type 04.
    Back(u64),
    Linear(u64),
}

impl Latest {
    pub fn base(self) -> u64 {
        match self {
            Latest::None => 0,
            Latest::Segment(base) | Latest::Back(base) | Latest::Linear(base) => base,
        }
    }
}

/// Where a byte of a data record lies, from the record's offset and the byte's index.
pub type Placing = fn(Latest, u64, u64) -> u64;

/// What a load goes by.
#[derive(Clone, Copy)]
pub struct Rules {
    pub placing: Placing,
    /// What a start record makes of the latest extension record.
    pub start: fn(Latest) -> Latest,
    /// Whether a start is refused that comes after the first.
    pub differs: fn(Start, Start) -> bool,
    /// The start that is told, of the first and a later one.
    pub kept: fn(Start, Start) -> Start,
    /// What a type 02 with this base makes of the latest before it.
    pub segment: fn(Latest, u64) -> Latest,
    /// Which address of a data record lies outside the window, if one does.
    pub outside: fn(&[u64], &Range<u64>) -> Option<u64>,
    /// Whether so many places want so many bytes of marks.
    pub fits: fn(usize, usize) -> bool,
    /// What a place that is stated does to the list of marks.
    pub mark: fn(&mut [u8], usize),
}

/// The right rules.
pub const RIGHT: Rules = Rules {
    placing: intel,
    start: |latest| latest,
    differs: |first, later| first != later,
    kept: |first, _| first,
    segment: |latest, base| match latest {
        Latest::None | Latest::Segment(_) => Latest::Segment(base),
        Latest::Back(_) | Latest::Linear(_) => Latest::Back(base),
    },
    outside: first_outside,
    fits: |places, marks| marks == packed_length(places),
    mark: |marks, place| marks[place] = 1,
};

/// Intel's rule: a segment's offset wraps at 64K, a linear address at 4G. Before any extension
/// record, segment 0.
pub fn intel(latest: Latest, offset: u64, i: u64) -> u64 {
    match latest {
        Latest::Linear(base) => (base + offset + i) & 0xFFFF_FFFF,
        _ => latest.base() + ((offset + i) & 0xFFFF),
    }
}

/// The first address that lies outside the window.
pub fn first_outside(addresses: &[u64], window: &Range<u64>) -> Option<u64> {
    let mut outside = addresses.iter().filter(|&at| !window.contains(at));
    outside.next().copied()
}

/// Placings that leave out one wrap each: before any extension record, after a type 02 with no type 04
/// before it, and after a type 02 with one.
pub const UNWRAPPED: [(&str, Placing); 3] = [
    (
        "takes the sum before any extension record",
        |latest, offset, i| match latest {
            Latest::None => offset + i,
            _ => intel(latest, offset, i),
        },
    ),
    (
        "goes on beyond a segment's end",
        |latest, offset, i| match latest {
            Latest::Segment(base) => base + offset + i,
            _ => intel(latest, offset, i),
        },
    ),
    (
        "goes on beyond a segment's end once there was a type 04",
        |latest, offset, i| match latest {
            Latest::Back(base) => base + offset + i,
            _ => intel(latest, offset, i),
        },
    ),
];

/// What a text that is accepted states: how many data records, its start, and the places of the window with
/// their bytes, in order.
#[derive(Default, PartialEq, Eq)]
pub struct Statement {
    pub records: u64,
    pub start: Option<Start>,
    pub places: Vec<(usize, u8)>,
}

impl Statement {
    /// Whether a start is taken after those before it; then it is one of them.
    fn takes(&mut self, rules: Rules, later: Start) -> bool {
        let first = self.start.unwrap_or(later);
        if self.start.is_some() && (rules.differs)(first, later) {
            return false;
        }
        self.start = Some((rules.kept)(first, later));
        true
    }
}

/// What a text states, or the refusal.
pub type Stated = Result<Statement, LoadAnswer>;

/// The addresses of a case's window, or the refusal of it.
pub fn window(case: &LoadCase, fits: fn(usize, usize) -> bool) -> Result<Range<u64>, LoadAnswer> {
    let first = u64::from(case.first);
    let window = first..first + case.page as u64;
    if !fits(case.page, case.marks) || case.page > 65_536 || window.end > 1 << 32 {
        return Err(LoadAnswer::refused(16, 0, 0, 0));
    }
    Ok(window)
}

/// Where the bytes of a text are to lie.
pub struct Site<'a> {
    /// The place of an address, if it has one.
    pub place: &'a dyn Fn(u64) -> Option<usize>,
    /// Which address of a data record lies outside, if one does.
    pub outside: &'a dyn Fn(&[u64]) -> Option<u64>,
}

/// What a text states in its window by these rules.
pub fn stated(rules: Rules, case: &LoadCase) -> Stated {
    let window = window(case, rules.fits)?;
    let site = Site {
        place: &|address| place_in(&window, address),
        outside: &|addresses| (rules.outside)(addresses, &window),
    };
    stated_at(rules, &case.text, &site)
}

/// The place of an address in a window, if it lies in it.
pub fn place_in(window: &Range<u64>, address: u64) -> Option<usize> {
    let inside = window.contains(&address);
    inside.then(|| (address - window.start) as usize)
}

/// What a text states at a site by these rules.
pub fn stated_at(rules: Rules, text: &[u8], site: &Site) -> Stated {
    let mut latest = Latest::None;
    let mut stated = Statement::default();
    for (answer, line) in rows(text, BOTH_STOPS) {
        let refused = |number, a, b| Err(LoadAnswer::refused(number, a, b, line.line));
        let record = match answer {
            Ok(record) => record,
            Err(why) => {
                let told = by_crate::refusal(&why);
                return refused(told.code - REFUSED, told.values[0], told.values[1]);
            }
        };
        if let Some(later) = start_of(&record) {
            if !stated.takes(rules, later) {
                return refused(21, 0, 0);
            }
            latest = (rules.start)(latest);
        }
        match record {
            Record::Data { offset, value } => {
                stated.records += 1;
                let address = |i| (rules.placing)(latest, offset.into(), i);
                let addresses: Vec<u64> = (0..value.len() as u64).map(address).collect();
                if let Some(outside) = (site.outside)(&addresses) {
                    return refused(17, outside, 0);
                }
                let places = addresses.into_iter().map(site.place).zip(value);
                let inside = places.filter_map(|(place, byte)| Some((place?, byte)));
                stated.places.extend(inside);
            }
            Record::ExtendedSegmentAddress(n) => {
                latest = (rules.segment)(latest, u64::from(n) << 4);
            }
            Record::ExtendedLinearAddress(n) => latest = Latest::Linear(u64::from(n) << 16),
            Record::EndOfFile => return Ok(stated),
            _ => {}
        }
    }
    Err(LoadAnswer::refused(13, 0, 0, 0))
}

/// A load by these rules.
pub fn placed_by(rules: Rules, case: &LoadCase, page: &mut [u8], row: &mut [u8]) -> LoadAnswer {
    laid(stated(rules, case), rules.mark, page, row)
}

/// What a text states, laid on page and marks, which change on acceptance only. A list of marks is made, a byte
/// for each place, and then packed.
pub fn laid(
    stated: Stated,
    mark: fn(&mut [u8], usize),
    page: &mut [u8],
    row: &mut [u8],
) -> LoadAnswer {
    match stated {
        Err(refused) => refused,
        Ok(stated) => {
            let mut marks = vec![0; page.len()];
            for (place, byte) in stated.places {
                page[place] = byte;
                mark(&mut marks, place);
            }
            for (byte, eight) in row.iter_mut().zip(packed(&marks)) {
                *byte = eight;
            }
            LoadAnswer::accepted(stated.records, stated.start)
        }
    }
}

/// The model: a load by the right rules.
pub fn model(case: &LoadCase, page: &mut [u8], row: &mut [u8]) -> LoadAnswer {
    placed_by(RIGHT, case, page, row)
}

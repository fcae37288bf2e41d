//! Salvage: a plain model over the crate's reader and writer, and the places that a text states.

use ihex_sys::{DROPPED, REFUSED, STOP_AFTER_EOF};
use original::Record;

use crate::models::loads::{intel, Latest, BOTH_STOPS, RIGHT as LOADING};
use crate::subjects::the_crate::{by_crate, rows};

/// The code of an output that is too short.
pub const OUTPUT_FULL: u32 = REFUSED + 15;
/// The code of a list that is too short.
pub const LIST_FULL: u32 = REFUSED + 22;

/// An entry of the list.
#[derive(Clone, Copy, PartialEq, Eq, Debug)]
pub struct Entry {
    pub why: u32,
    pub a: u16,
    pub b: u16,
    pub line: u64,
}

impl Entry {
    /// A line that is dropped for its base.
    fn base_unknown(line: usize) -> Self {
        Entry {
            why: 0,
            a: 0,
            b: 0,
            line: line as u64,
        }
    }

    /// An end record that is added.
    pub const END_ADDED: Entry = Entry {
        why: 13,
        a: 0,
        b: 0,
        line: 0,
    };

    /// The bytes that it has in a list, each number low byte first.
    pub fn bytes(&self) -> Vec<u8> {
        let mut bytes = self.why.to_le_bytes().to_vec();
        bytes.extend(self.a.to_le_bytes());
        bytes.extend(self.b.to_le_bytes());
        bytes.extend(self.line.to_le_bytes());
        bytes
    }
}

/// What is saved of a text: the lines of the clean file, each with its line end, and the list.
#[derive(Clone, PartialEq, Eq, Debug, Default)]
pub struct Saved {
    pub lines: Vec<Vec<u8>>,
    pub list: Vec<Entry>,
}

impl Saved {
    pub fn clean(&self) -> Vec<u8> {
        self.lines.concat()
    }

    /// The list in bytes.
    pub fn entries(&self) -> Vec<u8> {
        self.list.iter().flat_map(Entry::bytes).collect()
    }
}

/// What a salvage goes by.
#[derive(Clone, Copy)]
pub struct Rules {
    /// Whether the base is known at the beginning.
    pub begins: bool,
    /// Whether it is known after a refused line, from whether a record was read before.
    pub refused: fn(bool) -> bool,
    /// Whether it is known after a record.
    pub known: fn(bool, &Record) -> bool,
    /// Whether a record is kept.
    pub keeps: fn(bool, &Record) -> bool,
    /// With which stops the text is read.
    pub stops: u8,
    /// The line that is written for a record, from its own line.
    pub written: fn(&Record, &[u8]) -> Vec<u8>,
}

/// The right rules.
pub const RIGHT: Rules = Rules {
    begins: true,
    refused: |_| false,
    known: |known, record| known || sets_base(record),
    keeps: |known, record| known || !matches!(record, Record::Data { .. }),
    stops: STOP_AFTER_EOF,
    written: |record, _| written(record),
};

/// Whether a record is of type 02 or 04.
pub fn sets_base(record: &Record) -> bool {
    matches!(
        record,
        Record::ExtendedSegmentAddress(_) | Record::ExtendedLinearAddress(_)
    )
}

/// The crate's line of a record.
pub fn written(record: &Record) -> Vec<u8> {
    let line = record.to_record_string();
    line.expect("a record that was read").into_bytes()
}

/// What is saved of a text by these rules.
pub fn saved(rules: Rules, text: &[u8]) -> Saved {
    let mut known = rules.begins;
    let (mut read, mut ended) = (false, false);
    let mut saved = Saved::default();
    for (answer, place) in rows(text, rules.stops) {
        match answer {
            Err(why) => {
                let told = by_crate::refusal(&why);
                saved.list.push(Entry {
                    why: told.code - REFUSED,
                    a: told.values[0] as u16,
                    b: told.values[1] as u16,
                    line: place.line as u64,
                });
                known = (rules.refused)(read);
            }
            Ok(record) => {
                if (rules.keeps)(known, &record) {
                    let mut line = (rules.written)(&record, &text[place.start..place.end]);
                    line.push(b'\n');
                    saved.lines.push(line);
                } else {
                    saved.list.push(Entry::base_unknown(place.line));
                }
                known = (rules.known)(known, &record);
                ended |= record == Record::EndOfFile;
                read = true;
            }
        }
    }
    if !ended {
        saved.lines.push(b":00000001FF\n".to_vec());
        saved.list.push(Entry::END_ADDED);
    }
    saved
}

/// What a salvage returns: its code and its two numbers.
pub type Answer = (u32, [u64; 2]);

/// What is saved, laid into an output and a list, which change on acceptance only.
pub fn laid(saved: &Saved, out: &mut [u8], list: &mut [u8]) -> Answer {
    let (clean, entries) = (saved.clean(), saved.entries());
    if clean.len() > out.len() {
        return (OUTPUT_FULL, [0, 0]);
    }
    if saved.list.len() > list.len() / DROPPED {
        return (LIST_FULL, [0, 0]);
    }
    out[..clean.len()].copy_from_slice(&clean);
    list[..entries.len()].copy_from_slice(&entries);
    (0, [clean.len() as u64, saved.list.len() as u64])
}

/// A byte at an address.
pub type Placement = (u64, u8);

/// What a text states before its end record, or before its first refused line, in order.
pub fn placements(text: &[u8]) -> Vec<Placement> {
    let mut latest = Latest::None;
    let mut found = Vec::new();
    for (answer, _) in rows(text, BOTH_STOPS) {
        match answer {
            Ok(Record::Data { offset, value }) => {
                let place = |(i, byte)| (intel(latest, offset.into(), i), byte);
                found.extend((0..).zip(value).map(place));
            }
            Ok(Record::ExtendedSegmentAddress(n)) => {
                latest = (LOADING.segment)(latest, u64::from(n) << 4);
            }
            Ok(Record::ExtendedLinearAddress(n)) => latest = Latest::Linear(u64::from(n) << 16),
            _ => {}
        }
    }
    found
}

/// The first that is not, in order, among all.
pub fn stranger_among(some: &[Placement], all: &[Placement]) -> Option<Placement> {
    let mut rest = all.iter();
    some.iter()
        .find(|one| !rest.any(|other| other == *one))
        .copied()
}

/// Whether no line of a text is refused, up to its end record.
pub fn is_undamaged(text: &[u8]) -> bool {
    rows(text, BOTH_STOPS)
        .iter()
        .all(|(answer, _)| answer.is_ok())
}

/// Whether nothing but empty lines follows the end record, if there is one.
pub fn ends_bare(text: &[u8]) -> bool {
    rows(text, BOTH_STOPS).len() == rows(text, 0).len()
}

/// Whether a line has a byte, and is refused.
pub fn is_refused(line: &[u8]) -> bool {
    let found = rows(&[line, b"\n"].concat(), 0);
    found.len() == 1 && found[0].0.is_err()
}

//! One byte of a text: a plain model over the crate's own reader, which walks through each record from byte to byte.

use std::collections::BTreeSet;

use ihex_sys::{NOT_STATED, REFUSED};
use original::Record;

use crate::models::loads::{start_of, LoadAnswer, Start, BOTH_STOPS};
use crate::subjects::the_crate::{by_crate, rows};

/// The last offset of a segment.
pub const LAST_OFFSET: u64 = 0xFFFF;
/// The last address.
pub const LAST_ADDRESS: u64 = 0xFFFF_FFFF;

/// What is answered: the code, the number of the line, and the two values.
#[derive(Clone, Copy, PartialEq, Eq, Debug)]
pub struct AskAnswer {
    pub code: u32,
    pub line: usize,
    pub values: [u64; 2],
}

impl AskAnswer {
    /// The text is accepted, and states no byte there.
    pub const NOT_STATED: AskAnswer = AskAnswer {
        code: NOT_STATED,
        line: 0,
        values: [0; 2],
    };

    /// The text is accepted, and states this byte there.
    pub fn stated(byte: u8) -> Self {
        AskAnswer {
            code: 0,
            line: 0,
            values: [byte.into(), 0],
        }
    }

    /// The refusal with this number and these values.
    pub fn refused(number: u32, a: u64, b: u64, line: usize) -> Self {
        LoadAnswer::refused(number, a, b, line).into()
    }
}

/// The refusal of a load, as it is answered here.
impl From<LoadAnswer> for AskAnswer {
    fn from(load: LoadAnswer) -> Self {
        let [a, b, _] = load.values;
        AskAnswer {
            code: load.code,
            line: load.line,
            values: [a, b],
        }
    }
}

/// The base in force.
#[derive(Clone, Copy, PartialEq, Eq, Debug)]
pub enum Base {
    /// After the last offset the segment begins anew.
    Segment(u64),
    /// After the last address comes the first.
    Linear(u64),
}

impl Base {
    /// The address of offset 0.
    pub fn address(self) -> u64 {
        match self {
            Base::Segment(base) | Base::Linear(base) => base,
        }
    }
}

/// What asking goes by.
#[derive(Clone, Copy)]
pub struct Rules {
    /// With which stops the text is read.
    pub stops: u8,
    /// The base before any extension record.
    pub begins: Base,
    /// The base after a record, from the one before it.
    pub base: fn(Base, &Record) -> Base,
    /// The address of the next byte of a record.
    pub next: fn(Base, u64) -> u64,
    /// The bytes that are taken of a record, from those that it has.
    pub payload: fn(Vec<u8>) -> Vec<u8>,
    /// Whether a start is refused, from the first and a later one.
    pub differs: fn(Start, Start) -> bool,
    /// Whether an address is the one that is asked for.
    pub meets: fn(u64, u32) -> bool,
    /// Which byte is returned, from those that are stated there, in order.
    pub which: fn(&[u8]) -> Option<u8>,
    /// Whether a refusal is returned, from the bytes that are stated there before it.
    pub refuses: fn(&[u8], AskAnswer) -> bool,
}

/// The right rules.
pub const RIGHT: Rules = Rules {
    stops: BOTH_STOPS,
    begins: Base::Segment(0),
    base: extended,
    next: after,
    payload: |bytes| bytes,
    differs: |first, later| first != later,
    meets: |address, asked| address == u64::from(asked),
    which: |stated| stated.last().copied(),
    refuses: |_, _| true,
};

/// The base after a record.
pub fn extended(base: Base, record: &Record) -> Base {
    match record {
        Record::ExtendedSegmentAddress(n) => Base::Segment(16 * u64::from(*n)),
        Record::ExtendedLinearAddress(n) => Base::Linear(65_536 * u64::from(*n)),
        _ => base,
    }
}

/// The address after one.
pub fn after(base: Base, address: u64) -> u64 {
    match base {
        Base::Segment(first) if address == first + LAST_OFFSET => first,
        Base::Linear(_) if address == LAST_ADDRESS => 0,
        _ => address + 1,
    }
}

/// What a reading of a text finds: each byte that is stated, with its address, in order; the bases; and the refusal, if
/// the text is refused.
pub struct Walk {
    pub bytes: Vec<(u64, u8)>,
    pub bases: Vec<Base>,
    pub refused: Option<AskAnswer>,
}

impl Walk {
    /// Walks through a data record.
    fn record(&mut self, rules: Rules, base: Base, offset: u16, value: Vec<u8>) {
        let mut address = base.address() + u64::from(offset);
        for byte in (rules.payload)(value) {
            self.bytes.push((address, byte));
            address = (rules.next)(base, address);
        }
    }
}

/// What a reading of a text by these rules finds. It ends at two starts that differ.
pub fn walked(rules: Rules, text: &[u8]) -> Walk {
    let (mut base, mut start, mut ended) = (rules.begins, None, false);
    let mut walk = Walk {
        bytes: vec![],
        bases: vec![base],
        refused: None,
    };
    for (answer, place) in rows(text, rules.stops) {
        let refused = |number, a, b| AskAnswer::refused(number, a, b, place.line);
        let record = match answer {
            Ok(record) => record,
            Err(why) => {
                let told = by_crate::refusal(&why);
                let [a, b, _] = told.values;
                walk.refused = Some(refused(told.code - REFUSED, a, b));
                continue;
            }
        };
        if let Some(later) = start_of(&record) {
            if start.map_or(false, |first| (rules.differs)(first, later)) {
                walk.refused = Some(refused(21, 0, 0));
                return walk;
            }
            start.get_or_insert(later);
        }
        base = (rules.base)(base, &record);
        walk.bases.push(base);
        ended |= record == Record::EndOfFile;
        if let Record::Data { offset, value } = record {
            walk.record(rules, base, offset, value);
        }
    }
    if !ended && walk.refused.is_none() {
        walk.refused = Some(AskAnswer::refused(13, 0, 0, 0));
    }
    walk
}

/// The bytes that a reading finds at an address, in order.
pub fn found(rules: Rules, walk: &Walk, address: u32) -> Vec<u8> {
    let met = |&(at, byte): &(u64, u8)| (rules.meets)(at, address).then_some(byte);
    walk.bytes.iter().filter_map(met).collect()
}

/// What is answered at an address, from what a reading finds.
pub fn answered(rules: Rules, walk: &Walk, address: u32) -> AskAnswer {
    let found = found(rules, walk, address);
    match walk.refused {
        Some(why) if (rules.refuses)(&found, why) => why,
        _ => (rules.which)(&found).map_or(AskAnswer::NOT_STATED, AskAnswer::stated),
    }
}

/// The addresses at which a text is asked: those that its records state, also after its end and after refused lines; the
/// ends of its segments, and of 2 and 4 address bytes; and the neighbours of all of these.
pub fn telling(text: &[u8]) -> BTreeSet<u32> {
    let all = Rules {
        stops: 0,
        differs: |_, _| false,
        ..RIGHT
    };
    let walk = walked(all, text);
    let stated = walk.bytes.iter().map(|(address, _)| *address);
    let ends = walk.bases.iter().flat_map(|base| {
        let first = base.address();
        [first, first + LAST_OFFSET]
    });
    let addresses = stated.chain(ends).chain([LAST_OFFSET, LAST_ADDRESS]);
    let near = |at: u64| [at + LAST_ADDRESS, at, at + 1].map(|at| at as u32);
    addresses.flat_map(near).collect()
}

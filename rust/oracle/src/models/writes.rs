//! What is written of a record and of a list of them.

use ihex_sys::{BAD_RECORD, REFUSED};

use crate::inputs::writes::{ObjectCase, RecordCase};
use crate::subjects::the_crate::by_crate;
use crate::subjects::told::Entry;

/// What a writer answers: its code and value, and the text that it wrote.
#[derive(PartialEq, Eq, Debug)]
pub struct Written {
    pub code: u32,
    pub value: u64,
    text: Vec<u8>,
}

impl Written {
    /// What an output holds then that held `before`.
    pub fn held(&self, before: &[u8]) -> Vec<u8> {
        let mut held = before.to_vec();
        held[..self.text.len()].copy_from_slice(&self.text);
        held
    }
}

/// An answer with which nothing is written.
pub fn refused(code: u32, value: u64) -> Written {
    Written {
        code,
        value,
        text: vec![],
    }
}

/// The crate's answer, with room for `out` bytes.
pub fn answered(answer: Result<String, original::WriterError>, out: usize) -> Written {
    match answer {
        Err(why) => {
            let (code, value) = by_crate::unwritten(&why);
            refused(code, value)
        }
        Ok(text) => wrote(text.into_bytes(), out),
    }
}

/// The answer to what has this text, with room for `out` bytes.
pub fn wrote(text: Vec<u8>, out: usize) -> Written {
    if text.len() > out {
        return refused(REFUSED + 15, 0);
    }
    Written {
        code: 0,
        value: text.len() as u64,
        text,
    }
}

/// What the rules make of a record: the crate's answer, with 11 where the payload lies outside the pool.
pub fn record(case: &RecordCase) -> Written {
    match by_crate::made(&case.entry, &case.pool) {
        Some(record) => answered(record.to_record_string(), case.out),
        None if case.entry.is_record() => refused(REFUSED + 11, 0),
        None => refused(BAD_RECORD, 0),
    }
}

/// What the rules make of a list: the crate's answer, with 11 where a payload lies outside the pool.
pub fn object(case: &ObjectCase) -> Written {
    if case.tail > 0 || !case.entries.iter().all(Entry::is_record) {
        return refused(BAD_RECORD, 0);
    }
    // For the first refusals, which count ends, a payload that is not there makes no difference.
    let bare = |entry: &Entry| Entry {
        at: 0,
        len: 0,
        ..entry.clone()
    };
    let ends: Vec<_> = case
        .entries
        .iter()
        .filter_map(|entry| by_crate::made(&bare(entry), &case.pool))
        .collect();
    if let Err(why) = original::create_object_file_representation(&ends) {
        return answered(Err(why), case.out);
    }
    let mut records = Vec::new();
    for entry in &case.entries {
        match by_crate::made(entry, &case.pool) {
            Some(record) => match record.to_record_string() {
                Ok(_) => records.push(record),
                Err(why) => return answered(Err(why), case.out),
            },
            None => return refused(REFUSED + 11, 0),
        }
    }
    answered(
        original::create_object_file_representation(&records),
        case.out,
    )
}

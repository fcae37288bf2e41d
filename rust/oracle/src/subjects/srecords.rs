//! What the face tells of S-records, in the form of the C entry points.

use ihex::srec::{SReaderError, SRecord, SType, SWriterError};
use ihex_sys::REFUSED;

use crate::subjects::face::by_face;
use crate::subjects::told::{part, told, SEntry, Told};

/// An answer to a line, with the data at the pool's start.
pub fn answer(given: &Result<SRecord, SReaderError>) -> Told {
    match given {
        Err(refused) => by_face::refusal(&refused.0),
        Ok(record) => Told {
            payload: record.value.clone(),
            ..told(
                record.kind.digit().into(),
                record.address.into(),
                0,
                record.value.len() as u64,
            )
        },
    }
}

/// The code and the value of a writer's refusal.
pub fn unwritten(given: &SWriterError) -> (u32, u64) {
    let value = match *given {
        SWriterError::DataExceedsMaximumLength(n) => n,
        _ => 0,
    };
    (REFUSED + given.number(), value as u64)
}

/// The record that an entry stands for, if its type is named and its data lies in the pool.
pub fn made(entry: &SEntry, pool: &[u8]) -> Option<SRecord> {
    Some(SRecord {
        kind: SType::from_digit(entry.kind)?,
        address: entry.address,
        value: part(pool, entry.at, entry.len)?.to_vec(),
    })
}

//! What is answered to a line, and what a pool then holds.

use crate::inputs::lines::LineCase;
use crate::subjects::the_crate::{by_crate, Answer};
use crate::subjects::told::{pool_full, Told};

/// The answer as a pool of this length makes it: refusal 10 where the payload has no room at the
/// position.
pub fn in_pool(answer: Told, pool: usize, at: usize) -> Told {
    let room = pool.checked_sub(answer.payload.len());
    if answer.code == 0 && room.map_or(true, |room| at > room) {
        return pool_full();
    }
    answer
}

/// An answer of the crate, as the case's pool makes it.
pub fn answered(answer: &Answer, case: &LineCase) -> Told {
    in_pool(by_crate::answer(answer, case.at), case.pool, case.at)
}

/// Puts the payload of an answer into a pool in which it has room.
pub fn pour(answer: &Told, pool: &mut [u8], at: usize) {
    if !answer.payload.is_empty() {
        pool[at..at + answer.payload.len()].copy_from_slice(&answer.payload);
    }
}

//! The face: how it is asked, and what a caller does with its reader of chunks.

use ihex::{Answers, ChunkReader, ReaderOptions};

use crate::subjects::the_crate;
use crate::subjects::told::{teller, Shown};

teller!(by_face, ihex, ReaderError, |given| match *given {
    ReaderError::ContainsInvalidCharacters(place) => (*given, place),
    other => (other, 0),
});

/// The options with these stops.
pub fn options(flags: u8) -> ReaderOptions {
    let stops = the_crate::options(flags);
    ReaderOptions {
        stop_after_first_error: stops.stop_after_first_error,
        stop_after_eof: stops.stop_after_eof,
    }
}

/// Asks for so many answers, if there are as many.
pub fn ask(mut answers: Answers, most: usize, row: &mut Vec<Shown>) {
    for _ in 0..most {
        match answers.next() {
            Some(answer) => row.push((
                by_face::answer(&answer, 0),
                answers.line(),
                answers.shown().to_vec(),
            )),
            None => return,
        }
    }
}

/// What a caller does with a reader that has stopped. A wrong face is one that alters some of it.
pub trait Face: Sync {
    /// How many bytes of the chunk are used.
    fn used(&self, reader: &ChunkReader, _chunk: &[u8]) -> usize {
        reader.used()
    }

    /// Begins the next text.
    fn begin_next(&self, reader: &mut ChunkReader, _flags: u8) {
        reader.begin_next();
    }
}

/// The face itself.
pub struct RealFace;

impl Face for RealFace {}

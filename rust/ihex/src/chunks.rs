//! Reading a text that comes in chunks, to the answers of the whole text.

use std::iter::FusedIterator;
use std::mem;

use crate::reader::{answer, flags, with_line, LineError, Pool, ReaderError, ReaderOptions};
use crate::record::Record;
use crate::stranger;

/// Reads a text that comes in chunks, wherever the cuts fall, to the answers that [`ByteReader`] gives
/// of the chunks joined.
///
/// It holds the line that is begun: at most 522 bytes, however long the line is. Answers that were not asked
/// for are held as text until they are.
///
/// ```
#[doc = include_str!("../examples/chunks.rs")]
/// ```
///
/// # Dump after dump
///
/// A dump may end in the middle of a chunk, and the next one begin there. A reader that has stopped says with
/// [`used`] how much of the chunk it has used. After [`begin_next`] the same reader goes on with the rest of the chunk,
/// `&chunk[reader.used()..]`, and no byte is lost, wherever the cuts fall. A new reader can go on too: hand over what
/// the stopped one [`held`] first, which is nothing if all answers were asked for, and then the rest of the chunk.
///
/// ```
#[doc = include_str!("../examples/dumps.rs")]
/// ```
///
/// [`ByteReader`]: crate::ByteReader
/// [`used`]: ChunkReader::used
/// [`begin_next`]: ChunkReader::begin_next
/// [`held`]: ChunkReader::held
#[derive(Clone, Debug)]
pub struct ChunkReader {
    carry: Box<[u8; ihex_sys::CARRY]>,
    pool: Box<Pool>,
    /// What was handed over earlier and not asked for.
    left: Vec<u8>,
    /// Where the next call goes on: in what is left, or in the chunk where nothing is.
    position: usize,
    /// How many bytes of the chunk that was handed over last are read or held.
    taken: usize,
    line: usize,
    empties: usize,
    /// How many bytes of the carry belong to the line that is begun.
    carried: usize,
    /// How many digits of a line over 522 bytes were left out of the carry.
    skipped: u16,
    flags: u8,
    shown: Vec<u8>,
}

impl ChunkReader {
    /// A reader at the beginning of any text, with these stops.
    pub fn new_with_options(options: ReaderOptions) -> Self {
        ChunkReader {
            carry: Box::new([0; ihex_sys::CARRY]),
            pool: Box::new([0; 255]),
            left: Vec::new(),
            position: 0,
            taken: 0,
            line: 0,
            empties: 0,
            carried: 0,
            skipped: 0,
            flags: flags(options),
            shown: Vec::new(),
        }
    }

    /// A reader at the beginning of any text, with both stops.
    pub fn new() -> Self {
        ChunkReader::new_with_options(ReaderOptions::default())
    }

    /// Hands over the next chunk, which may be empty: the answers to the lines that end in it.
    ///
    /// Dropping them early loses nothing: what was not asked for is copied, and its answers come before
    /// those of the next chunk or of the end. After a stop, and after the text's end, there are none, and
    /// nothing of a chunk is copied: [`used`](ChunkReader::used) says how much of it was used.
    pub fn feed<'a, T>(&'a mut self, chunk: &'a T) -> Answers<'a>
    where
        T: AsRef<[u8]> + ?Sized,
    {
        if self.left.is_empty() {
            self.position = 0;
        }
        self.taken = 0;
        Answers {
            reader: self,
            chunk: Some(chunk.as_ref()),
        }
    }

    /// Ends the text: the answer to its last line, if no LF ended it. What was not asked for earlier
    /// comes before it. The text has ended when `None` is given, or the answer to its last line.
    pub fn finish(&mut self) -> Answers<'_> {
        Answers {
            reader: self,
            chunk: None,
        }
    }

    /// Begins the next text: from here on this is a new reader with the same stops, to which what it
    /// [holds](ChunkReader::held) has been handed over.
    ///
    /// Call it when the reader [is finished](ChunkReader::is_finished), and then hand over the rest of the
    /// chunk, `&chunk[reader.used()..]`. Called before that, it forgets the line that is begun.
    pub fn begin_next(&mut self) {
        self.line = 0;
        self.empties = 0;
        self.carried = 0;
        self.skipped = 0;
        self.flags &= ihex_sys::STOP_AFTER_FIRST_ERROR | ihex_sys::STOP_AFTER_EOF;
        self.shown.clear();
    }

    /// Whether there are no more answers: the reader has stopped, or the text has ended.
    pub fn is_finished(&self) -> bool {
        self.flags & ihex_sys::FINISHED != 0
    }

    /// How many bytes of the chunk that was handed over last are used: the reader has read them, or holds
    /// them until their answers are asked for.
    ///
    /// That is the whole chunk, unless the reader has stopped. If a line that ends in this chunk stopped it, it
    /// is the position just after the LF of that line; empty lines after it are not used. If the reader stopped
    /// earlier, in what it held or in another chunk, it is 0.
    pub fn used(&self) -> usize {
        self.taken
    }

    /// What the reader holds: the text that was handed over in earlier chunks, and whose answers were not
    /// asked for. The line that is begun is not part of it.
    ///
    /// After a stop it is what follows the line that stopped the reader, if that line was held. It comes
    /// before the rest of the chunk.
    pub fn held(&self) -> &[u8] {
        self.left.get(self.position..).unwrap_or(&[])
    }

    /// The number of the line that was answered last, and 0 before any.
    pub fn line(&self) -> usize {
        self.line
    }

    /// The line that was answered last, without its line end, if it gave a record; else nothing. It is that
    /// line until the next is answered, also when there are no more answers.
    pub fn shown(&self) -> &[u8] {
        &self.shown
    }

    /// The next answer of a chunk, or at the text's end where there is none.
    fn ask(&mut self, chunk: Option<&[u8]>) -> Option<Result<Record, ReaderError>> {
        let mut told = Told::default();
        let (carry, pool) = (&mut self.carry[..], &mut self.pool[..]);
        let standing = (
            &mut self.position,
            &mut self.line,
            &mut self.empties,
            &mut self.carried,
            &mut self.skipped,
            &mut self.flags,
        );
        let lies = (&mut told.lies, &mut told.from, &mut told.len);
        let (a, b, c) = (&mut told.a, &mut told.b, &mut told.c);
        let code = match chunk {
            Some(chunk) => ihex_sys::next_chunk(chunk, carry, pool, 0, standing, lies, a, b, c),
            None => ihex_sys::finish(carry, pool, 0, standing, lies, a, b, c),
        };
        self.settle(code, &told, chunk.unwrap_or(&[]))
    }

    /// The next answer of what was left. It is left until it is used up, and after a stop too.
    fn next_of_left(&mut self) -> Option<Result<Record, ReaderError>> {
        let left = mem::take(&mut self.left);
        let answer = self.ask(Some(&left));
        if answer.is_some() || self.is_finished() {
            self.left = left;
        }
        answer
    }

    /// The next answer of a chunk, after those of what was left.
    fn next_of_chunk(&mut self, chunk: &[u8]) -> Option<Result<Record, ReaderError>> {
        let answer = self.ask(Some(chunk));
        if answer.is_none() && !self.is_finished() {
            self.position = chunk.len();
        }
        if self.left.is_empty() {
            self.taken = self.position;
        }
        answer
    }

    /// The answer of a call, with the line that it shows kept.
    fn settle(
        &mut self,
        code: u32,
        told: &Told,
        chunk: &[u8],
    ) -> Option<Result<Record, ReaderError>> {
        if code == ihex_sys::USED_UP || code == ihex_sys::DONE {
            return None;
        }
        let Told {
            lies, from, len, ..
        } = *told;
        let mut start = 0;
        let n = ihex_sys::shown(lies, from, len, chunk, &self.carry[..], &mut start);
        let buffer = match lies {
            ihex_sys::IN_CHUNK => chunk,
            _ => &self.carry[..],
        };
        let line = buffer.get(start..start.saturating_add(n));
        self.shown.clear();
        self.shown
            .extend_from_slice(line.unwrap_or_else(|| stranger(code)));
        Some(answer(code, told.a, told.b, told.c, &self.pool))
    }

    /// Drops what was read of what was left, and holds the rest of a chunk after it, unless the reader has
    /// stopped.
    fn keep(&mut self, chunk: Option<&[u8]>) {
        let position = mem::take(&mut self.position);
        self.left.drain(..position.min(self.left.len()));
        if let Some(chunk) = chunk.filter(|_| !self.is_finished()) {
            self.left.extend(chunk.get(self.taken..).unwrap_or(&[]));
            self.taken = chunk.len();
        }
    }
}

impl Default for ChunkReader {
    fn default() -> Self {
        ChunkReader::new()
    }
}

/// What a call writes beside the state.
#[derive(Default)]
struct Told {
    lies: u8,
    from: usize,
    len: usize,
    a: u64,
    b: u64,
    c: u64,
}

/// The answers to the lines that end in a chunk, or at the text's end.
///
/// [`ChunkReader::feed`] says what becomes of those that are not asked for.
#[derive(Debug)]
#[must_use = "an answer is read only when it is asked for"]
pub struct Answers<'a> {
    reader: &'a mut ChunkReader,
    /// The chunk, or nothing at the text's end.
    chunk: Option<&'a [u8]>,
}

impl<'a> Answers<'a> {
    /// The number of the line that was answered last, and 0 before any.
    pub fn line(&self) -> usize {
        self.reader.line()
    }

    /// The line that was answered last, without its line end, if it gave a record; else nothing.
    pub fn shown(&self) -> &[u8] {
        self.reader.shown()
    }

    /// How many bytes of the chunk have been read so far: those up to the LF of the line that was answered
    /// last, and with it. While answers come from earlier chunks, it is 0.
    ///
    /// When there are no more answers it is the whole chunk, unless the reader has stopped; then it is still the
    /// position just after the LF of the line that stopped it. At the text's end there is no chunk, and it
    /// is what [`ChunkReader::used`] says.
    pub fn used(&self) -> usize {
        self.reader.used()
    }

    /// The same answers, each with the number of its line.
    pub fn numbered(self) -> NumberedAnswers<'a> {
        NumberedAnswers { answers: self }
    }
}

impl<'a> Iterator for Answers<'a> {
    type Item = Result<Record, ReaderError>;

    fn next(&mut self) -> Option<Self::Item> {
        if !self.reader.left.is_empty() {
            let answer = self.reader.next_of_left();
            if answer.is_some() {
                return answer;
            }
        }
        match self.chunk {
            Some(chunk) => self.reader.next_of_chunk(chunk),
            None => self.reader.ask(None),
        }
    }
}

impl<'a> FusedIterator for Answers<'a> {}

impl<'a> Drop for Answers<'a> {
    fn drop(&mut self) {
        self.reader.keep(self.chunk);
    }
}

/// The answers to the lines that end in a chunk, or at the text's end, each with the number of its line.
#[derive(Debug)]
#[must_use = "an answer is read only when it is asked for"]
pub struct NumberedAnswers<'a> {
    answers: Answers<'a>,
}

impl<'a> Iterator for NumberedAnswers<'a> {
    type Item = Result<(usize, Record), LineError>;

    fn next(&mut self) -> Option<Self::Item> {
        let answer = self.answers.next()?;
        Some(with_line(self.answers.line(), answer))
    }
}

impl<'a> FusedIterator for NumberedAnswers<'a> {}

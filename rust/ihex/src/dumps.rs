//! Dump after dump from a reader.

use std::io::{self, ErrorKind, Read};
use std::ops::Range;

use crate::intake::{Intake, Ready, Told};
use crate::loader::{LoadError, Loaded};

/// How many bytes are read at a time, at most.
const BUFFER: usize = 4_096;

/// A dump that is decided.
#[derive(Debug)]
#[must_use = "the page does not change until the dump is committed"]
pub enum Decided<'a> {
    /// It is accepted, and is ready to be committed.
    Ready(Ready<'a>),
    /// It is refused, as its load is.
    Refused(LoadError),
}

impl<'a> Decided<'a> {
    /// Commits the dump, as [`Ready::commit`] does. A dump that is refused returns its refusal, and changes nothing.
    pub fn commit(self, page: &mut [u8], marks: &mut [u8]) -> Result<Loaded, LoadError> {
        match self {
            Decided::Ready(ready) => ready.commit(page, marks),
            Decided::Refused(why) => Err(why),
        }
    }
}

/// Reads a serial line, or any other input, and gives dump after dump as an [`Intake`] decides them.
///
/// A dump is given as soon as the line has been read that decides it. What was read after that line is kept for the
/// next dump.
///
/// A read of no bytes ends the input. On a terminal line that is set so that a read returns after a silence, it is a
/// pause: see [`with_pauses`](Dumps::with_pauses).
///
/// A whole gateway:
///
/// ```no_run
#[doc = include_str!("../examples/gateway.rs")]
/// ```
#[derive(Debug)]
pub struct Dumps<R> {
    intake: Intake,
    source: R,
    buffer: Box<[u8; BUFFER]>,
    /// What of the buffer was read and not fed yet.
    rest: Range<usize>,
    /// How many reads of no bytes in a row end the input.
    pauses: usize,
    /// How many came in a row.
    silent: usize,
}

impl<R: Read> Dumps<R> {
    /// The dumps of a source, by this intake. The first read of no bytes ends the input.
    pub fn new(intake: Intake, source: R) -> Self {
        Dumps {
            intake,
            source,
            buffer: Box::new([0; BUFFER]),
            rest: 0..0,
            pauses: 1,
            silent: 0,
        }
    }

    /// The same, but a read of no bytes is a [pause](Intake::pause), and only so many of them in a row end the input. 0 is
    /// taken as 1.
    pub fn with_pauses(self, pauses: usize) -> Self {
        let pauses = pauses.max(1);
        Dumps { pauses, ..self }
    }

    /// The next dump that is decided, or `None` at the end of the input. The end decides a dump too, if one is begun.
    ///
    /// An error of the source is returned, but for `Interrupted`, after which the source is read again. After an error
    /// nothing is lost: the next call goes on where this one stood.
    pub fn next_dump(&mut self) -> io::Result<Option<Decided<'_>>> {
        loop {
            let told = match self.rest.is_empty() {
                false => self.feed(),
                true if self.silent >= self.pauses => return Ok(None),
                true => self.read()?,
            };
            match told {
                Told::Decided(Ok(loaded)) => {
                    return Ok(Some(Decided::Ready(self.intake.lent(loaded))))
                }
                Told::Decided(Err(why)) => return Ok(Some(Decided::Refused(why))),
                Told::WantsMore | Told::Passed | Told::Quiet => {}
            }
        }
    }

    /// Feeds what was read.
    fn feed(&mut self) -> Told {
        let chunk = self.buffer.get(self.rest.clone()).unwrap_or(&[]);
        let (used, told) = self.intake.take(chunk);
        self.rest.start = self.rest.start.saturating_add(used);
        told
    }

    /// Reads what has come, or tells the intake that nothing has.
    fn read(&mut self) -> io::Result<Told> {
        let count = loop {
            match self.source.read(&mut self.buffer[..]) {
                Err(why) if why.kind() == ErrorKind::Interrupted => {}
                read => break read?,
            }
        };
        if count == 0 {
            self.silent = self.silent.saturating_add(1);
            return Ok(self.intake.stop());
        }
        self.silent = 0;
        self.rest = 0..count.min(BUFFER);
        Ok(Told::WantsMore)
    }
}

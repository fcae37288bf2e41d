//! Listens to a line on which dump after dump comes: each is committed to a page once it is accepted, the light is shown
//! after each, and the page is kept in a file.
#![forbid(unsafe_code)]

pub mod midnight;
mod words;

pub use words::Words;

use std::fmt::{self, Display};
use std::io::{self, Read, Write};

use ihex::{Color, Dumped, Dumps, Intake, Light};
use programs::{Failure, FAILED};

/// The exit status where a dump was refused.
pub const REFUSED: i32 = 1;

/// Listens until the input ends, with a line on `out` for each dump that is decided, and on `err` for what fails. It
/// returns the exit status.
pub fn run(words: &Words, input: impl Read, out: impl Write, mut err: impl Write) -> i32 {
    let intake = match words.known {
        true => Intake::new(words.kind, words.first, words.length),
        false => Intake::joining(words.kind, words.first, words.length),
    };
    let intake = match intake {
        Ok(intake) => intake,
        Err(why) => return failed(&mut err, &why),
    };
    let light = match Light::new(words.first, words.length, words.high, words.low) {
        Ok(light) => light,
        Err(why) => return failed(&mut err, &why),
    };
    let dumps = Dumps::new(intake, input).with_pauses(words.pauses.unwrap_or(1));
    let mut gateway = Gateway {
        words,
        light,
        page: vec![0; words.length],
        marks: vec![0; ihex::marks_len(words.length)],
        out,
        err,
        decided: 0,
        unwritten: 0,
        status: 0,
    };
    let listened = gateway.listen(dumps);
    gateway.end(listened)
}

/// Says why something failed, and returns the exit status.
fn failed(err: &mut impl Write, why: &dyn Display) -> i32 {
    // Where this cannot be written either, the exit status says it.
    writeln!(err, "{why}").unwrap_or(());
    FAILED
}

/// The page with its light, and what came of the dumps so far.
struct Gateway<'a, O, E> {
    words: &'a Words,
    light: Light,
    page: Vec<u8>,
    marks: Vec<u8>,
    out: O,
    err: E,
    /// How many dumps were decided.
    decided: u64,
    /// How many were accepted since the midnight file was written.
    unwritten: usize,
    /// The exit status, if the input ends here.
    status: i32,
}

impl<'a, O: Write, E: Write> Gateway<'a, O, E> {
    fn listen(&mut self, mut dumps: Dumps<impl Read>) -> Result<(), Failure> {
        while let Some(dump) = dumps.next_dump().map_err(|_| Failure::Read)? {
            let load = dump.commit(&mut self.page, &mut self.marks);
            let dumped = self.light.after(load, &self.page, &self.marks);
            self.count(dumped);
            self.show(dumped).map_err(|_| Failure::Write)?;
            if load.is_ok() && self.unwritten >= self.words.every {
                self.keep();
            }
        }
        Ok(())
    }

    fn count(&mut self, dumped: Dumped) {
        self.decided += 1;
        match dumped.load {
            Ok(_) => self.unwritten += 1,
            Err(_) => self.status = self.status.max(REFUSED),
        }
    }

    /// Prints the line of a dump at once.
    fn show(&mut self, dumped: Dumped) -> io::Result<()> {
        let known = self.light.known();
        writeln!(
            self.out,
            "dump {}: {}",
            self.decided,
            Line { dumped, known }
        )?;
        self.out.flush()
    }

    /// Writes the midnight file. If that fails, it is tried again after the next accepted dump.
    fn keep(&mut self) {
        let file = &self.words.file;
        let text = ihex::write_page(self.words.first, &self.page, &self.marks);
        let text = text.map_err(|why| io::Error::new(io::ErrorKind::Other, why));
        match text.and_then(|text| midnight::replace(file, text.as_bytes())) {
            Ok(()) => self.unwritten = 0,
            Err(why) => {
                let words = format!("cannot write {}: {why}", file.display());
                self.status = failed(&mut self.err, &words);
            }
        }
    }

    /// Writes the midnight file at the end of the input. If listening failed, what was accepted is kept too.
    fn end(mut self, listened: Result<(), Failure>) -> i32 {
        if listened.is_ok() || self.unwritten > 0 {
            self.keep();
        }
        match listened {
            Ok(()) => self.status,
            Err(why) => failed(&mut self.err, &why),
        }
    }
}

/// What is printed of a dump, with the count that is known after it.
struct Line {
    dumped: Dumped,
    known: Option<u16>,
}

impl Display for Line {
    fn fmt(&self, f: &mut fmt::Formatter) -> fmt::Result {
        let color = self.dumped.color;
        let loaded = match self.dumped.load {
            Ok(loaded) => loaded,
            Err(why) => return write!(f, "{color}, {why}"),
        };
        write!(f, "{color}, ")?;
        if let Some(count) = self.known.filter(|_| color != Color::NoCount) {
            write!(f, "count {count}, ")?;
        }
        match loaded.data_records {
            1 => write!(f, "1 data record"),
            records => write!(f, "{records} data records"),
        }
    }
}

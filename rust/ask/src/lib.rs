//! The byte that a text of Intel HEX states at an address, in digits, or why there is none, in words.
#![forbid(unsafe_code)]

use std::fmt;
use std::io::{Read, Write};

use ihex::LoadError;
pub use programs::address;
use programs::Failure;

/// Why neither a byte nor `not stated` was printed.
#[derive(PartialEq, Eq, Clone, Copy, Debug)]
pub enum Why {
    Failed(Failure),
    /// The text is refused.
    Refused(LoadError),
}

impl Why {
    /// What people are to read of a text of this name. `-` is standard input.
    pub fn of<'a>(self, name: &'a str) -> Told<'a> {
        Told { why: self, name }
    }
}

impl From<Failure> for Why {
    fn from(why: Failure) -> Self {
        Why::Failed(why)
    }
}

impl From<LoadError> for Why {
    fn from(why: LoadError) -> Self {
        Why::Refused(why)
    }
}

/// Why nothing was printed, with the name of the text if the text is refused.
pub struct Told<'a> {
    why: Why,
    name: &'a str,
}

impl<'a> fmt::Display for Told<'a> {
    fn fmt(&self, f: &mut fmt::Formatter) -> fmt::Result {
        match (self.why, self.name) {
            (Why::Failed(why), _) => why.fmt(f),
            (Why::Refused(why), "-") => write!(f, "standard input: {why}"),
            (Why::Refused(why), name) => write!(f, "{name}: {why}"),
        }
    }
}

/// Reads a text, and writes the byte that it states at an address as two digits, or `not stated`. It says whether the
/// text states one.
pub fn run(input: impl Read, address: u32, mut out: impl Write) -> Result<bool, Why> {
    let text = programs::read(input)?;
    let byte = ihex::ask(&text, address)?;
    let line = byte.map_or("not stated\n".into(), |byte| format!("{byte:02X}\n"));
    let written = out.write_all(line.as_bytes());
    written
        .and_then(|()| out.flush())
        .map_err(|_| Failure::Write)?;
    Ok(byte.is_some())
}

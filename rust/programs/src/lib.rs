//! What the programs share: the reading of a whole input and of an address, how they fail, and how their tests run them.
#![forbid(unsafe_code)]

pub mod tested;

use std::fmt::{self, Display};
use std::io::{self, ErrorKind, Read, Write};

/// The exit status of a program that failed.
pub const FAILED: i32 = 2;

/// Why a program failed.
#[derive(PartialEq, Eq, Clone, Copy, Debug)]
pub enum Failure {
    Read,
    Write,
    /// There is not enough memory for the input and for what is made of it.
    Memory,
}

impl Display for Failure {
    fn fmt(&self, f: &mut fmt::Formatter) -> fmt::Result {
        f.write_str(match self {
            Failure::Read => "cannot read",
            Failure::Write => "cannot write",
            Failure::Memory => "not enough memory for this input",
        })
    }
}

/// All of an input. Its length has no limit but memory.
pub fn read(mut input: impl Read) -> Result<Vec<u8>, Failure> {
    let mut text = Vec::new();
    let mut piece = [0; 65_536];
    loop {
        match input.read(&mut piece) {
            Ok(0) => return Ok(text),
            Ok(n) => {
                text.try_reserve(n).map_err(|_| Failure::Memory)?;
                text.extend_from_slice(&piece[..n]);
            }
            Err(why) if why.kind() == ErrorKind::Interrupted => {}
            Err(_) => return Err(Failure::Read),
        }
    }
}

/// The most digits of an address.
const MOST_DIGITS: usize = 8;

/// The address that a word states: 1 to 8 hexadecimal digits in either case, with or without 0x before them.
pub fn address(word: &str) -> Option<u32> {
    let bare = word.strip_prefix("0x").or_else(|| word.strip_prefix("0X"));
    let digits = bare.unwrap_or(word);
    // A sign would be taken for a part of the number.
    let plain = digits.bytes().all(|byte| byte.is_ascii_hexdigit());
    let number = u32::from_str_radix(digits, 16).ok()?;
    (plain && digits.len() <= MOST_DIGITS).then_some(number)
}

/// Says on standard error why a program failed, and returns its exit status.
pub fn failed(why: impl Display) -> i32 {
    // Where this cannot be written either, the exit status says it.
    writeln!(io::stderr(), "{why}").unwrap_or(());
    FAILED
}

//! The words that the program is started with.

use std::ffi::{OsStr, OsString};
use std::path::PathBuf;

use ihex::TextKind;

/// The most digits of a number that is not an address.
const MOST_DIGITS: usize = 9;

/// What a run is asked to do.
#[derive(PartialEq, Eq, Clone, Debug)]
pub struct Words {
    /// Whether the input begins with a dump.
    pub known: bool,
    /// How many pauses in a row end the run. Without a number, a read of nothing is the end of the input.
    pub pauses: Option<usize>,
    pub kind: TextKind,
    /// The address of the first place of the page.
    pub first: u32,
    /// How many places the page has.
    pub length: usize,
    /// The place of the count's high byte in the page.
    pub high: usize,
    /// The place of its low byte.
    pub low: usize,
    /// The midnight file.
    pub file: PathBuf,
    /// After how many accepted dumps the file is written.
    pub every: usize,
}

impl Words {
    /// What these words ask for, if the usage is right.
    pub fn of(words: &[OsString]) -> Option<Self> {
        let (mut known, mut pauses, mut rest) = (false, None, words);
        loop {
            rest = match rest {
                [word, rest @ ..] if word == "--known" => {
                    known = true;
                    rest
                }
                [word, number, rest @ ..] if word == "--pauses" => {
                    pauses = Some(at_least_one(number)?);
                    rest
                }
                _ => break,
            };
        }
        match rest {
            [kind, first, length, high, low, file, every] => Some(Words {
                known,
                pauses,
                kind: text_kind(kind)?,
                first: programs::address(first.to_str()?)?,
                length: number(length)?,
                high: number(high)?,
                low: number(low)?,
                file: Some(PathBuf::from(file)).filter(|_| !file.is_empty())?,
                every: at_least_one(every)?,
            }),
            _ => None,
        }
    }
}

fn text_kind(word: &OsStr) -> Option<TextKind> {
    match word.to_str()? {
        "hex" => Some(TextKind::IntelHex),
        "srecords" => Some(TextKind::SRecords),
        _ => None,
    }
}

/// The number that a word states: 1 to 9 decimal digits.
fn number(word: &OsStr) -> Option<usize> {
    let digits = word.to_str()?;
    // A sign would be taken for a part of the number.
    let plain = digits.bytes().all(|byte| byte.is_ascii_digit());
    let number = digits.parse().ok()?;
    (plain && digits.len() <= MOST_DIGITS).then_some(number)
}

fn at_least_one(word: &OsStr) -> Option<usize> {
    number(word).filter(|&number| number > 0)
}

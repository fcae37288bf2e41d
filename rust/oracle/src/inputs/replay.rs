//! The cases of the proved program `replay`, as lines and as what they are. What the forms mean stands in
//! its source.

use std::str::{self, Split};

use crate::inputs::asks::AtCase;
use crate::inputs::lights::OnePageCase;
use crate::inputs::lines::LineCase;
use crate::inputs::loads::LoadCase;
use crate::inputs::shrink::Case;
use crate::inputs::spelling::hex;
use crate::inputs::sums::SumCase;
use crate::inputs::tables::{Kind, Row, TableCase};
use crate::inputs::texts::TextCase;
use crate::inputs::writes::{ObjectCase, RecordCase};
use crate::subjects::told::{Entry, Light};

/// The most bytes that `replay` takes of a case, or lends as a pool or an output.
pub const MOST: usize = 4096;
/// The most bytes that it lends as a page or as marks.
const MOST_PAGE: usize = 65_537;
/// What each byte of the marks holds before a load.
pub const MARKS: u8 = 0xAA;
/// The most records of an object.
pub const MOST_RECORDS: usize = 64;
/// The most windows of a table: one more than it may have.
const MOST_ROWS: usize = 17;
/// The flag with which the first answer of a text alone is told.
const FIRST: u8 = 4;

/// A heading, or a case that the crate, with the oracle's rules, has an answer to.
#[derive(Clone)]
pub enum Given {
    Heading(String),
    Sum(SumCase),
    Line(LineCase),
    Text(TextCase),
    /// A text whose first answer alone is told, with both stops on. Its flags are 0.
    First(TextCase),
    Record(RecordCase),
    Object(ObjectCase),
    Load(LoadCase),
    Table(TableCase),
    Ask(AtCase),
    Light(OnePageCase),
}

/// The digits of a number, in capitals.
fn number(word: &[u8]) -> Option<u64> {
    if word.is_empty() || word.len() > 16 || word.iter().any(u8::is_ascii_lowercase) {
        return None;
    }
    let digit = |&byte: &u8| char::from(byte).to_digit(16).map(u64::from);
    word.iter()
        .try_fold(0, |number, byte| Some(number << 4 | digit(byte)?))
}

/// The words of a case.
struct Words<'a>(Split<'a, char>);

impl Words<'_> {
    fn number<T: TryFrom<u64>>(&mut self) -> Option<T> {
        T::try_from(number(self.0.next()?.as_bytes())?).ok()
    }

    /// A number up to this one.
    fn up_to(&mut self, most: usize) -> Option<usize> {
        self.number().filter(|&n| n <= most)
    }

    fn bytes(&mut self) -> Option<Vec<u8>> {
        let word = self.0.next().unwrap_or("").as_bytes();
        let byte = |two: &[u8]| number(two).map(|n| n as u8);
        (word.len() % 2 == 0).then(|| word.chunks(2).map(byte).collect())?
    }

    /// The bytes after which no word stands.
    fn last_bytes(&mut self) -> Option<Vec<u8>> {
        let bytes = self.bytes();
        bytes.filter(|_| self.0.next().is_none())
    }

    fn entry(&mut self) -> Option<Entry> {
        let entry = Entry {
            kind: self.number()?,
            number: self.number()?,
            second: self.number()?,
            at: self.number()?,
            len: self.number()?,
        };
        Some(entry).filter(Entry::is_record)
    }

    fn row(&mut self) -> Option<Row> {
        Some(Row {
            owner: self.number()?,
            first: self.number()?,
            length: self.number()?,
            place: self.number()?,
        })
    }

    /// All that are left, each taken so.
    fn all<T>(mut self, one: fn(&mut Self) -> Option<T>) -> Option<Vec<T>> {
        let mut found = Vec::new();
        while self.0.clone().next().is_some() {
            found.push(one(&mut self)?);
        }
        Some(found)
    }
}

fn line_of(mut words: Words) -> Option<LineCase> {
    Some(LineCase {
        pool: words.up_to(MOST)?,
        at: words.number()?,
        line: words.last_bytes()?,
    })
}

fn text_of(mut words: Words) -> Option<Given> {
    let flags = words.up_to(FIRST.into())? as u8;
    let pool = words.up_to(MOST)?;
    let text = words.last_bytes()?;
    Some(match flags {
        FIRST => Given::First(TextCase::new(text, pool, 0)),
        _ => Given::Text(TextCase::new(text, pool, flags)),
    })
}

fn record_of(mut words: Words) -> Option<RecordCase> {
    Some(RecordCase {
        entry: words.entry()?,
        out: words.up_to(MOST)?,
        pool: words.last_bytes()?,
    })
}

fn object_of(mut words: Words) -> Option<ObjectCase> {
    Some(ObjectCase {
        out: words.up_to(MOST)?,
        pool: words.bytes()?,
        entries: words
            .all(Words::entry)
            .filter(|entries| entries.len() <= MOST_RECORDS)?,
        spare: 0,
        tail: 0,
    })
}

fn load_of(mut words: Words) -> Option<LoadCase> {
    Some(LoadCase {
        first: words.number()?,
        page: words.up_to(MOST_PAGE)?,
        marks: words.up_to(MOST_PAGE)?,
        last: MARKS,
        text: words.last_bytes()?,
    })
}

fn table_of(mut words: Words) -> Option<TableCase> {
    let (owner, pool) = (words.number()?, words.up_to(MOST_PAGE)?);
    let (marks, text) = (words.up_to(MOST_PAGE)?, words.bytes()?);
    let rows = words.all(Words::row);
    Some(TableCase {
        marks,
        last: MARKS,
        ..TableCase::new(
            Kind::Intel,
            text,
            owner,
            rows.filter(|rows| rows.len() <= MOST_ROWS)?,
            pool,
        )
    })
}

fn ask_of(mut words: Words) -> Option<AtCase> {
    Some(AtCase {
        address: words.number()?,
        text: words.last_bytes()?,
    })
}

fn light_of(mut words: Words) -> Option<OnePageCase> {
    let light = Light {
        first: words.number()?,
        length: words.number()?,
        high: words.number()?,
        low: words.number()?,
    };
    Some(OnePageCase {
        light,
        page: words.up_to(MOST_PAGE)?,
        marks: words.up_to(MOST_PAGE)?,
        texts: words.all(Words::bytes).filter(|texts| !texts.is_empty())?,
    })
}

/// The words of a light and its dumps. An empty text at the end is an empty word there.
fn light_told(case: &OnePageCase) -> String {
    let Light {
        first,
        length,
        high,
        low,
    } = case.light;
    let texts: Vec<String> = case.texts.iter().map(|text| hex(text)).collect();
    let (page, marks) = (case.page, case.marks);
    format!(
        "K {first:X} {length:X} {high:X} {low:X} {page:X} {marks:X} {}",
        texts.join(" ")
    )
}

fn row_told(row: &Row) -> String {
    let Row {
        owner,
        first,
        length,
        place,
    } = row;
    format!("{owner:X} {first:X} {length:X} {place:X}")
}

fn table_told(case: &TableCase) -> String {
    let rows = case.rows.iter().map(row_told);
    let words: Vec<String> = [hex(&case.text)].into_iter().chain(rows).collect();
    let (owner, pool, marks) = (case.owner, case.pool, case.marks);
    format!("N {owner:X} {pool:X} {marks:X} {}", words.join(" "))
}

/// A record as the words of a case.
fn entry_told(entry: &Entry) -> String {
    let Entry {
        kind,
        number,
        second,
        at,
        len,
    } = entry;
    format!("{kind:X} {number:X} {second:X} {at:X} {len:X}")
}

fn text_told(case: &TextCase, flags: u8) -> String {
    format!("T {flags:X} {:X} {}", case.pool, hex(&case.text))
}

fn object_told(case: &ObjectCase) -> String {
    let entries = case.entries.iter().map(entry_told);
    let words: Vec<String> = [hex(&case.pool)].into_iter().chain(entries).collect();
    format!("O {:X} {}", case.out, words.join(" "))
}

impl Given {
    /// What a stored line is, if it is a heading or a case.
    pub fn of(line: &str) -> Option<Self> {
        let mut words = Words(line.split(' '));
        match words.0.next()? {
            _ if line.len() > MOST => None,
            "#" => Some(Given::Heading(line.into())),
            "C" => words.last_bytes().map(SumCase).map(Given::Sum),
            "L" => line_of(words).map(Given::Line),
            "T" => text_of(words),
            "W" => record_of(words).map(Given::Record),
            "O" => object_of(words).map(Given::Object),
            "M" => load_of(words).map(Given::Load),
            "N" => table_of(words).map(Given::Table),
            "Q" => ask_of(words).map(Given::Ask),
            "K" => light_of(words).map(Given::Light),
            _ => None,
        }
    }

    /// The line of a heading or a case: `of` makes the same of it.
    pub fn line(&self) -> String {
        let line = match self {
            Given::Heading(line) => return line.clone(),
            Given::Sum(case) => format!("C {}", hex(&case.0)),
            Given::Line(case) => format!("L {:X} {:X} {}", case.pool, case.at, hex(&case.line)),
            Given::Text(case) => text_told(case, case.state.flags),
            Given::First(case) => text_told(case, FIRST),
            Given::Record(case) => {
                let entry = entry_told(&case.entry);
                format!("W {entry} {:X} {}", case.out, hex(&case.pool))
            }
            Given::Object(case) => return object_told(case),
            Given::Table(case) => return table_told(case),
            Given::Light(case) => return light_told(case),
            Given::Load(case) => {
                let (first, page, marks) = (case.first, case.page, case.marks);
                format!("M {first:X} {page:X} {marks:X} {}", hex(&case.text))
            }
            Given::Ask(case) => format!("Q {:X} {}", case.address, hex(&case.text)),
        };
        line.trim_end().into()
    }

    /// Whether the crate could be given what is read in it only with other bytes in the place of those
    /// that are not UTF-8.
    pub fn is_no_string(&self) -> bool {
        let read = match self {
            Given::Line(case) => &case.line,
            Given::Text(case) | Given::First(case) => &case.text,
            Given::Load(case) => &case.text,
            Given::Table(case) => &case.text,
            Given::Ask(case) => &case.text,
            Given::Light(case) => return case.texts.iter().any(|text| no_string(text)),
            _ => return false,
        };
        no_string(read)
    }
}

fn no_string(text: &[u8]) -> bool {
    str::from_utf8(text).is_err()
}

/// The cases that are smaller than one, each as what is given.
fn smaller<C: Case>(case: &C, given: fn(C) -> Given) -> Vec<Given> {
    case.smaller().into_iter().map(given).collect()
}

impl Case for Given {
    fn smaller(&self) -> Vec<Self> {
        match self {
            Given::Heading(_) => vec![],
            Given::Sum(case) => smaller(case, Given::Sum),
            Given::Line(case) => smaller(case, Given::Line),
            Given::Text(case) => smaller(case, Given::Text),
            Given::First(case) => smaller(case, Given::First),
            Given::Record(case) => smaller(case, Given::Record),
            Given::Object(case) => smaller(case, Given::Object),
            Given::Load(case) => smaller(case, Given::Load),
            Given::Table(case) => smaller(case, Given::Table),
            Given::Ask(case) => smaller(case, Given::Ask),
            Given::Light(case) => smaller(case, Given::Light),
        }
    }

    fn size(&self) -> usize {
        self.line().len()
    }

    fn show(&self) -> String {
        self.line()
    }
}

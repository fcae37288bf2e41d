//! Long lines: of digits, with one byte that may be none, in a text, and in chunks.

use ihex_sys::CARRY;

use crate::inputs::chance::Chance;
use crate::inputs::chunks::{ChunkCase, Standing};
use crate::inputs::lines::LineCase;
use crate::inputs::loads::LoadCase;
use crate::inputs::shrink::{smaller_number, with_each, Case};
use crate::inputs::texts::TextCase;
use crate::subjects::told::LAST_PLACE;

/// The lengths of long lines: about the longest good one, about twice as long, and much longer.
pub const LENGTHS: [usize; 20] = [
    519, 520, 521, 522, 523, 524, 525, 530, 600, 1041, 1042, 1043, 1044, 1045, 1046, 2000, 5000,
    65_535, 65_536, 70_000,
];

/// What may stand after a long line: two that end the line, two that end the text, and others.
const ENDS: [&str; 7] = ["\n", "\r\n", "", "\r", "\r\r\n", "\n\n", "\r\r"];

/// What stands before a long line, and before a long S-record.
const SHORT: &[u8] = b":0200000041427B\n";
const SHORT_S: &[u8] = b"S104000041BA\n";

/// The sizes of chunks. The last is longer than any text.
const SIZES: [usize; 10] = [1, 7, 64, 512, 521, 522, 523, 4096, 65_536, 1 << 20];

/// The size of the chunks for a line of this length. Small ones, which take many calls, are rare where it
/// is very long.
fn size(length: usize, chance: &mut Chance) -> usize {
    let least = match length {
        0..=10_000 => 0,
        _ if chance.once_in(8) => 1,
        _ => 3,
    };
    chance.one_of(&SIZES[least..])
}

/// A long line after a short one, in chunks of one size; after a LF one more.
#[derive(Clone)]
pub struct LongCase {
    /// Its first byte, and how many it has, the others being digits.
    first: u8,
    length: usize,
    /// Where another byte stands in place of a digit, if it is not a digit.
    place: usize,
    byte: u8,
    end: usize,
    every: usize,
    flags: u8,
}

impl Case for LongCase {
    fn smaller(&self) -> Vec<Self> {
        let larger = SIZES.iter().rev().filter(|&&size| size > self.every);
        with_each!(
            self,
            every in larger.copied(),
            length in smaller_number(self.length),
            place in smaller_number(self.place),
            end in smaller_number(self.end),
            flags in smaller_number(self.flags.into()).into_iter().map(|n| n as u8),
        )
    }

    fn size(&self) -> usize {
        self.length
    }

    fn show(&self) -> String {
        format!(
            "a line of {} bytes that begins with {:?}, with {:?} at {}, then {:?}, in chunks of {}, flags {}",
            self.length,
            char::from(self.first),
            char::from(self.byte),
            self.place,
            ENDS[self.end],
            self.every,
            self.flags
        )
    }
}

impl LongCase {
    fn bytes(&self) -> Vec<u8> {
        let mut line = vec![b'7'; self.length];
        for (place, byte) in [(self.place, self.byte), (0, self.first)] {
            if let Some(here) = line.get_mut(place) {
                *here = byte;
            }
        }
        line
    }

    fn bytes_of_text(&self) -> Vec<u8> {
        self.between(SHORT)
    }

    /// The line after a short one, and after a LF one more.
    fn between(&self, short: &[u8]) -> Vec<u8> {
        let end = ENDS[self.end].as_bytes();
        let after = if end.ends_with(b"\n") { short } else { b"" };
        [short, &self.bytes(), end, after].concat()
    }

    /// The same with an S in place of the colon: the line, and a text to load.
    pub fn srecords(&self) -> (LineCase, LoadCase) {
        let first = if self.first == b':' { b'S' } else { self.first };
        let other = LongCase {
            first,
            ..self.clone()
        };
        let load = LoadCase::new(other.between(SHORT_S), 0, 2, 0xFF);
        (other.line(), load)
    }

    /// The line, and each CR of what stands after it.
    pub fn line(&self) -> LineCase {
        let crs = ENDS[self.end].trim_end_matches('\n').as_bytes();
        LineCase::new([&self.bytes(), crs].concat())
    }

    pub fn text(&self) -> TextCase {
        TextCase::new(self.bytes_of_text(), 2, self.flags)
    }

    pub fn load(&self) -> LoadCase {
        LoadCase::new(self.bytes_of_text(), 0, 2, 0xFF)
    }

    /// The chunks that it stands for.
    pub fn chunks(&self) -> ChunkCase {
        let text = self.bytes_of_text();
        ChunkCase {
            chunks: text.chunks(self.every).map(<[u8]>::to_vec).collect(),
            pool: 2,
            carry: vec![b'G'; CARRY],
            state: Standing::new(self.flags),
        }
    }
}

/// Places that matter, in a line of this length.
fn places(length: usize, chance: &mut Chance) -> Vec<usize> {
    let early = [0, 1, 2, 520, 521, 522, 523];
    let late = [LAST_PLACE - 1, LAST_PLACE, LAST_PLACE + 1];
    let mut found = [&early[..], &late].concat();
    found.push(chance.under(length));
    found.retain(|&place| place + 1 < length);
    found.push(length - 1);
    found
}

/// Lines of this length: with each line end, and with a byte that is mostly not a digit at places that matter.
/// Then with the first cut a byte before that byte, at it, and after it, and with none; a LF ends the line, or
/// the text does.
pub fn long(length: usize, chance: &mut Chance) -> Vec<LongCase> {
    let mut found = Vec::new();
    for place in places(length, chance) {
        for end in 0..ENDS.len() {
            found.push(LongCase {
                first: if chance.once_in(8) { b'7' } else { b':' },
                length,
                place,
                byte: chance.one_of(b"G\r:\0\xFF7"),
                end,
                every: size(length, chance),
                flags: chance.under(4) as u8,
            });
        }
        let at = SHORT.len() + place;
        for every in [at - 1, at, at + 1, 1 << 20] {
            for ends in [[0, 1], [2, 3]] {
                found.push(LongCase {
                    first: b':',
                    length,
                    place,
                    byte: chance.one_of(b"G:\0\xFF"),
                    end: chance.one_of(&ends),
                    every,
                    flags: chance.under(4) as u8,
                });
            }
        }
    }
    found
}

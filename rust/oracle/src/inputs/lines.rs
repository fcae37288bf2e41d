//! Lines: good ones, damaged ones, and those that tell readers apart.

use crate::inputs::chance::Chance;
use crate::inputs::shrink::{readable, smaller_number, smaller_text, with_each, Case};
use crate::inputs::spelling::{line_of, spelt};

#[derive(Clone)]
pub struct LineCase {
    pub line: Vec<u8>,
    /// The pool's length.
    pub pool: usize,
    pub at: usize,
}

impl LineCase {
    /// With room for any payload.
    pub fn new(line: Vec<u8>) -> Self {
        let pool = 260;
        let at = line.len() % 5;
        LineCase { line, pool, at }
    }
}

impl Case for LineCase {
    fn smaller(&self) -> Vec<Self> {
        with_each!(
            self,
            line in smaller_text(&self.line),
            at in smaller_number(self.at),
            pool in smaller_number(self.pool),
        )
    }

    fn size(&self) -> usize {
        self.line.len()
    }

    fn show(&self) -> String {
        format!(
            "line {} pool {} at {}",
            readable(&self.line),
            self.pool,
            self.at
        )
    }
}

/// Bytes that tell readers apart: the colon, first and last digits, their neighbours, line ends,
/// blanks, signs, and bytes that are UTF-8 only together.
pub const TELLING: [u8; 24] = [
    b':', b'0', b'1', b'9', b'A', b'F', b'a', b'f', b'G', b'g', b'/', b';', b'@', b'`', b'\r',
    b'\n', 0, b' ', b'+', b'x', 0x7F, 0x80, 0xC3, 0xA9,
];

/// Characters of several bytes: letters, and digits that are not ASCII.
const WIDE: [&str; 6] = [
    "\u{E9}",
    "\u{20AC}",
    "\u{1D11E}",
    "\u{FF11}",
    "\u{661}",
    "\u{FF21}",
];

/// How many digits stand after the colon of the shortest and of the longest line, and around it.
pub fn boundaries() -> impl Iterator<Item = usize> {
    (0..=12).chain(515..=525)
}

/// How many payload bytes a type has.
fn size_of(kind: u8, chance: &mut Chance) -> usize {
    match kind {
        1 => 0,
        2 | 4 => 2,
        3 | 5 => 4,
        _ => match chance.under(8) {
            0 => chance.from_to(250, 255),
            1 => chance.under(256),
            _ => chance.under(34),
        },
    }
}

/// A line that is a record, of any type; sometimes with small letters.
pub fn good(chance: &mut Chance) -> Vec<u8> {
    let kind = if chance.once_in(2) {
        0
    } else {
        chance.under(6) as u8
    };
    let size = size_of(kind, chance);
    let payload = chance.bytes(size);
    let address = if kind == 0 || chance.once_in(4) {
        chance.number() as u16
    } else {
        0
    };
    let mut line = line_of(kind, address, &payload);
    match chance.under(4) {
        0 => line.make_ascii_lowercase(),
        1 => recase(&mut line, chance),
        _ => {}
    }
    line
}

/// Each letter in either case.
pub fn recase(line: &mut [u8], chance: &mut Chance) {
    for byte in line {
        if chance.once_in(2) {
            byte.make_ascii_lowercase();
        }
    }
}

/// A line with a right checksum whose length byte, type or payload need not be right.
pub fn summed(chance: &mut Chance) -> Vec<u8> {
    let kind = if chance.once_in(4) {
        chance.byte()
    } else {
        chance.under(8) as u8
    };
    let payload = size_of(chance.under(6) as u8, chance);
    let claimed = match chance.under(4) {
        0 => chance.byte(),
        1 => (payload as u8).wrapping_add(1),
        _ => payload as u8,
    };
    let mut bytes = vec![claimed, chance.byte(), chance.byte(), kind];
    bytes.extend(chance.bytes(payload));
    spelt(&bytes)
}

/// A long line of digits, with one byte that may be none: early, about the 521st, or late.
pub fn late(chance: &mut Chance) -> Vec<u8> {
    let n = chance.from_to(515, 1200);
    let mut line: Vec<u8> = (0..n).map(|_| chance.one_of(b"07Ff")).collect();
    let at = match chance.under(4) {
        0 => chance.under(n),
        1 => chance.from_to(519, 524).min(n - 1),
        _ => chance.from_to(n / 2, n - 1),
    };
    line[at] = chance.one_of(&TELLING);
    line[0] = b':';
    line
}

/// A line of characters by chance.
pub fn random(chance: &mut Chance) -> Vec<u8> {
    if chance.once_in(16) {
        return late(chance);
    }
    let mut line = characters(515, &TELLING, chance);
    if !chance.once_in(8) {
        line.insert(0, b':');
    }
    line
}

/// Characters by chance: at times so many, or up to ten more; mostly few. They are any bytes, telling ones, or
/// digits.
pub fn characters(many: usize, telling: &[u8], chance: &mut Chance) -> Vec<u8> {
    let n = match chance.under(10) {
        0 => chance.from_to(many, many + 10),
        1 => chance.under(600),
        _ => chance.under(24),
    };
    let style = chance.under(4);
    let one = |chance: &mut Chance| match style {
        0 => chance.byte(),
        1 => chance.one_of(telling),
        _ => chance.one_of(b"0123456789ABCDEFabcdef"),
    };
    (0..n).map(|_| one(chance)).collect()
}

/// One damage to a line: a character changed, lost, doubled, swapped or put in.
pub fn damage(line: &mut Vec<u8>, chance: &mut Chance) {
    let at = chance.under(line.len() + 1);
    let here = at < line.len();
    match chance.under(9) {
        0 if here => line[at] = chance.byte(),
        1 if here => line[at] = chance.one_of(&TELLING),
        2 if here => line[at] = chance.one_of(b"0123456789ABCDEF"),
        3 if here => drop(line.remove(at)),
        4 if here => line.insert(at, line[at]),
        5 if at + 1 < line.len() => line.swap(at, at + 1),
        6 if here => line[at] ^= 0x20,
        7 => line.insert(at, chance.one_of(b"\r\n\0 :0")),
        _ => drop(line.splice(at..at, chance.one_of(&WIDE).bytes())),
    }
}

/// A good line, or one with a right checksum, with one to three damages.
pub fn damaged(chance: &mut Chance) -> Vec<u8> {
    let mut line = if chance.once_in(4) {
        summed(chance)
    } else {
        good(chance)
    };
    for _ in 0..chance.from_to(1, 3) {
        damage(&mut line, chance);
    }
    line
}

/// Each line up to `n` characters over these bytes that begins with `start`.
pub fn every(bytes: &[u8], start: &[u8], n: usize) -> Vec<LineCase> {
    let mut lines = vec![start.to_vec()];
    let mut from = 0;
    for _ in start.len()..n {
        let end = lines.len();
        for i in from..end {
            for &byte in bytes {
                lines.push([&lines[i][..], &[byte]].concat());
            }
        }
        from = end;
    }
    lines.into_iter().map(LineCase::new).collect()
}

/// Lines with this many digits: with each type and length byte that matters, a right checksum or a
/// wrong one, and a character that is not a digit at either end or none.
pub fn sized(n: usize, chance: &mut Chance) -> Vec<LineCase> {
    let mut found = Vec::new();
    for kind in [0, 1, 2, 3, 4, 5, 6, 255] {
        for claimed in [0, 1, 2, 4, 254, 255, (n / 2).wrapping_sub(5) as u8] {
            for off in [0, 1] {
                let mut bytes = vec![claimed, chance.byte(), chance.byte(), kind];
                bytes.resize((n + 1) / 2, chance.byte());
                let last = bytes.len().saturating_sub(1);
                let mut line = spelt(&bytes[..last]);
                if let Some(digit) = line.last_mut().filter(|_| off == 1) {
                    *digit = if *digit == b'0' { b'1' } else { b'0' };
                }
                line.resize(n + 1, b'0');
                for at in [None, Some(1), Some(n)] {
                    let mut other = line.clone();
                    if let Some(byte) = at.and_then(|at| other.get_mut(at)) {
                        *byte = chance.one_of(&TELLING);
                    }
                    found.push(LineCase::new(other));
                }
            }
        }
    }
    found
}

/// A line with each of its bytes, up to the sixtieth, changed to each of the 256.
pub fn changed(line: &[u8]) -> Vec<LineCase> {
    let mut found = Vec::new();
    for at in 0..line.len().min(60) {
        for byte in 0..=255 {
            let mut other = line.to_vec();
            other[at] = byte;
            found.push(LineCase::new(other));
        }
    }
    found
}

/// A line with a pool that its payload fits, or just does not, and a position near the pool's end.
pub fn pooled(chance: &mut Chance) -> LineCase {
    let line = if chance.once_in(4) {
        summed(chance)
    } else {
        good(chance)
    };
    let payload = line.len().saturating_sub(11) / 2;
    let pool = match chance.under(3) {
        0 => chance.under(4),
        1 => (payload + chance.under(3)).saturating_sub(1),
        _ => payload + chance.under(40),
    };
    let at = chance.around(pool.saturating_sub(payload));
    LineCase { line, pool, at }
}

/// A line of characters by chance, or one with a right checksum.
pub fn random_line(chance: &mut Chance) -> LineCase {
    LineCase::new(if chance.once_in(3) {
        summed(chance)
    } else {
        random(chance)
    })
}

/// A line that is a record.
pub fn good_line(chance: &mut Chance) -> LineCase {
    LineCase::new(good(chance))
}

/// A line with one to three damages.
pub fn damaged_line(chance: &mut Chance) -> LineCase {
    LineCase::new(damaged(chance))
}

/// Every line up to 4 characters: a block for each telling byte that begins one, and one for the empty.
pub fn every_short(block: u64, _: &mut Chance) -> Vec<LineCase> {
    match TELLING.get(block as usize) {
        Some(&byte) => every(&TELLING, &[byte], 4),
        None => every(&TELLING, b"", 0),
    }
}

/// Every line of a colon and up to 4 characters: a block for each telling byte that is the first of them.
pub fn every_behind_colon(block: u64, _: &mut Chance) -> Vec<LineCase> {
    every(&TELLING, &[b':', TELLING[block as usize]], 5)
}

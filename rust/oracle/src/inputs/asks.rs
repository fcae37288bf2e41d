//! Texts that are asked for one byte.

use crate::inputs::chance::Chance;
use crate::inputs::lines::{damaged, random, recase, summed};
use crate::inputs::salvage::joined;
use crate::inputs::shrink::{readable, smaller_number, smaller_text, with_each, Case};
use crate::inputs::spelling::line_of;
use crate::inputs::start_records::Start;

#[derive(Clone)]
pub struct AskCase(pub Vec<u8>);

impl Case for AskCase {
    fn smaller(&self) -> Vec<Self> {
        smaller_text(&self.0).into_iter().map(AskCase).collect()
    }

    fn size(&self) -> usize {
        self.0.len()
    }

    fn show(&self) -> String {
        format!("text {}", readable(&self.0))
    }
}

/// A text that is asked for the byte at one address.
#[derive(Clone)]
pub struct AtCase {
    pub text: Vec<u8>,
    pub address: u32,
}

impl Case for AtCase {
    fn smaller(&self) -> Vec<Self> {
        with_each!(
            self,
            text in smaller_text(&self.text),
            address in smaller_number(self.address as usize).into_iter().map(|n| n as u32),
        )
    }

    fn size(&self) -> usize {
        self.text.len()
    }

    fn show(&self) -> String {
        format!("text {} at {:08X}", readable(&self.text), self.address)
    }
}

/// Numbers of type 02: segments that touch, overlap or wrap beyond 1 MiB.
const SEGMENTS: [u16; 5] = [0, 1, 0x0FFF, 0x1000, 0xFFFF];
/// Numbers of type 04: the first 64 KiB, the next, about 1 MiB, and the last.
const LINEARS: [u16; 4] = [0, 1, 0x0010, 0xFFFF];
/// Offsets about both ends of a segment, and 16 bytes from its ends, where another segment may begin.
const OFFSETS: [u16; 6] = [0, 1, 0x0010, 0xFFF0, 0xFFFE, 0xFFFF];

/// A line that sets a base.
fn base(chance: &mut Chance) -> Vec<u8> {
    let (kind, number) = match chance.once_in(2) {
        true => (2, chance.one_of(&SEGMENTS)),
        false => (4, chance.one_of(&LINEARS)),
    };
    line_of(kind, 0, &number.to_be_bytes())
}

/// A line of data, mostly short, so that many records state the same few bytes.
fn data(chance: &mut Chance) -> Vec<u8> {
    let size = match chance.under(32) {
        0 => 0,
        1 => chance.from_to(16, 18),
        2 => chance.from_to(250, 255),
        _ => chance.from_to(1, 4),
    };
    line_of(0, chance.one_of(&OFFSETS), &chance.bytes(size))
}

/// A line of a text: data mostly, bases, and starts that seldom differ.
fn line(start: Start, chance: &mut Chance) -> Vec<u8> {
    let mut line = match chance.under(16) {
        0 => vec![],
        1 | 2 => start.or_other(8, chance).line(chance),
        3..=6 => base(chance),
        _ => data(chance),
    };
    if chance.once_in(8) {
        recase(&mut line, chance);
    }
    line
}

/// A text of a few lines, mostly accepted, with more lines after its end.
pub fn text(chance: &mut Chance) -> AskCase {
    let start = Start::new(chance);
    let some = |chance: &mut Chance| -> Vec<Vec<u8>> {
        (0..chance.under(8)).map(|_| line(start, chance)).collect()
    };
    let mut lines = some(chance);
    if chance.once_in(6) {
        let odd: [fn(&mut Chance) -> Vec<u8>; 3] = [random, damaged, summed];
        let at = chance.under(lines.len() + 1);
        lines.insert(at, chance.one_of(&odd)(chance));
    }
    if !chance.once_in(8) {
        lines.push(line_of(1, 0, &[]));
        if chance.once_in(2) {
            lines.extend(some(chance));
        }
    }
    AskCase(joined(&lines, chance))
}

/// The lines of the texts by rule: what states a byte at 0, FFFF, 10, FFFF0, FFFF0000 or FFFFFFFF, what sets their bases,
/// starts, and lines that are refused.
const LINES: [&str; 16] = [
    "",
    ":00000001FF",
    ":0100000011EE",
    ":0100000000FF",
    ":02FFFF00AABB9B",
    ":0100100022CD",
    ":0000000000",
    ":020000020000FC",
    ":020000020001FB",
    ":02000002FFFFFE",
    ":020000040000FA",
    ":02000004FFFFFC",
    ":04000005000000CD2A",
    ":04000005000000CE29",
    ":00000001FE",
    "x",
];

/// How many blocks the texts by rule come in: one for each first line.
pub const BLOCKS: u64 = LINES.len() as u64;

/// Every text of three of these lines that begins with the block's, and each with an end record after it.
pub fn by_rule(block: u64, _: &mut Chance) -> Vec<AskCase> {
    let mut found = Vec::new();
    for two in LINES {
        for three in LINES {
            for after in ["", ":00000001FF"] {
                let lines = [LINES[block as usize], two, three, after];
                found.push(AskCase(lines.join("\n").into_bytes()));
            }
        }
    }
    found
}

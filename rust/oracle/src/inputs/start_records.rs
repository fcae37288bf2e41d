//! Start records, and others that nearly state the same start.

use crate::inputs::chance::Chance;
use crate::inputs::lines::recase;
use crate::inputs::spelling::line_of;

/// A start as a record states it: its type, and its payload as one number.
#[derive(Clone, Copy)]
pub struct Start {
    kind: u8,
    number: u32,
}

/// Numbers that tell starts apart.
const NUMBERS: [u32; 8] = [
    0,
    1,
    0x10,
    0x1_0000,
    0x1000_0000,
    0x0FFF_0010,
    0xABCD_EF12,
    u32::MAX,
];

impl Start {
    /// A start of either type.
    pub fn new(chance: &mut Chance) -> Self {
        let number = chance.number() as u32;
        Start {
            kind: chance.one_of(&[3, 5]),
            number: match chance.once_in(2) {
                true => chance.one_of(&NUMBERS),
                false => number,
            },
        }
    }

    /// The linear address that it comes to.
    fn address(self) -> u32 {
        match self.kind {
            3 => 16 * (self.number >> 16) + (self.number & 0xFFFF),
            _ => self.number,
        }
    }

    /// A start near this one, which mostly differs: in one digit, in its type alone, in its form alone, or in all.
    fn other(self, chance: &mut Chance) -> Self {
        let Start { kind, number } = self;
        match chance.under(6) {
            0 | 1 => Start {
                kind,
                number: number ^ (1 + chance.under(15) as u32) << (4 * chance.under(8)),
            },
            2 => Start {
                kind: 8 - kind,
                number,
            },
            // A segment less, 16 bytes further on.
            3 => Start {
                kind,
                number: number.wrapping_sub(0x1_0000).wrapping_add(0x10),
            },
            4 => Start {
                kind: 5,
                number: self.address(),
            },
            _ => Start::new(chance),
        }
    }

    /// The same start, or once in so many times another.
    pub fn or_other(self, times: usize, chance: &mut Chance) -> Self {
        match chance.once_in(times) {
            true => self.other(chance),
            false => self,
        }
    }

    /// A line that states it: at times in small letters, or with an address that is not 0.
    pub fn line(self, chance: &mut Chance) -> Vec<u8> {
        let address = match chance.once_in(8) {
            true => chance.number() as u16,
            false => 0,
        };
        let mut line = line_of(self.kind, address, &self.number.to_be_bytes());
        if chance.once_in(3) {
            recase(&mut line, chance);
        }
        line
    }
}

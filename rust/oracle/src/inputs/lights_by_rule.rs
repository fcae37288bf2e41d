//! Rows of dumps by rule: every row of a few kinds, every step of the count, and places and pages at their limits.

use ihex_sys::{COUNT_UNKNOWN, MAX_PAGE};

use crate::inputs::chance::Chance;
use crate::inputs::lights::{count_bytes, stating, Dump, LightCase, STEPS};
use crate::inputs::marks::packed_length;
use crate::inputs::tables::Kind;
use crate::subjects::told::Light;

const KINDS: [Kind; 2] = [Kind::Intel, Kind::SRecords];

/// A light whose count lies in the middle of its page.
const SMALL: Light = Light {
    first: 0x100,
    length: 4,
    high: 1,
    low: 2,
};

/// What a dump by rule says.
#[derive(Clone, Copy)]
enum Says {
    Count(u16),
    /// The byte of one place alone: of the high one, or of the low one.
    High(u8),
    Low(u8),
    NoCount,
    /// A count, and then a line that is refused.
    Broken(u16),
    /// A count, and no end record.
    Endless(u16),
    /// A count, into a page of another length.
    Misfit(u16),
}

/// A dump of lines that state these bytes, and of these lines after them.
fn stated(
    light: Light,
    kind: Kind,
    bytes: &[(usize, u8)],
    after: &[&[u8]],
    chance: &mut Chance,
) -> Dump {
    let one = |&(place, byte): &(usize, u8)| stating(light, kind, place, &[byte], chance);
    let mut lines: Vec<Vec<u8>> = bytes.iter().map(one).collect();
    lines.extend(after.iter().map(|line| line.to_vec()));
    Dump::new(light, kind, lines.join(&b'\n'))
}

/// A dump that says this.
fn saying(light: Light, kind: Kind, says: Says, chance: &mut Chance) -> Dump {
    let end = kind.end();
    let mut of = |bytes: &[(usize, u8)], after: &[&[u8]]| stated(light, kind, bytes, after, chance);
    match says {
        Says::Count(count) => of(&count_bytes(light, count), &[end]),
        Says::High(byte) => of(&[(light.high, byte)], &[end]),
        Says::Low(byte) => of(&[(light.low, byte)], &[end]),
        Says::NoCount => of(&[], &[end]),
        Says::Broken(count) => of(&count_bytes(light, count), &[b"x", end]),
        Says::Endless(count) => of(&count_bytes(light, count), &[]),
        Says::Misfit(count) => {
            let mut dump = of(&count_bytes(light, count), &[end]);
            dump.page += 1;
            dump.marks = packed_length(dump.page);
            dump
        }
    }
}

/// What the dumps of every row say.
const ROWS: [Says; 9] = [
    Says::NoCount,
    Says::High(0),
    Says::Broken(2),
    Says::Misfit(3),
    Says::Count(0),
    Says::Count(1),
    Says::Count(0x7FFF),
    Says::Count(0x8000),
    Says::Count(0xFFFF),
];

/// How many blocks of rows there are: one for each dump that comes first.
pub const ROW_BLOCKS: u64 = ROWS.len() as u64;

/// Every row of four such dumps that begins with the block's, of both kinds by turns.
pub fn every_row(block: u64, chance: &mut Chance) -> Vec<LightCase> {
    let mut found = Vec::new();
    for two in ROWS {
        for three in ROWS {
            for four in ROWS {
                let turn = found.len();
                let row = [ROWS[block as usize], two, three, four];
                let dump =
                    |(i, says)| saying(SMALL, KINDS[(turn >> i) % KINDS.len()], says, chance);
                let dumps = row.into_iter().enumerate().map(dump).collect();
                found.push(LightCase::new(SMALL, dumps));
            }
        }
    }
    found
}

/// Counts from which every step is taken.
const COUNTS: [u16; 10] = [0, 1, 254, 255, 256, 32_767, 32_768, 32_769, 65_534, 65_535];

/// How many blocks of steps there are: one for each count from which they are taken.
pub const STEP_BLOCKS: u64 = COUNTS.len() as u64;

/// Every step from the block's count: after a dump that states it, with another dump between that states none, and of a light
/// that is made up by hand. The last dump comes twice.
pub fn every_step(block: u64, chance: &mut Chance) -> Vec<LightCase> {
    let count = COUNTS[block as usize];
    let mut found = Vec::new();
    for step in STEPS {
        let next = count.wrapping_add(step);
        let betweens = [
            Says::NoCount,
            Says::High(next.to_be_bytes()[0]),
            Says::Low(next.to_be_bytes()[1]),
            Says::Broken(next),
            Says::Endless(next),
            Says::Misfit(next),
        ];
        for kind in KINDS {
            let mut dump = |says| saying(SMALL, kind, says, chance);
            let [first, last] = [count, next].map(|count| dump(Says::Count(count)));
            let plain = vec![first.clone(), last.clone(), last.clone()];
            found.push(LightCase::new(SMALL, plain));
            for between in betweens.map(dump) {
                let row = vec![first.clone(), between, last.clone(), last.clone()];
                found.push(LightCase::new(SMALL, row));
            }
            for known in [0, COUNT_UNKNOWN].map(|more| more + u32::from(count)) {
                let none = saying(SMALL, kind, Says::NoCount, chance);
                for dumps in [vec![last.clone()], vec![none, last.clone()]] {
                    let known = Some(known);
                    let case = LightCase::new(SMALL, dumps);
                    found.push(LightCase { known, ..case });
                }
            }
        }
    }
    found
}

/// Lengths of pages whose places are all tried.
const LENGTHS: [usize; 9] = [0, 1, 2, 3, 7, 8, 9, 17, MAX_PAGE];

/// How many blocks of places there are: one for each length.
pub const PLACE_BLOCKS: u64 = LENGTHS.len() as u64;

/// The places that are tried in a page of so many: all of a short one, both ends of a long one, and some outside.
fn places(length: usize, first: u32) -> Vec<usize> {
    let inside: Vec<usize> = match length {
        MAX_PAGE => vec![0, 1, MAX_PAGE - 2, MAX_PAGE - 1],
        _ => (0..length).collect(),
    };
    let outside = [length, length + 1, first as usize + length, usize::MAX];
    inside.into_iter().chain(outside).collect()
}

/// A light with each two places of a page of the block's length, and with some outside: both bytes in either order, one alone,
/// and bytes in all places of a short page.
pub fn every_place(block: u64, chance: &mut Chance) -> Vec<LightCase> {
    let length = LENGTHS[block as usize];
    let mut found = Vec::new();
    for first in [0, 2, (length as u32).wrapping_neg()] {
        let places = places(length, first);
        for (i, &high) in places.iter().enumerate() {
            for &low in &places {
                let light = Light {
                    first,
                    length,
                    high,
                    low,
                };
                let dumps = about_places(light, KINDS[i % KINDS.len()], chance);
                found.push(LightCase::new(light, dumps));
            }
        }
    }
    found
}

/// The most places of a page that are all stated.
const SHORT: usize = 17;

/// Dumps that state both bytes of a count, in either order, one of them, and all places of a short page.
fn about_places(light: Light, kind: Kind, chance: &mut Chance) -> Vec<Dump> {
    let (both, next) = (count_bytes(light, 0x0102), count_bytes(light, 0x0103));
    let turned: Vec<(usize, u8)> = next.iter().rev().copied().collect();
    let all = (0..light.length.min(SHORT)).map(|place| (place, 0x80 + place as u8));
    let all: Vec<(usize, u8)> = all.collect();
    let first = &both[..both.len().min(1)];
    let last = &both[both.len().saturating_sub(1)..];
    [&both[..], first, &turned, last, &all]
        .map(|bytes| stated(light, kind, bytes, &[kind.end()], chance))
        .into()
}

/// Lengths of a light's page, and of pages that it is given.
const SIZES: [usize; 9] = [0, 1, 2, 7, 8, 9, 10, MAX_PAGE, MAX_PAGE + 1];

/// How many blocks of sizes there are: one for each length of a light's page, and one for the greatest.
pub const SIZE_BLOCKS: u64 = SIZES.len() as u64 + 1;

/// A page of each length for a light of the block's length, with as many marks as it should have, one fewer and one more; before
/// it and after it one of the light's length.
pub fn every_size(block: u64, chance: &mut Chance) -> Vec<LightCase> {
    let length = SIZES.get(block as usize).copied().unwrap_or(usize::MAX);
    let mut found = Vec::new();
    for page in SIZES {
        let fit = packed_length(page);
        for marks in [fit, fit + 1, fit.saturating_sub(1)] {
            for kind in KINDS {
                let light = Light {
                    first: 0,
                    length,
                    high: 0,
                    low: length.saturating_sub(1).min(1),
                };
                let mut dumps = [5, 6, 6].map(|n| saying(light, kind, Says::Count(n), chance));
                dumps[1].page = page;
                dumps[1].marks = marks;
                found.push(LightCase::new(light, dumps.into()));
            }
        }
    }
    found
}

/// How many blocks of windows there are.
pub const WINDOW_BLOCKS: u64 = 1;

/// Pages at the top of the addresses, which end before 2^32, at it and beyond it, with the count at either end.
pub fn every_window(_: u64, chance: &mut Chance) -> Vec<LightCase> {
    let mut found = Vec::new();
    for length in [1, 2, 3, 8, MAX_PAGE - 1, MAX_PAGE, MAX_PAGE + 1] {
        let ends =
            [0, 1, 2, u32::MAX].map(|more| (length as u32).wrapping_neg().wrapping_add(more));
        for first in ends.into_iter().chain([u32::MAX]) {
            let last = length - 1;
            for (high, low) in [(0, last), (last, 0), (last, last)] {
                for kind in KINDS {
                    let light = Light {
                        first,
                        length,
                        high,
                        low,
                    };
                    let dumps = [7, 8].map(|n| saying(light, kind, Says::Count(n), chance));
                    found.push(LightCase::new(light, dumps.into()));
                }
            }
        }
    }
    found
}

/// What the parts of a dump by rule state for places of the small light; and, without a place, its end, a line that is refused,
/// and nothing.
const PARTS: [(Option<usize>, &[u8]); 10] = [
    (None, b""),
    (None, b"end"),
    (None, b"x"),
    (Some(1), &[0, 1]),
    (Some(1), &[0, 2]),
    (Some(1), &[0x80]),
    (Some(2), &[2]),
    (Some(0), &[9, 0, 3, 9]),
    (Some(3), &[7]),
    (Some(3), &[7, 7]),
];

/// How many blocks of dumps by rule there are: one for each part that comes first.
pub const PART_BLOCKS: u64 = PARTS.len() as u64;

/// The line of a part.
fn part(kind: Kind, (place, bytes): (Option<usize>, &[u8]), chance: &mut Chance) -> Vec<u8> {
    match (place, bytes) {
        (Some(place), bytes) => stating(SMALL, kind, place, bytes, chance),
        (None, b"end") => kind.end().to_vec(),
        (None, line) => line.to_vec(),
    }
}

/// Every dump of three parts, of which the first is the block's, with an end after them and without, between two dumps that state
/// 1 and 2.
pub fn every_dump(block: u64, chance: &mut Chance) -> Vec<LightCase> {
    let mut found = Vec::new();
    for kind in KINDS {
        let [first, last] = [1, 2].map(|n| saying(SMALL, kind, Says::Count(n), chance));
        let ends: [&[&[u8]]; 2] = [&[], &[kind.end()]];
        for two in PARTS {
            for three in PARTS {
                for end in ends {
                    let parts = [PARTS[block as usize], two, three];
                    let mut lines: Vec<Vec<u8>> = parts.map(|one| part(kind, one, chance)).into();
                    lines.extend(end.iter().map(|line| line.to_vec()));
                    let dump = Dump::new(SMALL, kind, lines.join(&b'\n'));
                    let dumps = vec![first.clone(), dump, last.clone()];
                    found.push(LightCase::new(SMALL, dumps));
                }
            }
        }
    }
    found
}

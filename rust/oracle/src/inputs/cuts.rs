//! The inputs of the chunk reader: texts that are cut, and states made up by hand.

use ihex_sys::CARRY;

use crate::inputs::chance::Chance;
use crate::inputs::chunks::{ChunkCase, ShownCase, Standing};
use crate::inputs::lines::{damaged, good, late, random, summed, TELLING};
use crate::inputs::texts::{pool_for, text};

/// The pieces of a text between cuts, which are in order. Between two that are the same one is empty.
pub fn pieces(text: &[u8], cuts: &[usize]) -> Vec<Vec<u8>> {
    let mut from = 0;
    let mut found = Vec::new();
    for &cut in cuts.iter().chain([&text.len()]) {
        let end = cut.clamp(from, text.len());
        found.push(text[from..end].to_vec());
        from = end;
    }
    found
}

/// A place in every field of every line, and between its CR and its LF.
fn in_fields(text: &[u8]) -> Vec<usize> {
    let mut from = 0;
    let mut found = Vec::new();
    for line in text.split_inclusive(|&byte| byte == b'\n') {
        let end = from + line.len();
        let last = [3, 2, 1].map(|behind| end.saturating_sub(behind).max(from));
        let fields = [1, 2, 5, 8, 10].map(|place| from + place);
        found.extend(fields.into_iter().chain(last).filter(|&place| place < end));
        from = end;
    }
    found.sort_unstable();
    found
}

/// Where a text is cut: one byte at a time, after each CR, in every field, every few bytes, once, or
/// at places by chance, some of them twice.
pub fn cuts(text: &[u8], chance: &mut Chance) -> Vec<usize> {
    let n = text.len();
    match chance.under(10) {
        0 => (1..n).collect(),
        1 => (1..=n).filter(|&end| text[end - 1] == b'\r').collect(),
        2 => in_fields(text),
        3 => (0..n).step_by(chance.from_to(1, 64)).collect(),
        4 => vec![chance.under(n + 1)],
        _ => {
            let count = chance.under(12);
            let mut places: Vec<usize> = (0..count).map(|_| chance.under(n + 1)).collect();
            if chance.once_in(2) {
                places.extend_from_within(..);
            }
            places.sort_unstable();
            places
        }
    }
}

/// A text whose last line often has no LF.
pub fn open_text(chance: &mut Chance) -> Vec<u8> {
    let mut text = text(chance);
    if chance.once_in(2) {
        let last: [fn(&mut Chance) -> Vec<u8>; 5] = [good, good, summed, damaged, random];
        text.extend(chance.one_of(&last)(chance));
    }
    text
}

/// A carry with room, and old bytes in it.
fn old_carry(chance: &mut Chance) -> Vec<u8> {
    let len = chance.one_of(&[CARRY, CARRY, CARRY + 1, 600]);
    (0..len).map(|_| chance.one_of(&TELLING)).collect()
}

/// A text from its beginning, cut by chance, with any of the four settings of the stops.
pub fn cut_text(chance: &mut Chance) -> ChunkCase {
    let text = open_text(chance);
    let cuts = cuts(&text, chance);
    ChunkCase {
        chunks: pieces(&text, &cuts),
        pool: pool_for(&text, chance),
        carry: old_carry(chance),
        state: Standing::new(chance.under(4) as u8),
    }
}

/// A text of up to 200 bytes, cut in two at every place, with an empty chunk between the two or none.
pub fn everywhere(mut text: Vec<u8>, flags: u8, chance: &mut Chance) -> Vec<ChunkCase> {
    text.truncate(200);
    let whole = ChunkCase {
        chunks: vec![],
        pool: pool_for(&text, chance),
        carry: old_carry(chance),
        state: Standing::new(flags),
    };
    let cut = |place: usize| ChunkCase {
        chunks: pieces(&text, &[place, place][place % 2..]),
        ..whole.clone()
    };
    (0..=text.len()).map(cut).collect()
}

/// A short text, cut in two at every place.
pub fn cut_everywhere(chance: &mut Chance) -> Vec<ChunkCase> {
    let text = open_text(chance);
    let flags = chance.under(4) as u8;
    everywhere(text, flags, chance)
}

/// How many bytes of a carry are used, by hand.
fn used(chance: &mut Chance) -> usize {
    match chance.under(8) {
        0 => chance.around(CARRY),
        1 => chance.one_of(&[CARRY - 1, CARRY, CARRY + 1, CARRY + 2, usize::MAX]),
        2 => chance.under(CARRY + 1),
        3 => 0,
        _ => chance.under(40),
    }
}

/// How many digits were left out of a carry, by hand: often about as many as bring a place to 65,535.
fn skipped(chance: &mut Chance) -> u16 {
    match chance.under(4) {
        0 => 0,
        1 => chance.number() as u16,
        2 => u16::MAX - chance.under(4) as u16,
        _ => u16::MAX - CARRY as u16 - chance.under(600) as u16 + 64,
    }
}

/// A state that no call need have left, before chunks that may go on with the line in its carry, or
/// before none, and a carry that may be too small.
pub fn by_hand(chance: &mut Chance) -> ChunkCase {
    let len = chance.one_of(&[0, CARRY - 1, CARRY, CARRY, CARRY, CARRY, CARRY + 1, 600]);
    let mut carry: Vec<u8> = (0..len).map(|_| chance.one_of(&TELLING)).collect();
    let mut text = open_text(chance);
    let mut used = used(chance);
    if chance.once_in(2) {
        let line = if chance.once_in(3) {
            used = chance.one_of(&[used, CARRY - 1, CARRY, CARRY]);
            late(chance)
        } else {
            good(chance)
        };
        used = used.min(line.len());
        let front = used.min(len);
        carry[..front].copy_from_slice(&line[..front]);
        text = [&line[used..], b"\n", &text].concat();
    }
    let mut chunks = pieces(&text, &cuts(&text, chance));
    let position = match chance.under(3) {
        0 => chance.around(chunks[0].len()),
        _ => 0,
    };
    if chance.once_in(16) {
        chunks.clear();
    }
    let numbers = [usize::MAX, usize::MAX - 1, usize::MAX - 3, 0, 1, 7];
    ChunkCase {
        chunks,
        pool: pool_for(&text, chance),
        carry,
        state: Standing {
            position,
            line: chance.one_of(&numbers),
            empties: chance.one_of(&numbers),
            used,
            skipped: skipped(chance),
            flags: chance.byte() & chance.one_of(&[0xFF, 0xFF, 0xFB, 0xF3, 11]),
        },
    }
}

/// A place by hand in a chunk and a carry: as a call returns it, or any other.
pub fn place(chance: &mut Chance) -> ShownCase {
    let (chunk, carry) = (chance.under(40), chance.one_of(&[0, 20, CARRY]));
    let lies = match chance.under(8) {
        0 => chance.byte(),
        n => (n % 4) as u8,
    };
    let n = if lies == 1 { chunk } else { carry };
    let from = match chance.under(3) {
        0 => chance.around(n),
        _ => chance.under(n + 1),
    };
    let len = match chance.under(3) {
        0 => chance.around(n.saturating_sub(from)),
        _ => chance.under(n + 1),
    };
    ShownCase {
        place: (lies, from, len),
        chunk: chance.bytes(chunk),
        carry: chance.bytes(carry),
    }
}

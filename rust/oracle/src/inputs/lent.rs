//! Cases by chance within the limits of `replay`: for the two lent forms, a reader that holds its text and an
//! object from a lent list, and for lights.

use crate::inputs::chance::Chance;
use crate::inputs::lights::one_page;
use crate::inputs::lines::TELLING;
use crate::inputs::replay::{Given, MOST, MOST_RECORDS};
use crate::inputs::texts::{self, TextCase};
use crate::inputs::writes::{entry, make_record, put_ends, ObjectCase};

/// The most bytes of a text in a case of `replay`, two digits each after the flags and the pool.
const LENT_TEXT: usize = MOST / 2 - 8;

/// Lines of a few characters, about as many as `replay` prints answers.
fn short_lines(chance: &mut Chance) -> Vec<u8> {
    let mut text = Vec::new();
    for _ in 0..chance.from_to(36, 44) {
        let n = chance.from_to(1, 3);
        text.extend((0..n).map(|_| chance.one_of(&TELLING)));
        text.push(b'\n');
    }
    text
}

/// A text for a reader that holds it, within the limits of `replay`, and a pool: narrow, or such that
/// the longest payload fits, or just does not.
fn lent_text(flags: u8, chance: &mut Chance) -> TextCase {
    let mut text = if chance.once_in(32) {
        short_lines(chance)
    } else {
        texts::text(chance)
    };
    text.truncate(LENT_TEXT);
    let lines = text.split(|&byte| byte == b'\n');
    let payload = |line: &[u8]| line.len().saturating_sub(11) / 2;
    let longest = lines.map(payload).max().unwrap_or(0);
    let pool = match chance.under(8) {
        0 => chance.under(4),
        1 | 2 => chance.under(64),
        3 => text.len() / 2,
        _ => (longest + chance.under(4)).saturating_sub(1),
    };
    TextCase::new(text, pool, flags)
}

/// A list of up to 64 records that is lent, within the limits of `replay`, and an output that it fills,
/// or that is a byte or much shorter or longer. Half are as they should be, the others have too few
/// ends, too many or in the wrong place, or payloads too long or outside the pool.
fn lent_list(chance: &mut Chance) -> ObjectCase {
    let n = chance.one_of(&[0, 1, 40, 255, 300, 320]);
    let pool = chance.bytes(n);
    let flaw = chance.under(6);
    let (ends, payloads) = (flaw < 2, flaw == 1 || flaw == 2);
    let (few, most) = chance.one_of(&[(0, 4), (0, 16), (0, MOST_RECORDS), (60, MOST_RECORDS - 1)]);
    let mut entries = Vec::new();
    for _ in 0..chance.from_to(few, most) {
        let mut one = entry(pool.len(), chance);
        make_record(&mut one);
        let good = one.len <= 255 && one.payload(&pool).is_some();
        if one.kind == 0 && !good && !(payloads && chance.once_in(4)) {
            one.at = 0;
            one.len = chance.under(34).min(pool.len());
        }
        entries.push(one);
    }
    put_ends(&mut entries, ends, chance);
    entries.truncate(MOST_RECORDS);
    let full: usize = entries.iter().map(|one| one.written().min(700)).sum();
    let out = match chance.under(8) {
        0 => chance.under(full + 1),
        1 => full + chance.under(300),
        2 | 3 => full.saturating_sub(1),
        _ => full,
    };
    ObjectCase {
        entries,
        pool,
        out: out.min(MOST),
        spare: 0,
        tail: 0,
    }
}

/// A text with any of the four settings of the stops.
pub fn text(chance: &mut Chance) -> Given {
    let flags = chance.under(4) as u8;
    Given::Text(lent_text(flags, chance))
}

/// A text whose first answer alone is asked for.
pub fn first(chance: &mut Chance) -> Given {
    Given::First(lent_text(0, chance))
}

/// A list of records that is lent.
pub fn list(chance: &mut Chance) -> Given {
    Given::Object(lent_list(chance))
}

/// A light, and as many dumps into one page as a case has room for.
pub fn light(chance: &mut Chance) -> Given {
    let mut case = one_page(chance);
    while case.texts.len() > 1 && Given::Light(case.clone()).line().len() > MOST {
        case.texts.pop();
    }
    Given::Light(case)
}

//! Texts that state starts, which are to be loaded.

use crate::inputs::chance::Chance;
use crate::inputs::loads::{line_end, LoadCase};
use crate::inputs::spelling::line_of;
use crate::inputs::start_records::Start;

/// A line beside starts: data inside the window, at times outside, a base, or a line that is refused.
fn beside(chance: &mut Chance) -> Vec<u8> {
    match chance.under(24) {
        0 => line_of(0, 0x100, &chance.bytes(1)),
        1 => b":00000001FE".to_vec(),
        2 => b":0000000lFF".to_vec(),
        3 => line_of(2, 0, &[0, 0]),
        4 => vec![],
        _ => line_of(0, chance.under(7) as u16, &chance.bytes(2)),
    }
}

/// A text of some starts, mostly the same, with other lines between, and at times one after the end; in a window of 8
/// places.
pub fn load(chance: &mut Chance) -> LoadCase {
    let start = Start::new(chance);
    let mut text = Vec::new();
    for _ in 0..chance.under(7) {
        let line = match chance.once_in(2) {
            true => start.or_other(5, chance).line(chance),
            false => beside(chance),
        };
        text.extend(line);
        text.extend(line_end(chance));
    }
    if !chance.once_in(10) {
        text.extend(line_of(1, 0, &[]));
    }
    if chance.once_in(2) {
        text.extend(b"\n");
        text.extend(start.or_other(2, chance).line(chance));
    }
    LoadCase::new(text, 0, 8, chance.byte())
}

/// Lines that a text by rule is made of: starts that differ in one point each, in capitals and in small letters, and
/// others. 0100 lies outside the window.
fn lines() -> Vec<Vec<u8>> {
    let mut found = vec![];
    for (kind, number) in [
        (3, 0x1000_0000),
        (3, 0x0FFF_0010),
        (3, 0x1000_0001),
        (3, 0x0000_1000),
        (3, 0),
        (5, 0x1000_0000),
        (5, 0x0001_0000),
        (5, 0xABCD_EF12),
        (5, 0xABCD_EF02),
        (5, 0),
    ] {
        let number: u32 = number;
        found.push(line_of(kind, 0, &number.to_be_bytes()));
    }
    found.push(line_of(5, 0xFACE, &[0xAB, 0xCD, 0xEF, 0x12]));
    found.push(line_of(5, 0, &[0xAB, 0xCD, 0xEF, 0x12]).to_ascii_lowercase());
    for line in ["", ":00000001FE", "x", ":00000001FF", ":020000021200EA"] {
        found.push(line.into());
    }
    found.push(line_of(0, 2, &[0x77]));
    found.push(line_of(0, 0x100, &[0x77]));
    found
}

/// How many blocks of texts by rule there are: one for each line that comes first.
pub const BLOCKS: u64 = 19;

/// Each three lines and an end record, with a start after it by turns; and each two lines without an end.
pub fn by_rule(block: u64, _: &mut Chance) -> Vec<LoadCase> {
    let lines = lines();
    let one = &lines[block as usize];
    let mut found = Vec::new();
    for (i, two) in lines.iter().enumerate() {
        for (j, three) in lines.iter().enumerate() {
            let mut all = vec![
                one.clone(),
                two.clone(),
                three.clone(),
                b":00000001FF".to_vec(),
            ];
            if (i + j) % 2 == 0 {
                all.push(lines[i].clone());
            }
            let end: &[u8] = if (i + j) % 3 == 0 { b"\r\n" } else { b"\n" };
            found.push(LoadCase::new(all.join(end), 0, 8, 0xFF));
        }
        let text = [&one[..], two].join(&b'\n');
        found.push(LoadCase::new(text, 0, 8, 0xFF));
    }
    found
}

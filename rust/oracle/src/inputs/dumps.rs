//! Dumps that follow each other in chunks.

use crate::inputs::chance::Chance;
use crate::inputs::chunks::{ChunkCase, Standing};
use crate::inputs::cuts::{cuts, everywhere, open_text, pieces};
use crate::inputs::lines::{damaged, good};

/// Dumps that follow each other: short texts, most of them with an end record last, and an empty line after
/// some.
fn dumps(chance: &mut Chance) -> Vec<u8> {
    let mut dumps = Vec::new();
    for _ in 0..chance.from_to(1, 4) {
        let lines: [fn(&mut Chance) -> Vec<u8>; 5] = [good, good, good, damaged, open_text];
        let line = chance.one_of(&lines)(chance);
        let end = chance.one_of(&["\n", "\r\n"]);
        let last = chance.one_of(&[":00000001FF", ":00000001FF", ":00000001ff", ":", ""]);
        let after = chance.one_of(&["", "", "\n", "\r\n\n", "\r"]);
        dumps.extend(
            [
                &line,
                end.as_bytes(),
                last.as_bytes(),
                end.as_bytes(),
                after.as_bytes(),
            ]
            .concat(),
        );
    }
    dumps
}

/// The stops of a reader of dumps: most often after an end record.
fn dump_stops(chance: &mut Chance) -> u8 {
    chance.one_of(&[2, 2, 3, 3, 1, 0])
}

/// Dumps that follow each other, cut by chance.
pub fn cut_dumps(chance: &mut Chance) -> ChunkCase {
    let text = dumps(chance);
    let cuts = cuts(&text, chance);
    ChunkCase {
        chunks: pieces(&text, &cuts),
        pool: 0,
        carry: vec![],
        state: Standing::new(dump_stops(chance)),
    }
}

/// Short dumps that follow each other, cut in two at every place.
pub fn cut_dumps_everywhere(chance: &mut Chance) -> Vec<ChunkCase> {
    let text = dumps(chance);
    let flags = dump_stops(chance);
    everywhere(text, flags, chance)
}

//! Lines on which dump after dump comes, with noise between them, in chunks and with pauses.

use ihex_sys::MAX_PAGE;

use crate::inputs::chance::Chance;
use crate::inputs::cuts::{cuts, pieces};
use crate::inputs::lights::{count_after, text};
use crate::inputs::lines::{damage, late, random, summed, TELLING};
use crate::inputs::loads::line_end;
use crate::inputs::shrink::{plainer, readable, shorter, smaller_number};
use crate::inputs::shrink::{smaller_text, with_each, Case};
use crate::inputs::tables::Kind;
use crate::subjects::told::Light;

/// A chunk of fewer bytes is made smaller byte by byte.
const LONG: usize = 100;

/// What comes on a line.
#[derive(Clone, PartialEq, Eq, Debug)]
pub enum Piece {
    Chunk(Vec<u8>),
    Pause,
}

impl Piece {
    /// Pieces that are plainer than this one. A long one gets shorter by many bytes at a time: else it takes too long.
    fn plainer(&self) -> Vec<Piece> {
        let bytes = match self {
            Piece::Chunk(bytes) => bytes,
            Piece::Pause => return vec![],
        };
        let least = bytes.len() / LONG;
        let mut found = smaller_text(bytes);
        found.retain(|text| text.len() + least <= bytes.len());
        found.into_iter().map(Piece::Chunk).collect()
    }

    fn show(&self) -> String {
        match self {
            Piece::Chunk(bytes) => readable(bytes),
            Piece::Pause => "pause".into(),
        }
    }
}

/// A listener for the page of a light, and what comes on its line.
#[derive(Clone)]
pub struct StreamCase {
    pub light: Light,
    pub kind: Kind,
    /// Whether listening begins where a text does.
    pub known: bool,
    /// What each byte of carry, staging, page and marks holds before.
    pub old: u8,
    pub pieces: Vec<Piece>,
}

impl StreamCase {
    /// The same with each two chunks that follow each other joined, one pair at a time.
    fn joined(&self) -> Vec<Vec<Piece>> {
        let mut found = Vec::new();
        for (i, two) in self.pieces.windows(2).enumerate() {
            if let [Piece::Chunk(one), Piece::Chunk(other)] = two {
                let mut pieces = self.pieces.clone();
                let both = Piece::Chunk([&one[..], other].concat());
                pieces.splice(i..i + 2, [both]);
                found.push(pieces);
            }
        }
        found
    }
}

impl Case for StreamCase {
    fn smaller(&self) -> Vec<Self> {
        let light = &self.light;
        let mut lights = with_each!(
            light,
            first in [0].into_iter().filter(|_| light.first > 0),
            high in smaller_number(light.high),
            low in smaller_number(light.low),
        );
        let least = light.high.max(light.low) + 1;
        let lengths = smaller_number(light.length).into_iter();
        lights.extend(with_each!(light, length in lengths.filter(|&n| n >= least)));
        with_each!(
            self,
            light in lights,
            pieces in shorter(&self.pieces),
            pieces in self.joined(),
            known in [true].into_iter().filter(|_| !self.known),
            old in [0].into_iter().filter(|_| self.old > 0),
            pieces in plainer(&self.pieces, Piece::plainer),
        )
    }

    fn size(&self) -> usize {
        let length = |piece: &Piece| match piece {
            Piece::Chunk(bytes) => 1 + bytes.len(),
            Piece::Pause => 1,
        };
        self.pieces.iter().map(length).sum()
    }

    fn show(&self) -> String {
        let Light {
            first,
            length,
            high,
            low,
        } = self.light;
        let pieces: Vec<String> = self.pieces.iter().map(Piece::show).collect();
        let known = if self.known { "known" } else { "unknown" };
        format!(
            "{:?}, light {first:08X} {length} {high} {low}, {known} beginning, over {:02X}: {}",
            self.kind,
            self.old,
            pieces.join(", ")
        )
    }
}

/// A light by chance, of a short page mostly, which lies below 2^32.
fn light(chance: &mut Chance) -> Light {
    let length = match chance.under(200) {
        0 => MAX_PAGE,
        1..=9 => 1,
        _ => chance.from_to(2, 20),
    };
    let last = (length as u32).wrapping_neg();
    let first = chance.one_of(&[0, 0, 1, 0x100, 0x100, 0xFFF0, 0x1_2000, 0xFFFF_0000, last]);
    Light {
        first: first.min(last),
        length,
        high: chance.under(length),
        low: chance.under(length),
    }
}

/// Lines that are no dump: blank ones, some of them broken, garbage, lines with a right checksum, and lines too long for a carry.
fn noise(chance: &mut Chance) -> Vec<u8> {
    match chance.under(10) {
        0..=2 => {
            let blank = chance.one_of(&["\n", "\r\n", "\n\r\n\n", "\r\n\r\n"]);
            blank.into()
        }
        3 => chance.one_of(&["\r", "\r\r\n", "\n\r", "\r\n\r"]).into(),
        4 => [late(chance), b"\n".to_vec()].concat(),
        5 => [random(chance), b"\n".to_vec()].concat(),
        6 | 7 => [summed(chance), b"\n".to_vec()].concat(),
        _ => {
            let n = chance.under(12);
            (0..n).map(|_| chance.one_of(&TELLING)).collect()
        }
    }
}

/// A dump as it comes: mostly whole, at times its tail, its beginning, or one with a character that is wrong.
fn dump(light: Light, kind: Kind, count: u16, chance: &mut Chance) -> Vec<u8> {
    let kind = match (chance.once_in(24), kind) {
        (false, kind) => kind,
        (true, Kind::Intel) => Kind::SRecords,
        (true, Kind::SRecords) => Kind::Intel,
    };
    let mut text = text(light, kind, count, chance);
    if !chance.once_in(16) {
        text.extend(line_end(chance));
    }
    let place = chance.under(text.len() + 1);
    match chance.under(10) {
        0 => text.drain(..place).count(),
        1 => text.drain(place..).count(),
        2 => {
            damage(&mut text, chance);
            0
        }
        _ => 0,
    };
    text
}

/// What comes between two pauses: a few dumps, with noise before some.
fn stretch(light: Light, kind: Kind, count: &mut u16, chance: &mut Chance) -> Vec<u8> {
    let mut bytes = Vec::new();
    for _ in 0..chance.under(5) {
        if chance.once_in(3) {
            bytes.extend(noise(chance));
        }
        *count = count_after(*count, chance);
        bytes.extend(dump(light, kind, *count, chance));
    }
    bytes
}

/// A listener, and a line without pieces.
fn silent(chance: &mut Chance) -> StreamCase {
    StreamCase {
        light: light(chance),
        kind: chance.one_of(&[Kind::Intel, Kind::Intel, Kind::SRecords]),
        known: !chance.once_in(4),
        old: chance.one_of(&[0, 0xFF, 0x55, 0x3A]),
        pieces: vec![],
    }
}

/// A few stretches, cut by chance, with pauses between them, and at the end mostly one.
pub fn stream(chance: &mut Chance) -> StreamCase {
    let mut case = silent(chance);
    let mut count = chance.number() as u16;
    for _ in 0..chance.one_of(&[1, 1, 1, 2, 3]) {
        let bytes = stretch(case.light, case.kind, &mut count, chance);
        let cuts = cuts(&bytes, chance);
        let chunks = pieces(&bytes, &cuts).into_iter().map(Piece::Chunk);
        case.pieces.extend(chunks);
        let pauses = chance.one_of(&[1, 1, 1, 2]);
        case.pieces.extend(vec![Piece::Pause; pauses]);
    }
    if chance.once_in(4) {
        case.pieces.pop();
    }
    case
}

/// A stretch of up to 200 bytes, cut in two at every place: with a pause between the two, with an empty chunk, or with neither.
pub fn stream_everywhere(chance: &mut Chance) -> Vec<StreamCase> {
    let mut case = silent(chance);
    let mut bytes = stretch(case.light, case.kind, &mut chance.byte().into(), chance);
    bytes.truncate(200);
    let between = chance.one_of(&[0, 1, 2]);
    let cut = |place: usize| {
        let (one, other) = bytes.split_at(place);
        let mut pieces = vec![Piece::Chunk(one.to_vec())];
        match between {
            0 => {}
            1 => pieces.push(Piece::Chunk(vec![])),
            _ => pieces.push(Piece::Pause),
        }
        pieces.extend([Piece::Chunk(other.to_vec()), Piece::Pause]);
        pieces
    };
    (0..=bytes.len())
        .map(|place| {
            case.pieces = cut(place);
            case.clone()
        })
        .collect()
}

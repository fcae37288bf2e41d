//! Texts that place bytes around a window, which are to be loaded.

use crate::inputs::chance::Chance;
use crate::inputs::lines::{damage, damaged, random, summed};
use crate::inputs::marks::{packed_length, WINDOWS};
use crate::inputs::shrink::{fewer_flags, readable, smaller_number, smaller_text, with_each, Case};
use crate::inputs::spelling::line_of;
use crate::inputs::start_records::Start;

#[derive(Clone)]
pub struct LoadCase {
    pub text: Vec<u8>,
    pub first: u32,
    /// The page's length.
    pub page: usize,
    /// The marks' length in bytes.
    pub marks: usize,
    /// What the last byte of the marks holds before the load.
    pub last: u8,
}

impl LoadCase {
    /// A load into a page of so many places, with as many marks as there should be.
    pub fn new(text: Vec<u8>, first: u32, places: usize, last: u8) -> Self {
        LoadCase {
            text,
            first,
            page: places,
            marks: packed_length(places),
            last,
        }
    }

    /// A load into these buffers.
    pub fn of(text: &[u8], first: u32, page: &[u8], marks: &[u8]) -> Self {
        LoadCase {
            text: text.to_vec(),
            first,
            page: page.len(),
            marks: marks.len(),
            last: marks.last().copied().unwrap_or(0),
        }
    }
}

impl Case for LoadCase {
    fn smaller(&self) -> Vec<Self> {
        let mut found = with_each!(
            self,
            text in smaller_text(&self.text),
            first in smaller_number(self.first as usize).into_iter().map(|n| n as u32),
            last in fewer_flags(self.last),
        );
        for page in smaller_number(self.page) {
            let fewer = packed_length(self.page) - packed_length(page);
            found.push(LoadCase {
                page,
                marks: self.marks.saturating_sub(fewer),
                ..self.clone()
            });
        }
        found
    }

    fn size(&self) -> usize {
        self.text.len()
    }

    fn show(&self) -> String {
        let LoadCase {
            first,
            page,
            marks,
            last,
            ..
        } = self;
        format!(
            "text {} first {first:08X} page {page} marks {marks}, the last {last:02X}",
            readable(&self.text)
        )
    }
}

/// The places of the longest page, and of a segment.
const FULL: usize = 65_536;
/// A window of a segment misses fewer of its places than this.
const MISSED: usize = 8;

/// Where a page is to show memory: from which address on, how many places, and how many there could be.
pub struct Window {
    pub first: u32,
    pub size: usize,
    pub room: usize,
}

impl Window {
    /// Whether it is long enough for a segment, but for a few places.
    fn holds_segment(&self) -> bool {
        self.size > FULL - MISSED
    }
}

/// A window of a segment, whole or without a few places at its start or its end.
fn window_of_segment(chance: &mut Chance) -> Window {
    let number = chance.number() as u16;
    let number = chance.one_of(&[0, number]);
    let missed = chance.under(MISSED);
    let (late, short) = chance.one_of(&[(0, 0), (0, 0), (missed, 0), (0, missed)]);
    Window {
        first: 16 * u32::from(number) + late as u32,
        size: FULL - short,
        room: FULL,
    }
}

/// A window, often at an end of 2 or 4 address bytes, and of a segment at times.
pub fn window(chance: &mut Chance) -> Window {
    if chance.once_in(10) {
        return window_of_segment(chance);
    }
    let first = match chance.under(8) {
        0 => 0,
        1 => u32::MAX - chance.under(300) as u32,
        2 => (chance.number() as u32) & 0xFFFF_0000,
        3 => 16 * u32::from(chance.number() as u16),
        4 => 16 * u32::from(chance.number() as u16) + chance.under(64) as u32,
        // around the ends of segment 0 and of 1 MiB
        5 => 0xFFFF - chance.under(400) as u32,
        6 => 0xF_FFFF - chance.under(400) as u32,
        _ => chance.number() as u32,
    };
    let room = ((1u64 << 32) - u64::from(first)).min(FULL as u64) as usize;
    let size = match chance.under(64) {
        n if n < 4 => room,
        n if n < 11 => chance.under(4),
        _ => chance.from_to(200, 700).min(room),
    };
    Window { first, size, room }
}

pub fn line_end(chance: &mut Chance) -> &'static [u8] {
    chance.one_of(&["\n", "\r\n", "\n\n"]).as_bytes()
}

/// A segment that ends in the window, or one that begins at the window or a little below it.
fn segment(window: &Window, chance: &mut Chance) -> u16 {
    let first = window.first as usize;
    let end = first + chance.under(window.size + 1);
    let begin = match chance.under(4) {
        _ if window.holds_segment() && !chance.once_in(16) => first,
        0 | 1 if end >= FULL => end - FULL,
        0 | 2 => first,
        _ => first.saturating_sub(chance.under(1024)),
    };
    (begin / 16) as u16
}

/// Puts the line of a base near the window, and says which base that is and whether it wraps. Into an
/// empty text it may put none: that is base 0, which wraps.
fn put_base(text: &mut Vec<u8>, window: &Window, chance: &mut Chance) -> (u32, bool) {
    let first = window.first;
    if text.is_empty() && first < 1 << 16 && chance.once_in(2) {
        return (0, true);
    }
    let wraps = first < 1 << 20 && chance.once_in(2);
    let (kind, number, unit) = if wraps {
        (2, segment(window, chance), 16)
    } else {
        (4, (first >> 16) as u16, 65_536)
    };
    text.extend(line_of(kind, 0, &number.to_be_bytes()));
    text.extend(line_end(chance));
    (u32::from(number) * unit, wraps)
}

/// Puts a line of data, mostly inside the window, with its offset from the base in force; at times across
/// offset FFFF, and often where that wraps in the window.
fn put_data(text: &mut Vec<u8>, window: &Window, (base, wraps): (u32, bool), chance: &mut Chance) {
    let len = if chance.once_in(16) {
        chance.from_to(0, 255)
    } else {
        chance.under(20)
    };
    let slack = window.size.saturating_sub(len);
    let stray = if chance.once_in(24) {
        chance.under(300)
    } else {
        0
    };
    let place = u64::from(window.first) + chance.under(slack + 1) as u64 + stray as u64;
    let often = wraps && window.holds_segment();
    let offset = if chance.once_in(if often { 3 } else { 40 }) {
        (FULL - chance.under(len + 1)) as u16
    } else {
        place.wrapping_sub(u64::from(base)) as u16
    };
    text.extend(line_of(0, offset, &chance.bytes(len)));
    text.extend(line_end(chance));
}

fn put_start(text: &mut Vec<u8>, start: Start, chance: &mut Chance) {
    text.extend(start.or_other(16, chance).line(chance));
    text.extend(line_end(chance));
}

/// Puts the end of a text to load: sometimes an odd line, mostly an end record.
fn put_end(text: &mut Vec<u8>, chance: &mut Chance) {
    if chance.once_in(6) {
        let odd: [fn(&mut Chance) -> Vec<u8>; 3] = [random, damaged, summed];
        text.extend(chance.one_of(&odd)(chance));
        text.push(b'\n');
    }
    if !chance.once_in(16) {
        text.extend(line_of(1, 0, &[]));
        text.extend(
            chance
                .one_of(&["", "\n", "\r\n", "\r", "\n:garbage"])
                .bytes(),
        );
    }
}

/// A text that places bytes around a window, with that window.
pub fn load(chance: &mut Chance) -> LoadCase {
    let (window, start) = (window(chance), Start::new(chance));
    let mut text = Vec::new();
    for _ in 0..chance.under(8) {
        let base = put_base(&mut text, &window, chance);
        for _ in 0..chance.under(7) {
            if chance.once_in(6) {
                put_start(&mut text, start, chance);
            } else {
                put_data(&mut text, &window, base, chance);
            }
        }
    }
    put_end(&mut text, chance);
    if chance.once_in(8) {
        damage(&mut text, chance);
    }
    into(text, &window, chance)
}

/// A text that is to be loaded into a window; at times page or marks have another length than they should.
pub fn into(text: Vec<u8>, window: &Window, chance: &mut Chance) -> LoadCase {
    let Window { first, size, room } = *window;
    let fit = packed_length(size);
    let (page, marks) = match chance.under(80) {
        0 => (size, fit + 1),
        1 => (size, fit.saturating_sub(1)),
        2 => (size, size / 8),
        3 => (size, size),
        4 => (chance.from_to(65_535, 65_538), 8193),
        5 => (room + 1, packed_length(room + 1)),
        _ => (size, fit),
    };
    LoadCase {
        text,
        first,
        page,
        marks,
        last: chance.byte(),
    }
}

/// The text that states so many bytes from each of these places on, in a window from address 0 on.
fn stating(records: &[(usize, usize)]) -> Vec<u8> {
    let line = |&(place, n): &(usize, usize)| line_of(0, place as u16, &vec![0x41; n]);
    let mut lines: Vec<Vec<u8>> = records.iter().map(line).collect();
    lines.push(line_of(1, 0, &[]));
    lines.join(&b'\n')
}

/// The most places that a text by rule states at once.
const RUN: usize = 17;

/// Texts for a window of so many places: none, one of an end record alone, and one of the place after the
/// window. Of each of the first places and of the last: once, twice, before and after its neighbour, and as
/// the first of a run.
fn texts(places: usize) -> Vec<Vec<u8>> {
    let mut found = vec![vec![], stating(&[]), stating(&[(places, 1)])];
    for place in (0..places.min(RUN)).chain([places.saturating_sub(1)]) {
        let (one, next) = ((place, 1), (place + 1, 1));
        found.push(stating(&[one]));
        found.push(stating(&[one, one]));
        if place + 1 < places {
            found.push(stating(&[one, next]));
            found.push(stating(&[next, one]));
        }
        found.push(stating(&[(place, RUN.min(places - place))]));
    }
    found
}

/// How many blocks of loads by rule there are.
pub const BLOCKS: u64 = WINDOWS.len() as u64;

/// Loads by rule, into a window of a telling number of places: each text over marks whose last byte has no
/// bit set, each bit alone, and all; then marks of a byte too few and too many.
pub fn by_rule(block: u64, _: &mut Chance) -> Vec<LoadCase> {
    let places = WINDOWS[block as usize];
    let lasts: Vec<u8> = (0..8).map(|bit| 1 << bit).chain([0, 0xFF]).collect();
    let mut found = Vec::new();
    for text in texts(places) {
        for &last in &lasts {
            found.push(LoadCase::new(text.clone(), 0, places, last));
        }
        let fit = packed_length(places);
        for marks in [fit.saturating_sub(1), fit + 1] {
            let case = LoadCase::new(text.clone(), 0, places, 0xFF);
            found.push(LoadCase { marks, ..case });
        }
    }
    found
}

//! Pages that are to be written: windows, marks in runs and by chance, and rows of marks that are refused.

use std::ops::Range;

use ihex_sys::MAX_PAGE;

use crate::inputs::chance::Chance;
use crate::inputs::marks::{packed, packed_length, WINDOWS};
use crate::inputs::shrink::{fewer_flags, readable, smaller_number, with_each, Case};

#[derive(Clone)]
pub struct PageCase {
    pub first: u32,
    pub page: Vec<u8>,
    /// A 0 or a 1 for each place of the page.
    pub marks: Vec<u8>,
    /// The unused bits of the last byte of the row, the lowest first, as far as it has such.
    pub unused: u8,
    /// How many bytes the row has too many, or too few if below 0.
    pub longer: isize,
    /// How many bytes longer than the file the output is, or shorter if below 0; where there is no file,
    /// how long it is.
    pub spare: isize,
}

/// The parts of so many places: all of them first, then the halves, down to a 32nd.
fn parts(n: usize) -> Vec<Range<usize>> {
    let mut found = Vec::new();
    for parts in [1, 2, 4, 8, 16, 32] {
        let size = (n / parts).max(1);
        let piece = |from| from..n.min(from + size);
        found.extend((0..n).step_by(size).map(piece));
        if size == 1 {
            break;
        }
    }
    found
}

/// Without the first so many, or without all.
fn behind(bytes: &[u8], n: usize) -> Vec<u8> {
    bytes.get(n..).unwrap_or(&[]).to_vec()
}

/// Without a piece, or what there is of it.
fn without(bytes: &[u8], piece: &Range<usize>) -> Vec<u8> {
    let ahead = &bytes[..piece.start.min(bytes.len())];
    [ahead, &behind(bytes, piece.end)].concat()
}

/// With a 0 for each byte of a piece, for every piece that has another.
fn cleared(bytes: &[u8]) -> Vec<Vec<u8>> {
    let clear = |piece: Range<usize>| {
        let mut other = bytes.to_vec();
        other[piece].fill(0);
        other
    };
    let others = parts(bytes.len()).into_iter().map(clear);
    others.filter(|other| other != bytes).collect()
}

/// Numbers that are nearer to 0.
fn nearer(number: isize) -> impl Iterator<Item = isize> {
    let smaller = smaller_number(number.unsigned_abs()).into_iter();
    smaller.map(move |n| n as isize * number.signum())
}

/// Smaller addresses: first those with the same lower half.
fn sooner(first: u32) -> Vec<u32> {
    let uppers = smaller_number(first as usize >> 16).into_iter();
    let same = uppers.map(|upper| (upper as u32) << 16 | first & 0xFFFF);
    let others = smaller_number(first as usize).into_iter();
    same.chain(others.map(|n| n as u32)).collect()
}

impl PageCase {
    pub fn places(&self) -> usize {
        self.page.len()
    }

    /// The unused bits of the last byte that are set.
    pub fn set_unused(&self) -> u8 {
        match self.places() % 8 {
            0 => 0,
            used => self.unused << used,
        }
    }

    /// The row of marks that is lent.
    pub fn row(&self) -> Vec<u8> {
        let mut row = packed(&self.marks);
        if let Some(last) = row.last_mut() {
            *last |= self.set_unused();
        }
        let length = row.len() as isize + self.longer;
        row.resize(length.max(0) as usize, 0);
        row
    }

    /// Windows without places at the start, which begin that much later, and without a piece.
    fn narrower(&self) -> Vec<Self> {
        let mut found = Vec::new();
        for n in smaller_number(self.places()) {
            let fewer = self.places() - n;
            found.push(PageCase {
                first: self.first.saturating_add(fewer as u32),
                page: behind(&self.page, fewer),
                marks: behind(&self.marks, fewer),
                ..*self
            });
        }
        for part in &parts(self.places()) {
            found.push(PageCase {
                page: without(&self.page, part),
                marks: without(&self.marks, part),
                ..*self
            });
        }
        found
    }
}

impl Case for PageCase {
    fn smaller(&self) -> Vec<Self> {
        let mut found = self.narrower();
        found.extend(with_each!(
            self,
            marks in cleared(&self.marks),
            unused in fewer_flags(self.unused),
            longer in nearer(self.longer),
            spare in nearer(self.spare),
            page in cleared(&self.page),
            first in sooner(self.first),
        ));
        found
    }

    fn size(&self) -> usize {
        self.places()
    }

    fn show(&self) -> String {
        format!(
            "first {:08X} page {} marks {} output {:+}",
            self.first,
            readable(&self.page),
            readable(&self.row()),
            self.spare
        )
    }
}

/// Lengths that matter, of runs and of gaps.
const TELLING: [usize; 8] = [1, 2, 15, 16, 17, 31, 32, 33];

fn length(chance: &mut Chance) -> usize {
    match chance.under(8) {
        0 => chance.from_to(1, 70),
        1 => chance.from_to(100, 300),
        _ => chance.one_of(&TELLING),
    }
}

/// Runs of marked places with gaps between them, at times of one place each.
fn in_runs(n: usize, chance: &mut Chance) -> Vec<u8> {
    let narrow = chance.once_in(3);
    let mut marks = Vec::new();
    let mut mark = chance.under(2) as u8;
    while marks.len() < n {
        let len = match mark {
            0 if narrow => 1,
            _ => length(chance),
        };
        marks.resize(marks.len() + len, mark);
        mark = 1 - mark;
    }
    marks.truncate(n);
    marks
}

/// Each place marked by chance: once in so many times, or all but those.
fn by_chance(n: usize, chance: &mut Chance) -> Vec<u8> {
    let times = chance.one_of(&[2, 4, 30]);
    let other = chance.under(2) as u8;
    let mark = |_| u8::from(chance.once_in(times)) ^ other;
    (0..n).map(mark).collect()
}

fn marks(n: usize, chance: &mut Chance) -> Vec<u8> {
    let style = chance.under(16);
    let (one, every) = (chance.under(n + 1), chance.one_of(&[2, 3, 17]));
    let such = |marked: &dyn Fn(usize) -> bool| (0..n).map(|place| marked(place).into()).collect();
    match style {
        0 => vec![0; n],
        1 | 2 => vec![1; n],
        3 => such(&|place| place == one),
        4 => such(&|place| place % every == 0),
        5 | 6 => by_chance(n, chance),
        _ => in_runs(n, chance),
    }
}

/// How many bytes the row of so many places has too many: one, or as many as if each place had a byte; or
/// one too few.
fn longer(n: usize, chance: &mut Chance) -> isize {
    let bytes = n - packed_length(n);
    chance.one_of(&[-1, -1, 1, 1, bytes as isize])
}

/// Where a window of so many places begins: mostly such that a multiple of 65,536 lies in it or next to
/// it, at times such that it ends at 2^32 or a place beyond.
fn first(n: usize, chance: &mut Chance) -> u32 {
    let number = chance.number() as u32;
    let multiple = chance.one_of(&[0, 1, 2, number >> 16, 0xFFFF]) << 16;
    let ending = ((1u64 << 32) - n.max(1) as u64) as u32;
    match chance.under(20) {
        0 => number,
        1 => ending.saturating_add(1),
        2 | 3 => ending,
        4 => ending - chance.under(20) as u32,
        5..=8 => multiple,
        _ => multiple.saturating_sub(chance.under(n + 2) as u32),
    }
}

/// How much longer than the file an output is.
fn spare(chance: &mut Chance) -> isize {
    match chance.under(10) {
        0 => -1,
        1 => -(chance.from_to(1, 60) as isize),
        2 => -1_000_000,
        3..=6 => 0,
        _ => chance.from_to(1, 40) as isize,
    }
}

fn window(n: usize, chance: &mut Chance) -> PageCase {
    let mut case = PageCase {
        first: first(n, chance),
        page: chance.bytes(n),
        marks: marks(n, chance),
        unused: 0,
        longer: 0,
        spare: spare(chance),
    };
    if chance.once_in(6) {
        case.unused = chance.byte();
    }
    if chance.once_in(24) {
        case.longer = longer(n, chance);
    }
    case
}

/// A page of a few hundred places at most.
pub fn page(chance: &mut Chance) -> PageCase {
    let n = match chance.under(24) {
        0 => 0,
        1 => 1,
        2..=8 => chance.from_to(2, 40),
        _ => chance.from_to(40, 400),
    };
    window(n, chance)
}

/// A page whose file is the longest: a multiple of 65,536 at an odd place, and each second place marked
/// before it, and from it on.
fn longest(chance: &mut Chance) -> PageCase {
    let across = 2 * chance.under(MAX_PAGE / 2) + 1;
    let multiple = chance.from_to(1, 0xFFFF) << 16;
    let marked = |place| u8::from((place < across) == (place % 2 == 0));
    PageCase {
        first: (multiple - across) as u32,
        page: chance.bytes(MAX_PAGE),
        marks: (0..MAX_PAGE).map(marked).collect(),
        unused: 0,
        longer: 0,
        spare: spare(chance),
    }
}

/// A page of as many places as there can be, all marked.
fn full(chance: &mut Chance) -> PageCase {
    let any = chance.under(0xFFFF_0000) as u32;
    PageCase {
        first: chance.one_of(&[0, any, 0xFFFF_0000]),
        page: chance.bytes(MAX_PAGE),
        marks: vec![1; MAX_PAGE],
        unused: 0,
        longer: 0,
        spare: spare(chance),
    }
}

/// A page of a place too many.
fn over(chance: &mut Chance) -> PageCase {
    let n = MAX_PAGE + 1;
    PageCase {
        first: chance.under(0xFFFF_0000) as u32,
        page: chance.bytes(n),
        marks: marks(n, chance),
        unused: 0,
        longer: 0,
        spare: spare(chance),
    }
}

/// A page of many places, often of as many as there can be.
fn wide(chance: &mut Chance) -> PageCase {
    let n = match chance.under(8) {
        0 => MAX_PAGE - 1,
        1..=4 => MAX_PAGE,
        _ => chance.from_to(400, MAX_PAGE),
    };
    window(n, chance)
}

/// A block of pages of many places; one of them, in turn, has the longest file, all places marked, or a
/// place too many.
pub fn large(block: u64, chance: &mut Chance) -> Vec<PageCase> {
    let one = [longest, full, over][block as usize % 3];
    vec![one(chance), wide(chance), wide(chance)]
}

/// How many blocks of pages by rule there are.
pub const BLOCKS: u64 = WINDOWS.len() as u64;

/// Pages by rule, of a telling number of places, with all marked or none: with each unused bit of the last
/// byte of the row set alone, with all of them, with each other bit of it changed, and with a row of a byte
/// too few, a byte too many, or a byte for each place.
pub fn by_rule(block: u64, chance: &mut Chance) -> Vec<PageCase> {
    let n = WINDOWS[block as usize];
    let mut found = Vec::new();
    for (mark, spare) in [(0, 0), (1, 0), (0, -1), (1, 9)] {
        let plain = PageCase {
            first: 0,
            page: chance.bytes(n),
            marks: vec![mark; n],
            unused: 0,
            longer: 0,
            spare,
        };
        let last_byte = n.saturating_sub(1) / 8 * 8..n;
        found.extend(with_each!(
            plain,
            unused in (0..8).map(|bit| 1 << bit).chain([0, 0xFF]),
            longer in [-1, 1, (n - packed_length(n)) as isize],
        ));
        found.extend(last_byte.map(|place| {
            let mut case = plain.clone();
            case.marks[place] ^= 1;
            case
        }));
    }
    found
}

//! Window tables, and texts that are loaded through them.

use ihex_sys::{MAX_PAGE, MOST_WINDOWS, WINDOW};

use crate::inputs::chance::Chance;
use crate::inputs::loads::{line_end, LoadCase};
use crate::inputs::marks::packed_length;
use crate::inputs::shrink::{fewer_flags, Case};
use crate::inputs::shrink::{plainer, readable, shorter, smaller_number, smaller_text, with_each};
use crate::inputs::spelling::line_of;
use crate::inputs::srecords::srecord;
use crate::inputs::start_records::Start;

/// A window of a table, as C has it.
#[derive(Clone, Copy, PartialEq, Eq, Debug)]
pub struct Row {
    pub owner: u32,
    pub first: u32,
    pub length: u64,
    pub place: u64,
}

impl Row {
    pub fn new(owner: u32, first: u32, length: u64, place: u64) -> Self {
        Row {
            owner,
            first,
            length,
            place,
        }
    }

    /// Its bytes, each number low byte first.
    fn bytes(&self) -> Vec<u8> {
        let halves = [self.owner, self.first].map(u32::to_le_bytes);
        let wholes = [self.length, self.place].map(u64::to_le_bytes);
        [halves.concat(), wholes.concat()].concat()
    }

    /// The window that these bytes stand for.
    fn of(bytes: &[u8]) -> Self {
        let number = |from: usize, to: usize| {
            let digits = bytes[from..to].iter().rev();
            digits.fold(0, |number, &byte| number << 8 | u64::from(byte))
        };
        let (owner, first) = (number(0, 4) as u32, number(4, 8) as u32);
        Row::new(owner, first, number(8, 16), number(16, 24))
    }

    /// Windows that are plainer than this one. A great address only goes to 0: two windows of the same addresses would go down
    /// one after the other, step by step.
    fn plainer(&self) -> Vec<Row> {
        let mut found = Vec::new();
        let firsts = match self.first {
            0..=63 => smaller_number(self.first as usize),
            _ => vec![0],
        };
        for n in firsts {
            found.push(Row {
                first: n as u32,
                ..*self
            });
        }
        for n in smaller_number(self.length as usize) {
            found.push(Row {
                length: n as u64,
                ..*self
            });
        }
        for n in smaller_number(self.place as usize) {
            found.push(Row {
                place: n as u64,
                ..*self
            });
        }
        found
    }
}

/// The kind of a text.
#[derive(Clone, Copy, PartialEq, Eq, Debug)]
pub enum Kind {
    Intel,
    SRecords,
}

impl Kind {
    /// The line that ends a text of this kind.
    pub fn end(self) -> &'static [u8] {
        match self {
            Kind::Intel => b":00000001FF",
            Kind::SRecords => b"S9030000FC",
        }
    }
}

/// A load of a text for an owner through a table.
#[derive(Clone)]
pub struct TableCase {
    pub kind: Kind,
    pub text: Vec<u8>,
    pub owner: u32,
    pub rows: Vec<Row>,
    /// How many bytes of one more window the table has.
    pub torn: usize,
    /// The pool's length, and the marks' in bytes.
    pub pool: usize,
    pub marks: usize,
    /// What the last byte of the marks holds before the load.
    pub last: u8,
}

impl TableCase {
    /// A load through a table that is not torn, with as many marks as there should be.
    pub fn new(kind: Kind, text: Vec<u8>, owner: u32, rows: Vec<Row>, pool: usize) -> Self {
        TableCase {
            kind,
            text,
            owner,
            rows,
            torn: 0,
            pool,
            marks: packed_length(pool),
            last: 0xFF,
        }
    }

    /// A load through the table of these bytes.
    pub fn of(
        kind: Kind,
        text: &[u8],
        owner: u32,
        table: &[u8],
        pool: usize,
        marks: usize,
    ) -> Self {
        let rows = table.chunks_exact(WINDOW).map(Row::of).collect();
        TableCase {
            torn: table.len() % WINDOW,
            marks,
            ..TableCase::new(kind, text.to_vec(), owner, rows, pool)
        }
    }

    /// The bytes of the table.
    pub fn table(&self) -> Vec<u8> {
        let mut bytes: Vec<u8> = self.rows.iter().flat_map(Row::bytes).collect();
        bytes.extend(&Row::new(1, 0, 0, 0).bytes()[..self.torn]);
        bytes
    }

    /// All windows lower by the least of their first addresses, if that is not 0.
    fn lower(&self) -> Option<Self> {
        let mut lower = self.clone();
        let least = self.rows.iter().map(|row| row.first).min()?;
        lower.rows.iter_mut().for_each(|row| row.first -= least);
        (least > 0).then_some(lower)
    }

    /// The same text, pool and marks as a load without a table.
    pub fn load(&self) -> LoadCase {
        LoadCase {
            text: self.text.clone(),
            first: 0,
            page: self.pool,
            marks: self.marks,
            last: self.last,
        }
    }
}

impl Case for TableCase {
    fn smaller(&self) -> Vec<Self> {
        let mut found = with_each!(
            self,
            rows in shorter(&self.rows),
            rows in plainer(&self.rows, Row::plainer),
            torn in smaller_number(self.torn),
        );
        found.extend(self.lower());
        for pool in smaller_number(self.pool) {
            let fewer = packed_length(self.pool) - packed_length(pool);
            found.push(TableCase {
                pool,
                marks: self.marks.saturating_sub(fewer),
                ..self.clone()
            });
        }
        found.extend(with_each!(
            self,
            text in smaller_text(&self.text),
            last in fewer_flags(self.last),
        ));
        found
    }

    fn size(&self) -> usize {
        self.text.len() + self.rows.len()
    }

    fn show(&self) -> String {
        let rows = self.rows.iter().map(|row| {
            let Row {
                owner,
                first,
                length,
                place,
            } = row;
            format!("({owner}, {first:X}, {length}, {place})")
        });
        let rows: Vec<String> = rows.collect();
        format!(
            "text {} owner {} windows {} and {} bytes pool {} marks {}, the last {:02X}",
            readable(&self.text),
            self.owner,
            rows.join(" "),
            self.torn,
            self.pool,
            self.marks,
            self.last,
        )
    }
}

/// Where the addresses of a case lie: at the lowest, about the end of segment 0, about 64 KiB further on, and about the
/// highest.
const ABOUT: [u32; 4] = [0, 0xFFF8, 0x1_FFFC, 0xFFFF_FFF0];

/// An owner, mostly one that there is.
fn owner(chance: &mut Chance) -> u32 {
    match chance.under(60) {
        0 => chance.one_of(&[0, 3, 257, 0x1_0002, u32::MAX]),
        n => 1 + n as u32 % 2,
    }
}

/// Windows without a clash, in an order by chance, and a pool that holds them. Many touch, and some are empty.
fn apart(about: u32, n: usize, chance: &mut Chance) -> (Vec<Row>, usize) {
    let (mut place, mut ends) = (chance.under(3) as u64, [u64::from(about); 2]);
    let mut rows = Vec::new();
    let mut order: Vec<usize> = (0..n).collect();
    for i in 0..n {
        let (owner, length) = (chance.under(2), chance.under(5) as u64);
        let first = ends[owner] + chance.one_of(&[0, 0, 1, 3]);
        if first + length <= 1 << 32 {
            rows.push(Row::new(1 + owner as u32, first as u32, length, place));
            ends[owner] = first + length;
            place += length + chance.one_of(&[0, 0, 0, 1, 2]);
        }
        order.swap(i, chance.under(n));
    }
    order.retain(|&i| i < rows.len());
    let mixed = order.into_iter().map(|i| rows[i]).collect();
    (mixed, place as usize + chance.under(3))
}

/// Windows of small numbers by chance, most of which clash, and a pool.
fn any(about: u32, n: usize, chance: &mut Chance) -> (Vec<Row>, usize) {
    let mut row = || {
        let first = about.wrapping_add(chance.under(20) as u32);
        let (length, place) = (chance.under(6) as u64, chance.under(14) as u64);
        Row::new(owner(chance), first, length, place)
    };
    let rows = (0..n).map(|_| row()).collect();
    (rows, chance.from_to(8, 20))
}

/// Numbers that are near none of a small table, or whose sums would wrap.
const FAR: [u64; 6] = [
    1 << 16,
    1 << 32,
    (1 << 32) + 1,
    1 << 63,
    u64::MAX,
    u64::MAX - 3,
];

/// Changes one number of one window by one, or to one of all sizes.
fn change(rows: &mut [Row], chance: &mut Chance) {
    if rows.is_empty() {
        return;
    }
    let i = chance.under(rows.len());
    let row = &mut rows[i];
    let far = chance.one_of(&FAR);
    match chance.under(9) {
        0 | 1 => row.first = row.first.wrapping_add(1),
        2 => row.first = row.first.wrapping_sub(1),
        3 => row.length += 1,
        4 => row.place += 1,
        5 => row.place = row.place.saturating_sub(1),
        6 => row.owner = owner(chance),
        7 => row.length = far,
        _ => row.place = far,
    }
}

/// How many windows a table has: mostly few, at times as many as it can have, or one more.
fn how_many(chance: &mut Chance) -> usize {
    match chance.under(12) {
        0 => MOST_WINDOWS,
        1 => MOST_WINDOWS + chance.under(3),
        2 => chance.from_to(7, MOST_WINDOWS),
        _ => chance.under(6),
    }
}

/// An address and a number of bytes from there on: mostly in a window of the table, at times in those after it too, or near it.
fn run(rows: &[Row], about: u32, chance: &mut Chance) -> (u32, usize) {
    let (first, length) = match rows.is_empty() {
        true => (about, 0),
        false => {
            let row = chance.one_of(rows);
            (row.first, row.length.min(8) as usize)
        }
    };
    if chance.once_in(8) {
        let nudge = chance.one_of(&[0, 1, 2, 3, u32::MAX]);
        return (first.wrapping_add(nudge), chance.under(24));
    }
    let from = chance.under(length + 1);
    let more = chance.one_of(&[0, 0, 0, 1, 3]);
    let n = chance.under(length - from + 1) + more.min(length - from);
    (first.wrapping_add(from as u32), n)
}

/// A line of data of a kind, mostly in windows of the table.
fn data_line(kind: Kind, rows: &[Row], about: u32, chance: &mut Chance) -> Vec<u8> {
    let (address, n) = run(rows, about, chance);
    let bytes = chance.bytes(n);
    data_at(kind, address, &bytes, chance)
}

/// A line of data of a kind with these bytes at an address; of Intel HEX mostly after one that sets its base.
pub fn data_at(kind: Kind, address: u32, bytes: &[u8], chance: &mut Chance) -> Vec<u8> {
    if kind == Kind::SRecords {
        let kind = if address > 0xFFFF { 3 } else { 1 };
        return srecord(kind, address, bytes);
    }
    let data = line_of(0, address as u16, bytes);
    if address <= 0xFFFF && chance.once_in(2) {
        return data;
    }
    let base = match address < 1 << 20 && chance.once_in(2) {
        true => line_of(2, 0, &((address >> 16 << 12) as u16).to_be_bytes()),
        false => line_of(4, 0, &((address >> 16) as u16).to_be_bytes()),
    };
    [base, data].join(&b'\n')
}

/// A line that is not data.
pub fn other_line(kind: Kind, records: usize, chance: &mut Chance) -> Vec<u8> {
    match (kind, chance.under(6)) {
        (_, 0) => b"x".to_vec(),
        (Kind::Intel, 1) => b":00000001FE".to_vec(),
        (Kind::Intel, 2) => b":0000000lFF".to_vec(),
        (Kind::Intel, _) => Start::new(chance).line(chance),
        (Kind::SRecords, 1) => b"S9030000FD".to_vec(),
        (Kind::SRecords, n) => srecord(5, (records + n / 5) as u32, &[]),
    }
}

/// A text of a few lines, mostly of data in the windows or near them.
fn text(kind: Kind, rows: &[Row], about: u32, chance: &mut Chance) -> Vec<u8> {
    let (mut text, mut records) = (Vec::new(), 0);
    for _ in 0..chance.under(6) {
        text.extend(match chance.once_in(16) {
            true => other_line(kind, records, chance),
            false => {
                records += 1;
                data_line(kind, rows, about, chance)
            }
        });
        text.extend(line_end(chance));
    }
    if !chance.once_in(16) {
        text.extend(kind.end());
        text.extend(
            chance
                .one_of(&["", "\n", "\nx", "\r\n:0100000099 66"])
                .bytes(),
        );
    }
    text
}

/// A table of small windows, and a text of either kind for an owner, mostly about its windows.
pub fn load(chance: &mut Chance) -> TableCase {
    let (about, n) = (chance.one_of(&ABOUT), how_many(chance));
    let (mut rows, pool) = match chance.once_in(4) {
        true => any(about, n, chance),
        false => apart(about, n, chance),
    };
    if chance.once_in(4) {
        change(&mut rows, chance);
    }
    let kind = chance.one_of(&[Kind::Intel, Kind::SRecords]);
    let owner = owner(chance);
    let own: Vec<Row> = rows
        .iter()
        .copied()
        .filter(|row| row.owner == owner)
        .collect();
    let near = if chance.once_in(12) { &rows } else { &own };
    let text = text(kind, near, about, chance);
    let mut case = TableCase::new(kind, text, owner, rows, pool);
    case.last = chance.byte();
    match chance.under(60) {
        0 => case.torn = chance.from_to(1, WINDOW - 1),
        1 => case.marks += 1,
        2 => case.marks = case.marks.saturating_sub(1),
        3 => {
            case.pool = MAX_PAGE + chance.under(2);
            case.marks = packed_length(case.pool);
        }
        _ => {}
    }
    case
}

/// Every window of an owner or of nobody, with a first address, a length and a place of small numbers.
fn small() -> Vec<Row> {
    let mut found = Vec::new();
    for owner in [0, 1, 2] {
        for first in 0..3 {
            for length in 0..4 {
                for place in 0..5 {
                    found.push(Row::new(owner, first, length, place));
                }
            }
        }
    }
    found
}

/// How many blocks of small tables there are: one for each window that comes first.
pub const SMALL: u64 = 180;

/// Each two small windows in a pool of 5, with a text for the first owner that states three bytes from address 1 on, or
/// for the second one that states one.
pub fn every_small(block: u64, _: &mut Chance) -> Vec<TableCase> {
    let all = small();
    let one = all[block as usize];
    let case = |(i, &two): (usize, &Row)| {
        let (owner, n) = if i % 3 == 0 { (2, 1) } else { (1, 3) };
        let bytes = &[0x11, 0x22, 0x33][..n];
        let (kind, lines) = match (i + block as usize) % 2 {
            0 => (Kind::Intel, [line_of(0, 1, bytes), line_of(1, 0, &[])]),
            _ => (Kind::SRecords, [srecord(1, 1, bytes), srecord(9, 0, &[])]),
        };
        TableCase::new(kind, lines.join(&b'\n'), owner, vec![one, two], 5)
    };
    all.iter().enumerate().map(case).collect()
}

/// A full pool in so many windows.
#[derive(Clone)]
pub struct FullCase {
    pub windows: usize,
    /// How many addresses too many the window in the middle has, and how many places too many the pool.
    pub long: u64,
    pub many: usize,
}

impl Case for FullCase {
    fn smaller(&self) -> Vec<Self> {
        let fewer = smaller_number(self.windows - 1).into_iter();
        with_each!(self, windows in fewer.map(|n| n + 1))
    }

    fn size(&self) -> usize {
        self.windows
    }

    fn show(&self) -> String {
        let FullCase {
            windows,
            long,
            many,
        } = self;
        format!("a full pool in {windows} windows, {long} and {many} too many")
    }
}

impl FullCase {
    /// The load: the last addresses lie at the first places, and records lie across the ends of windows.
    pub fn load(&self) -> TableCase {
        let n = self.windows;
        let part = MAX_PAGE / n;
        let row = |i: usize| {
            let place = (n - 1 - i) * part;
            Row::new(1, (i * part) as u32, part as u64, place as u64)
        };
        let data = |i: usize| line_of(0, ((i + 1) * part - 9) as u16, &[i as u8 + 1; 16]);
        let mut lines: Vec<Vec<u8>> = (0..n).map(data).collect();
        lines.push(line_of(1, 0, &[]));
        let mut rows: Vec<Row> = (0..n).map(row).collect();
        rows[n / 2].length += self.long;
        let text = lines.join(&b'\n');
        TableCase::new(Kind::Intel, text, 1, rows, MAX_PAGE + self.many)
    }
}

/// Full pools in 1 to 16 windows: whole, with a window one too long, and with one place too many.
pub fn full_pools(_: u64, _: &mut Chance) -> Vec<FullCase> {
    let mut found = Vec::new();
    for windows in [1, 2, 3, 8, 16] {
        for (long, many) in [(0, 0), (1, 0), (0, 1)] {
            found.push(FullCase {
                windows,
                long,
                many,
            });
        }
    }
    found
}

/// One load of a row of loads.
#[derive(Clone)]
pub struct Turn {
    pub owner: u32,
    pub kind: Kind,
    pub text: Vec<u8>,
}

/// A row of loads by two owners, with one window each.
#[derive(Clone)]
pub struct TurnsCase {
    /// The window of owner 1, and of owner 2.
    pub rows: [Row; 2],
    /// Whether owner 2's comes first in the table.
    pub turned: bool,
    pub pool: usize,
    pub turns: Vec<Turn>,
}

impl Case for TurnsCase {
    fn smaller(&self) -> Vec<Self> {
        with_each!(self, turns in shorter(&self.turns))
    }

    fn size(&self) -> usize {
        self.turns.iter().map(|turn| turn.text.len()).sum()
    }

    fn show(&self) -> String {
        let turn = |turn: &Turn| format!("{} by {}", readable(&turn.text), turn.owner);
        let turns: Vec<String> = self.turns.iter().map(turn).collect();
        format!(
            "{:?} pool {} loads {}",
            self.rows,
            self.pool,
            turns.join(", ")
        )
    }
}

/// Loads by both owners in turn by chance.
pub fn turns(chance: &mut Chance) -> TurnsCase {
    let about = chance.one_of(&ABOUT);
    let mut place = chance.under(4);
    let rows = [1, 2].map(|owner| {
        let (first, length) = (about + chance.under(5) as u32, chance.under(10));
        let row = Row::new(owner, first, length as u64, place as u64);
        place += length + chance.under(3);
        row
    });
    let turns = (0..chance.from_to(1, 7)).map(|_| {
        let owner = chance.from_to(1, 2);
        let kind = chance.one_of(&[Kind::Intel, Kind::SRecords]);
        Turn {
            owner: owner as u32,
            kind,
            text: text(kind, &rows[owner - 1..owner], about, chance),
        }
    });
    let turns = turns.collect();
    TurnsCase {
        rows,
        turned: chance.once_in(2),
        pool: place,
        turns,
    }
}

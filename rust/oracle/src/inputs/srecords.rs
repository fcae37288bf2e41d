//! S-records: lines, records to be written, and texts to be loaded.

use crate::inputs::chance::Chance;
use crate::inputs::lines::{self, characters, damage, every, LineCase};
use crate::inputs::loads::{into, line_end, window, LoadCase, Window};
use crate::inputs::marks::packed_length;
use crate::inputs::shrink::{shorter, smaller_number, with_each, Case};
use crate::inputs::spelling::{line_of, sspelt};
use crate::subjects::told::SEntry;

/// The types that the format names.
pub const TYPES: [u8; 8] = [0, 1, 2, 3, 5, 7, 8, 9];

/// How many bytes the address of a type has.
pub fn address_bytes(kind: u8) -> usize {
    match kind {
        2 | 8 => 3,
        3 | 7 => 4,
        _ => 2,
    }
}

/// Whether records of a type may have data.
pub fn has_data(kind: u8) -> bool {
    kind < 4
}

/// The most bytes of data that a record of a type can have.
pub fn most_data(kind: u8) -> usize {
    254 - address_bytes(kind)
}

/// The line of a record with this type, address and data.
pub fn srecord(kind: u8, address: u32, data: &[u8]) -> Vec<u8> {
    let width = address_bytes(kind);
    let mut bytes = vec![(width + data.len() + 1) as u8];
    bytes.extend(&address.to_be_bytes()[4 - width..]);
    bytes.extend(data);
    sspelt(b'0' + kind, &bytes)
}

/// Bytes that tell readers of S-records apart.
pub const TELLING: [u8; 20] = [
    b'S', b's', b':', b'0', b'1', b'2', b'3', b'4', b'5', b'6', b'7', b'9', b'A', b'f', b'G', b'/',
    b'\r', b'\n', b' ', 0x80,
];

/// A number of data bytes: mostly few, at times about the most.
fn size_of(kind: u8, chance: &mut Chance) -> usize {
    match chance.under(10) {
        _ if !has_data(kind) => 0,
        0 => most_data(kind) - chance.under(4),
        1 => chance.under(most_data(kind) + 1),
        2 => 0,
        _ => chance.under(34),
    }
}

/// An address that a type can have, at times at an end.
fn address_of(kind: u8, chance: &mut Chance) -> u32 {
    let most = u32::MAX >> (32 - 8 * address_bytes(kind));
    match chance.under(6) {
        0 => 0,
        1 => most - chance.under(3) as u32,
        _ => chance.number() as u32 & most,
    }
}

/// A line that is a record of this type, sometimes with small letters.
fn good_of(kind: u8, chance: &mut Chance) -> Vec<u8> {
    let (address, n) = (address_of(kind, chance), size_of(kind, chance));
    let mut line = srecord(kind, address, &chance.bytes(n));
    if chance.once_in(4) {
        lines::recase(&mut line[1..], chance);
    }
    line
}

/// A line that is a record, of any type.
fn good(chance: &mut Chance) -> Vec<u8> {
    good_of(chance.one_of(&TYPES), chance)
}

/// A line with a right checksum whose type, count or data need not be right.
fn summed(chance: &mut Chance) -> Vec<u8> {
    let digit = chance.one_of(b"0123456789ABCDEFabcdef");
    let n = match chance.under(4) {
        0 => chance.from_to(240, 256),
        _ => chance.under(12),
    };
    let mut bytes = chance.bytes(n);
    if let Some(count) = bytes.first_mut() {
        *count = match chance.under(4) {
            0 => chance.byte(),
            1 => (n as u8)
                .wrapping_add(chance.under(3) as u8)
                .wrapping_sub(1),
            _ => n as u8,
        };
    }
    sspelt(digit, &bytes)
}

/// A line of characters by chance.
fn random(chance: &mut Chance) -> Vec<u8> {
    let mut line = characters(508, &TELLING, chance);
    if !chance.once_in(8) {
        line.splice(0..0, [b'S', chance.one_of(b"01235789")]);
    }
    line
}

/// A good line, or one with a right checksum, with one to three damages.
fn damaged(chance: &mut Chance) -> Vec<u8> {
    let mut line = match chance.once_in(4) {
        true => summed(chance),
        false => good(chance),
    };
    for _ in 0..chance.from_to(1, 3) {
        damage(&mut line, chance);
    }
    line
}

/// A line that is a record.
pub fn good_line(chance: &mut Chance) -> LineCase {
    LineCase::new(good(chance))
}

/// A line of characters by chance, or one with a right checksum.
pub fn random_line(chance: &mut Chance) -> LineCase {
    LineCase::new(match chance.once_in(3) {
        true => summed(chance),
        false => random(chance),
    })
}

/// A line with one to three damages.
pub fn damaged_line(chance: &mut Chance) -> LineCase {
    LineCase::new(damaged(chance))
}

/// A good line with a pool that its data fits, or just does not, and a position near the pool's end.
pub fn pooled_line(chance: &mut Chance) -> LineCase {
    let kind = chance.one_of(&TYPES);
    let line = good_of(kind, chance);
    let data = (line.len() - 6) / 2 - address_bytes(kind);
    let pool = (data + chance.under(3)).saturating_sub(1) + chance.one_of(&[0, 0, 40]);
    let at = chance.around(pool.saturating_sub(data));
    LineCase { line, pool, at }
}

/// Each line up to 3 characters, and each line of an S and up to 3 more.
pub fn every_short(_: u64, _: &mut Chance) -> Vec<LineCase> {
    [every(&TELLING, b"", 3), every(&TELLING, b"S", 4)].concat()
}

/// How many blocks of lines with limits there are: one for each digit of a type.
pub const LIMITS: u64 = 16;

/// Lines of one digit of a type, with counts, data and addresses at their limits, and checksums that are right
/// or wrong by one; each with a pool that the data fills, and one that is a byte short.
pub fn at_limits(block: u64, _: &mut Chance) -> Vec<LineCase> {
    let (kind, digit) = (block as u8, b"0123456789ABCDEF"[block as usize]);
    let (width, most) = (address_bytes(kind), most_data(kind));
    let mut found = Vec::new();
    for n in [0, 1, 2, 3, most - 1, most, most + 1] {
        let count = width + n + 1;
        for claimed in [count, count - 1, count + 1, 0, 1, 2, 3, 255] {
            for byte in [0, 1, 0xFF] {
                let mut bytes = vec![claimed as u8];
                bytes.resize(1 + width, byte);
                bytes.extend((0..n).map(|i| i as u8));
                let line = sspelt(digit, &bytes);
                found.extend(with_pools(&line, n));
                let last = line.len() - 1;
                let mut wrong = line.clone();
                wrong[last] = if wrong[last] == b'F' { b'0' } else { b'F' };
                found.push(LineCase::new(wrong));
                found.push(LineCase::new(line[..last].to_vec()));
            }
        }
    }
    found
}

/// A line of so many bytes of data with room for them, without, and with a position that leaves just enough and
/// just not.
fn with_pools(line: &[u8], n: usize) -> Vec<LineCase> {
    let pools = [(n, 0), (n.saturating_sub(1), 0), (n + 3, 3), (n + 3, 4)];
    let ends = [(0, 1), (3, usize::MAX)];
    let case = |&(pool, at)| LineCase {
        line: line.to_vec(),
        pool,
        at,
    };
    pools.iter().chain(&ends).map(case).collect()
}

/// Lines with each number of digits about the fewest and the most, for each type; with a byte that is not a
/// digit at either end of them, or none.
pub fn sized(block: u64, _: &mut Chance) -> Vec<LineCase> {
    let digit = b"012345678 9ACfg"[block as usize];
    let mut found = Vec::new();
    for n in (0..=14).chain(508..=516) {
        let mut line = vec![b'S', digit];
        if n > 1 {
            let mut bytes = vec![0; n / 2 - 1];
            if let Some(count) = bytes.first_mut() {
                *count = (n / 2 - 1) as u8;
            }
            line = sspelt(digit, &bytes);
        }
        line.resize(n + 2, b'0');
        found.push(LineCase::new(line.clone()));
        for place in [1, 2, n + 1] {
            let mut other = line.clone();
            if let Some(byte) = other.get_mut(place) {
                *byte = b'g';
                found.push(LineCase::new(other));
            }
        }
    }
    found
}

/// How many blocks of sized lines there are.
pub const SIZES: u64 = 15;

/// A good line with each of its bytes changed to each of the 256.
pub fn changed(_: u64, chance: &mut Chance) -> Vec<LineCase> {
    lines::changed(&good(chance))
}

/// An S-record to be written.
#[derive(Clone)]
pub struct SWriteCase {
    pub entry: SEntry,
    pub pool: Vec<u8>,
    /// The output's length.
    pub out: usize,
}

impl Case for SWriteCase {
    fn smaller(&self) -> Vec<Self> {
        let entry = &self.entry;
        let entries = with_each!(
            entry,
            len in smaller_number(entry.len),
            at in smaller_number(entry.at),
            address in smaller_number(entry.address as usize).into_iter().map(|n| n as u32),
        );
        with_each!(
            self,
            entry in entries,
            out in smaller_number(self.out),
            pool in shorter(&self.pool),
        )
    }

    fn size(&self) -> usize {
        self.entry.len.min(self.pool.len()) + self.out
    }

    fn show(&self) -> String {
        let SWriteCase { entry, pool, out } = self;
        format!("{entry:?} pool {pool:02X?} output {out}")
    }
}

/// A record with a pool and an output, each at times too short.
pub fn write(chance: &mut Chance) -> SWriteCase {
    let kind = match chance.under(16) {
        0 => chance.byte(),
        _ => chance.one_of(&TYPES),
    };
    let n = chance.one_of(&[0, 1, 40, 250, 251, 252, 253, 300]);
    let pool = chance.bytes(n);
    let len = match chance.under(8) {
        0 => chance.around(n),
        1 => chance.from_to(249, 254),
        _ if !has_data(kind) => 0,
        _ => chance.under(n + 1),
    };
    let at = match chance.under(4) {
        0 => chance.around(n.saturating_sub(len)),
        _ => chance.under(n.saturating_sub(len) + 1),
    };
    let address = match chance.under(6) {
        0 => chance.number() as u32,
        1 => chance.from_to(0xFFFF, 0x1_0000) as u32,
        2 => chance.from_to(0xFF_FFFF, 0x100_0000) as u32,
        _ => address_of(kind, chance),
    };
    let full = 6 + 2 * (address_bytes(kind) + len.min(300));
    let out = match chance.under(4) {
        0 => chance.under(24),
        1 => full + chance.under(3) - 1,
        _ => 700,
    };
    let entry = SEntry {
        kind,
        address,
        at,
        len,
    };
    SWriteCase { entry, pool, out }
}

/// Records of one type to be written, by rule: a block for each number that a type can have in C, up to 10, and
/// one for 255. Addresses, lengths, positions and outputs at each limit.
pub fn writes_by_rule(block: u64, _: &mut Chance) -> Vec<SWriteCase> {
    let kind = if block == 11 { 255 } else { block as u8 };
    let (width, most) = (address_bytes(kind), most_data(kind));
    let mut found = Vec::new();
    let addresses = [0, 0xFFFF, 0x1_0000, 0xFF_FFFF, 0x100_0000, u32::MAX];
    for len in [0, 1, 2, most - 1, most, most + 1, 300] {
        for address in addresses {
            for (pool, at) in [(len, 0), (len, 1), (len + 2, 2), (len.max(1) - 1, 0)] {
                let full = 6 + 2 * (width + len);
                for out in [0, full - 1, full, full + 3] {
                    let entry = SEntry {
                        kind,
                        address,
                        at,
                        len,
                    };
                    let pool = (0..pool).map(|i| (i * 7) as u8).collect();
                    found.push(SWriteCase { entry, pool, out });
                }
            }
        }
    }
    found
}

/// How many blocks of records by rule there are.
pub const WRITES: u64 = 12;

/// A line that is not one of S-records, or of a type that is not named.
fn odd_line(chance: &mut Chance) -> Vec<u8> {
    match chance.under(6) {
        0 => line_of(0, 0, &chance.bytes(2)),
        1 => b"S6030000FC".to_vec(),
        2 => b"s9030000FC".to_vec(),
        3 => damaged(chance),
        4 => summed(chance),
        _ => random(chance),
    }
}

/// A line of data near a window, by any type whose address is wide enough.
fn data_line(window: &Window, chance: &mut Chance) -> Vec<u8> {
    let len = match chance.under(16) {
        0 => chance.under(250),
        1 => 0,
        _ => chance.under(20),
    };
    let slack = window.size.saturating_sub(len);
    let place = u64::from(window.first) + chance.under(slack + 1) as u64;
    let address = match chance.under(24) {
        0 => place.wrapping_sub(chance.under(5) as u64),
        1 => place + chance.under(300) as u64,
        2 => u64::from(u32::MAX) - chance.under(len + 1) as u64,
        _ => place,
    } as u32;
    let least = match address {
        0..=0xFFFF => 1,
        0x1_0000..=0xFF_FFFF => 2,
        _ => 3,
    };
    let kind = chance.from_to(least, 3) as u8;
    srecord(kind, address, &chance.bytes(len))
}

/// A count of so many data records, or at times of another number.
fn count_line(records: usize, chance: &mut Chance) -> Vec<u8> {
    let stated = match chance.under(6) {
        0 => records.wrapping_sub(1),
        1 => records + 1,
        _ => records,
    };
    srecord(5, u32::from(stated as u16), &[])
}

/// A text that places bytes around a window, with that window.
pub fn load(chance: &mut Chance) -> LoadCase {
    let window = window(chance);
    let (mut text, mut records) = (Vec::new(), 0);
    for _ in 0..chance.under(12) {
        let line = match chance.under(24) {
            0 => odd_line(chance),
            1 => good(chance),
            2 | 3 => good_of(0, chance),
            4 | 5 => count_line(records, chance),
            _ => {
                records += 1;
                data_line(&window, chance)
            }
        };
        text.extend(line);
        text.extend(line_end(chance));
    }
    if !chance.once_in(16) {
        text.extend(good_of(chance.one_of(&[7, 8, 9]), chance));
        let after = [
            "",
            "\n",
            "\r\n",
            "\r",
            "\nS1",
            "\nS5030000FC\nS1040000558A\n",
        ];
        text.extend(chance.one_of(&after).bytes());
    }
    if chance.once_in(8) {
        damage(&mut text, chance);
    }
    into(text, &window, chance)
}

/// Lines that a text by rule is made of. Records that state bytes do so about FFFF, or about 2^32.
const LINES: [&str; 25] = [
    "",
    "S0030000FC",
    "S0040001418A",
    "S004000141B9",
    "S1030000FC",
    "S105FFFFAABB97",
    "S105FFFEAABB98",
    "S206FFFFFF11 2",
    "S20600FFFF1122C9",
    "S307FFFFFFFF1122C9",
    "S306FFFFFFFF338B",
    "S30500000000FA",
    "S5030000FC",
    "S5030001FB",
    "S5030002FA",
    "S9030000FC",
    "S804000000FB",
    "S70500000000FA",
    "S8041234565F",
    "S70512345678E6",
    "S6030000FC",
    ":00000001FF",
    "s9030000FC",
    "S904000000FB",
    "S1000000FF",
];

/// How many blocks of loads by rule there are: one for each line that comes first.
pub const LOADS: u64 = LINES.len() as u64;

/// Small windows of loads by rule: about FFFF, about 2^32, at 0, and of no place.
const SMALL: [(u32, usize); 4] = [(0xFFFC, 8), (0xFFFF_FFF8, 8), (0, 9), (0xFFFF, 0)];

/// Whole windows: the lowest, and the highest.
const WHOLE: [(u32, usize); 2] = [(0, 65_536), (0xFFFF_0000, 65_536)];

/// What ends a text by rule: mostly an end record, once with more after it.
const LAST: [&str; 7] = [
    "S9030000FC",
    "S70500000000FA",
    "S804000000FB\nS1",
    "S903FFFFFE\nS9030000FC",
    "S705FFFFFFFFFE",
    "",
    "S5030001FB",
];

/// Loads by rule: each three lines and what ends the text, in windows by turns, with each line end by turns. Then
/// each two lines and an end, in each small window, with marks of the right length and of others.
pub fn loads_by_rule(block: u64, _: &mut Chance) -> Vec<LoadCase> {
    let one = LINES[block as usize];
    let mut found = Vec::new();
    for (i, two) in LINES.into_iter().enumerate() {
        for (j, three) in LINES.into_iter().enumerate() {
            let turn = i + j + block as usize;
            let (first, places) = match turn % 16 {
                15 => WHOLE[j % WHOLE.len()],
                _ => SMALL[(i + 3 * j) % SMALL.len()],
            };
            let end = ["\n", "\r\n", "\n\n"][turn % 3];
            let text = [one, two, three, LAST[(i + 2 * j) % LAST.len()]].join(end);
            found.push(LoadCase::new(text.into_bytes(), first, places, 0xFF));
        }
        let text = format!("{one}\n{two}\nS9030000FC").into_bytes();
        for (first, places) in SMALL {
            let fit = packed_length(places);
            for marks in [fit, 0, fit + 1] {
                let case = LoadCase::new(text.clone(), first, places, 0xFF);
                found.push(LoadCase { marks, ..case });
            }
        }
    }
    found
}

/// A text of a header, so many data records without data, and a count.
#[derive(Clone)]
pub struct CountCase {
    pub records: usize,
    pub stated: u16,
}

impl Case for CountCase {
    fn smaller(&self) -> Vec<Self> {
        with_each!(
            self,
            records in smaller_number(self.records),
            stated in smaller_number(self.stated.into()).into_iter().map(|n| n as u16),
        )
    }

    fn size(&self) -> usize {
        self.records
    }

    fn show(&self) -> String {
        let CountCase { records, stated } = self;
        format!("an S0, {records} data records, an S5 that states {stated}, an S9")
    }
}

impl CountCase {
    /// The text, to be loaded into a window of 3 places.
    pub fn load(&self) -> LoadCase {
        let mut text = b"S0030000FC\n".to_vec();
        text.extend(b"S1030000FC\n".repeat(self.records));
        text.extend(srecord(5, self.stated.into(), &[]));
        text.extend(b"\nS9030000FC");
        LoadCase::new(text, 0, 3, 0xFF)
    }
}

/// Numbers of data records about the ends of a byte and of two, with counts that are right, and about them.
pub fn counts(_: u64, _: &mut Chance) -> Vec<CountCase> {
    let mut found = Vec::new();
    for records in [0, 1, 2, 255, 256, 257, 65_535, 65_536, 65_537] {
        for off in [0usize, 1, 2] {
            found.push(CountCase {
                records,
                stated: (records + off).wrapping_sub(1) as u16,
            });
        }
    }
    found
}

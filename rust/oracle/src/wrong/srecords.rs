//! Ports that are wrong with S-records.

use ihex_sys::{BAD_RECORD, REFUSED};

use crate::inputs::lines::LineCase;
use crate::inputs::loads::LoadCase;
use crate::inputs::srecords::{address_bytes, SWriteCase};
use crate::models::lines::pour;
use crate::models::srecords::{answered, placed_by, read, write, Rules, RIGHT};
use crate::subjects::port::{Port, Real};
use crate::subjects::told::SEntry;
use crate::wrong::named::{tell, Numbers, Places, Wrong};

/// A port that goes by other rules with S-records.
struct Ruled(Rules);

impl Port for Ruled {
    fn read_srecord(&self, line: &[u8], pool: &mut [u8], at: usize, (a, b, c): Numbers) -> u32 {
        let case = LineCase {
            line: line.to_vec(),
            pool: pool.len(),
            at,
        };
        let told = answered(self.0, &case);
        pour(&told, pool, at);
        [*a, *b, *c] = told.values;
        told.code
    }

    fn to_srecord_string(
        &self,
        entry: &SEntry,
        pool: &[u8],
        out: &mut [u8],
        value: &mut u64,
    ) -> u32 {
        let case = SWriteCase {
            entry: entry.clone(),
            pool: pool.to_vec(),
            out: out.len(),
        };
        let written = write(self.0, &case);
        let held = written.held(out);
        out.copy_from_slice(&held);
        *value = written.value;
        written.code
    }

    fn load_srecords(
        &self,
        text: &[u8],
        first: u32,
        page: &mut [u8],
        marks: &mut [u8],
        places: Places,
        numbers: Numbers,
    ) -> u32 {
        let case = LoadCase::of(text, first, page, marks);
        tell(placed_by(self.0, &case, page, marks), places, numbers)
    }
}

/// What is done to an answer or the pool, from the right code and the line; and the code told.
type LineChange = fn(u32, &[u8], &mut [u8], usize, Numbers) -> u32;

/// A reader that does something to its answer or pool.
struct Line(LineChange);

impl Port for Line {
    fn read_srecord(&self, line: &[u8], pool: &mut [u8], at: usize, (a, b, c): Numbers) -> u32 {
        let code = Real.read_srecord(line, pool, at, (a, b, c));
        self.0(code, line, pool, at, (a, b, c))
    }
}

/// A writer that does something to its answer or output: from the right code, the record and the pool's length.
struct Write(fn(u32, &SEntry, usize, &mut [u8], &mut u64) -> u32);

impl Port for Write {
    fn to_srecord_string(
        &self,
        entry: &SEntry,
        pool: &[u8],
        out: &mut [u8],
        value: &mut u64,
    ) -> u32 {
        let code = Real.to_srecord_string(entry, pool, out, value);
        self.0(code, entry, pool.len(), out, value)
    }
}

/// A load that was asked for and made: its code, the number of its line, its kind of start and its first two values,
/// and what the marks held before.
struct Made<'a> {
    code: u32,
    text: &'a [u8],
    marks: &'a [u8],
    line: &'a mut usize,
    start: &'a mut u8,
    a: &'a mut u64,
    b: &'a mut u64,
}

/// A loader that does something to its answer, page or marks.
struct Load(fn(&mut Made, &mut [u8], &mut [u8]) -> u32);

impl Port for Load {
    fn load_srecords(
        &self,
        text: &[u8],
        first: u32,
        page: &mut [u8],
        marks: &mut [u8],
        (line, start): Places,
        (a, b, c): Numbers,
    ) -> u32 {
        let before = marks.to_vec();
        let code = Real.load_srecords(text, first, page, marks, (line, start), (a, b, c));
        let mut made = Made {
            code,
            text,
            marks: &before,
            line,
            start,
            a,
            b,
        };
        self.0(&mut made, page, marks)
    }
}

fn ruled(name: &'static str, rules: Rules) -> Wrong {
    (name, Box::new(Ruled(rules)))
}

fn line(name: &'static str, change: LineChange) -> Wrong {
    (name, Box::new(Line(change)))
}

/// A port that goes by the right rules, as the model does: no comparison may find it.
pub fn right() -> Box<dyn Port> {
    Box::new(Ruled(RIGHT))
}

/// Every port that is wrong with S-records.
pub fn all() -> Vec<Wrong> {
    let parts = [
        formats(),
        orders(),
        pools(),
        writers(),
        placings(),
        counts(),
        ends(),
        starts(),
        buffers(),
    ];
    parts.into_iter().flatten().collect()
}

/// Those that take the format of an S-record wrongly.
fn formats() -> Vec<Wrong> {
    vec![
        ruled(
            "takes the two's complement for the checksum of an S-record",
            Rules {
                checksum: u8::wrapping_neg,
                ..RIGHT
            },
        ),
        ruled(
            "does not count the checksum of an S-record",
            Rules {
                count: |bytes| bytes,
                ..RIGHT
            },
        ),
        ruled(
            "gives an S2 two address bytes",
            Rules {
                width: |kind| if kind == 2 { 2 } else { address_bytes(kind) },
                ..RIGHT
            },
        ),
        ruled(
            "gives an S7 two address bytes",
            Rules {
                width: |kind| if kind == 7 { 2 } else { address_bytes(kind) },
                ..RIGHT
            },
        ),
        ruled(
            "takes an S6",
            Rules {
                named: |kind| kind == 6 || (RIGHT.named)(kind),
                ..RIGHT
            },
        ),
        line("takes a small s", |code, line, pool, at, numbers| {
            if line.first() == Some(&b's') {
                return Real.read_srecord(&[b"S", &line[1..]].concat(), pool, at, numbers);
            }
            code
        }),
        line(
            "takes a letter for no digit of a type",
            |code, _, _, _, (a, _, _)| {
                if code == REFUSED + 8 && *a > 9 {
                    *a = 1;
                    return REFUSED + 2;
                }
                code
            },
        ),
        line(
            "takes data in an end",
            |code, line, _, _, (a, _, _)| match code == REFUSED + 9 && line[1] == b'9' {
                true => {
                    *a = 0;
                    9
                }
                false => code,
            },
        ),
    ]
}

/// Those that judge in another order.
fn orders() -> Vec<Wrong> {
    vec![
        line(
            "counts odd digits of an S-record before short ones",
            |code, line, _, _, _| match code == REFUSED + 3 && line.len() % 2 == 1 {
                true => REFUSED + 5,
                false => code,
            },
        ),
        line(
            "judges the length of an S-record before its type",
            |code, line, _, _, (a, _, _)| match code == REFUSED + 8 && line.len() < 10 {
                true => {
                    *a = 0;
                    REFUSED + 3
                }
                false => code,
            },
        ),
        line(
            "takes 514 digits of an S-record for a checksum that is wrong",
            |code, line, _, _, _| match code == REFUSED + 4 && line.len() == 516 {
                true => REFUSED + 6,
                false => code,
            },
        ),
        line(
            "swaps the two numbers of refusal 6 of an S-record",
            |code, _, _, _, (a, b, _)| {
                if code == REFUSED + 6 {
                    std::mem::swap(a, b);
                }
                code
            },
        ),
        line(
            "does not count the S in the place of refusal 2",
            |code, _, _, _, (a, _, _)| {
                *a -= u64::from(code == REFUSED + 2);
                code
            },
        ),
    ]
}

/// Those that treat the pool wrongly.
fn pools() -> Vec<Wrong> {
    vec![
        line(
            "tells the position of an end",
            |code, _, _, at, (_, b, _)| {
                if code == 9 {
                    *b = at as u64;
                }
                code
            },
        ),
        line(
            "wants room in the pool for an S5",
            |code, _, pool, at, (a, _, _)| match code == 5 && at > pool.len() {
                true => {
                    *a = 0;
                    REFUSED + 10
                }
                false => code,
            },
        ),
        line(
            "takes a position beyond the pool for an S-record without data",
            |code, line, pool, _, numbers| match code == REFUSED + 10 && line.len() == 10 {
                true => Real.read_srecord(line, pool, 0, numbers),
                false => code,
            },
        ),
        line(
            "puts no data of an S0 into the pool",
            |code, _, pool, at, (_, _, c)| {
                if code == 0 {
                    pool[at..at + *c as usize].fill(0);
                }
                code
            },
        ),
    ]
}

/// Those that write wrongly.
fn writers() -> Vec<Wrong> {
    let writer = |name, change| -> Wrong { (name, Box::new(Write(change))) };
    vec![
        writer(
            "writes an S-record in small letters",
            |code, _, _, out, value| {
                if code == 0 {
                    out[1..*value as usize].make_ascii_lowercase();
                }
                code
            },
        ),
        writer(
            "refuses data in an S5 or an end before its place",
            |code, entry, _, _, _| match code == REFUSED + 11 && entry.kind > 4 && entry.len > 0 {
                true => REFUSED + 9,
                false => code,
            },
        ),
        writer(
            "looks for the data of an S9 only if it has some",
            |code, entry, _, _, _| match code == REFUSED + 11 && entry.kind == 9 && entry.len == 0 {
                true => REFUSED + 15,
                false => code,
            },
        ),
        writer(
            "refuses a wide address before long data",
            |code, entry, _, _, value| match code == REFUSED + 12 && entry.address > 0xFF_FFFF {
                true if entry.kind < 3 => {
                    *value = 0;
                    REFUSED + 25
                }
                _ => code,
            },
        ),
        writer(
            "refuses a full output before a wide address",
            |code, _, _, out, _| match code == REFUSED + 25 && out.is_empty() {
                true => REFUSED + 15,
                false => code,
            },
        ),
        writer("names no length of long data", |code, _, _, _, value| {
            if code == REFUSED + 12 {
                *value = 0;
            }
            code
        }),
        writer(
            "writes the start of a line that has no room",
            |code, _, _, out, _| {
                if let Some(byte) = out.first_mut().filter(|_| code == REFUSED + 15) {
                    *byte = b'S';
                }
                code
            },
        ),
        writer(
            "refuses S6 with a refusal",
            |code, entry, _, _, value| match code == BAD_RECORD && entry.kind == 6 {
                true => {
                    *value = 6;
                    REFUSED + 8
                }
                false => code,
            },
        ),
    ]
}

/// Those that place bytes wrongly.
fn placings() -> Vec<Wrong> {
    let placed = |name, placing| ruled(name, Rules { placing, ..RIGHT });
    vec![
        placed("wraps an S-record at 64K", |address, i| {
            address & !0xFFFF | (address + i) & 0xFFFF
        }),
        placed("does not wrap an S-record at 2^32", |address, i| {
            address + i
        }),
        placed("wraps an S-record at 16M", |address, i| {
            address & !0xFF_FFFF | (address + i) & 0xFF_FFFF
        }),
        ruled(
            "places the data of an S0",
            Rules {
                placed: |kind| kind < 4,
                ..RIGHT
            },
        ),
        ruled(
            "does not place the data of an S2",
            Rules {
                placed: |kind| matches!(kind, 1 | 3),
                ..RIGHT
            },
        ),
    ]
}

/// Those that count wrongly, or compare another count.
fn counts() -> Vec<Wrong> {
    let counting = |name, counted| ruled(name, Rules { counted, ..RIGHT });
    let load = |name, change| -> Wrong { (name, Box::new(Load(change))) };
    vec![
        counting("counts an S0", |kind, _| kind < 4),
        counting("counts an S5", |kind, n| {
            kind == 5 || (RIGHT.counted)(kind, n)
        }),
        counting("does not count a data record without data", |kind, n| {
            (RIGHT.counted)(kind, n) && n > 0
        }),
        ruled(
            "compares a count modulo 65,536",
            Rules {
                agrees: |stated, seen| stated == seen % 65_536,
                ..RIGHT
            },
        ),
        ruled(
            "compares no count",
            Rules {
                agrees: |_, _| true,
                ..RIGHT
            },
        ),
        load("swaps the two numbers of refusal 20", |made, _, _| {
            if made.code == REFUSED + 20 {
                std::mem::swap(made.a, made.b);
            }
            made.code
        }),
        load("names no line of refusal 20", |made, _, _| {
            if made.code == REFUSED + 20 {
                *made.line = 0;
            }
            made.code
        }),
    ]
}

/// Those that end a text wrongly.
fn ends() -> Vec<Wrong> {
    vec![
        ruled(
            "wants an end with as many address bytes as the data",
            Rules {
                ends: |kind, latest| {
                    let same = |data| address_bytes(data) == address_bytes(kind);
                    (RIGHT.ends)(kind, latest) && latest.map_or(true, same)
                },
                ..RIGHT
            },
        ),
        ruled(
            "goes on after an S8",
            Rules {
                ends: |kind, _| matches!(kind, 7 | 9),
                ..RIGHT
            },
        ),
        (
            "accepts a text of S-records without an end",
            Box::new(Load(|made, _, _| match made.code {
                code if code == REFUSED + 13 => 0,
                code => code,
            })),
        ),
    ]
}

/// Those that tell another start.
fn starts() -> Vec<Wrong> {
    let start = |name, start| ruled(name, Rules { start, ..RIGHT });
    let load = |name, change| -> Wrong { (name, Box::new(Load(change))) };
    vec![
        start("tells no start for an end with address 0", |_, address| {
            Some((5, address.into(), 0)).filter(|_| address != 0)
        }),
        start("tells no start of S-records", |_, _| None),
        start("tells no start for an S8", |kind, address| {
            Some((5, address.into(), 0)).filter(|_| kind != 8)
        }),
        start("tells the address of an S9 as IP", |kind, address| {
            Some(match kind {
                9 => (3, 0, address.into()),
                _ => (5, address.into(), 0),
            })
        }),
        start("tells 16 bits of an S8's address", |kind, address| {
            let most = if kind == 8 { 0xFFFF } else { u32::MAX };
            Some((5, (address & most).into(), 0))
        }),
        start("tells 24 bits of an S7's address", |_, address| {
            Some((5, (address & 0xFF_FFFF).into(), 0))
        }),
        load(
            "tells a start of S-records that it refuses",
            |made, _, _| {
                if made.code == REFUSED + 17 {
                    *made.start = 5;
                }
                made.code
            },
        ),
        load(
            "tells the address of the last line, also after the end",
            |made, _, _| {
                let last = made.text.rsplit(|&byte| byte == b'\n').next();
                let address = last.and_then(|line| read(RIGHT, line).ok());
                if let Some(said) = address.filter(|_| made.code == 0) {
                    *made.b = said.address.into();
                }
                made.code
            },
        ),
    ]
}

/// Those that treat page and marks wrongly.
fn buffers() -> Vec<Wrong> {
    let load = |name, change| -> Wrong { (name, Box::new(Load(change))) };
    vec![
        load(
            "does not clear the marks before S-records",
            |made, _, marks| {
                if made.code == 0 {
                    let old = marks.iter_mut().zip(made.marks);
                    old.for_each(|(byte, before)| *byte |= before);
                }
                made.code
            },
        ),
        load(
            "writes the page before it refuses S-records",
            |made, page, _| {
                let begun = made.text.starts_with(b"S1") && made.code == REFUSED + 20;
                if let Some(byte) = page.first_mut().filter(|_| begun) {
                    *byte = !*byte;
                }
                made.code
            },
        ),
        load(
            "clears the marks before it refuses S-records",
            |made, _, marks| {
                if made.code == REFUSED + 17 {
                    marks.fill(0);
                }
                made.code
            },
        ),
    ]
}

//! Record readers that are wrong.

use ihex_sys::REFUSED;

use crate::subjects::port::{Port, Real};
use crate::wrong::named::{Numbers, Wrong};

/// A record reader that reads another line.
struct OtherLine(fn(&[u8]) -> &[u8]);

impl Port for OtherLine {
    fn read_record(&self, line: &[u8], pool: &mut [u8], at: usize, numbers: Numbers) -> u32 {
        Real.read_record(self.0(line), pool, at, numbers)
    }
}

/// What is done to an answer or the pool, from the right code and the line; and the code told.
type LineChange = fn(u32, &[u8], &mut [u8], Numbers) -> u32;

/// A record reader that does something to its answer or pool.
struct Line(LineChange);

impl Port for Line {
    fn read_record(&self, line: &[u8], pool: &mut [u8], at: usize, (a, b, c): Numbers) -> u32 {
        let code = Real.read_record(line, pool, at, (a, b, c));
        self.0(code, line, pool, (a, b, c))
    }
}

/// The line without the bytes of this value at its end.
fn trimmed(line: &[u8], value: u8) -> &[u8] {
    let last = line.iter().rposition(|&byte| byte != value);
    &line[..last.map_or(0, |i| i + 1)]
}

fn line(name: &'static str, change: LineChange) -> Wrong {
    (name, Box::new(Line(change)))
}

fn other_line(name: &'static str, change: fn(&[u8]) -> &[u8]) -> Wrong {
    (name, Box::new(OtherLine(change)))
}

/// Record readers that judge a line wrongly.
pub fn judges() -> Vec<Wrong> {
    vec![
        line(
            "wants 0000 on an end record, as Intel prints it",
            |code, line, _, _| match code {
                1 if line.get(3..7) != Some(b"0000") => REFUSED + 9,
                _ => code,
            },
        ),
        line(
            "judges the type before the length",
            |code, line, _, (a, _, _)| {
                if code == REFUSED + 7 && line.get(7..9) == Some(b"06") {
                    *a = 6;
                    return REFUSED + 8;
                }
                code
            },
        ),
        other_line("trims every CR", |line| trimmed(line, b'\r')),
        line(
            "swaps the two numbers of refusal 6",
            |code, _, _, (a, b, _)| {
                if code == REFUSED + 6 {
                    std::mem::swap(a, b);
                }
                code
            },
        ),
    ]
}

/// Record readers that take the digits of a line wrongly.
pub fn digits() -> Vec<Wrong> {
    vec![
        line(
            "counts odd digits before short ones",
            |code, line, _, _| match code == REFUSED + 3 && line.len() % 2 == 0 {
                true => REFUSED + 5,
                false => code,
            },
        ),
        other_line("trims blanks", |line| trimmed(line, b' ')),
        line("takes 521 digits for odd", |code, line, _, _| {
            match code == REFUSED + 4 && line.len() == 522 {
                true => REFUSED + 5,
                false => code,
            }
        }),
    ]
}

/// Record readers that treat the pool wrongly.
pub fn pools() -> Vec<Wrong> {
    vec![
        line(
            "clears the pool's last byte on a refusal",
            |code, _, pool, _| {
                if let Some(last) = pool.last_mut().filter(|_| code == REFUSED + 6) {
                    *last = 0;
                }
                code
            },
        ),
        line(
            "takes a position beyond the pool for an empty payload",
            |code, line, pool, numbers| {
                if code == REFUSED + 10 && line.len() == 11 {
                    return Real.read_record(line, pool, 0, numbers);
                }
                code
            },
        ),
    ]
}

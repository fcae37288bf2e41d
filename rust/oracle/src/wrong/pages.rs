//! Page writers that are wrong.

use std::ops::Range;

use ihex_sys::REFUSED;

use crate::inputs::marks::{packed_length, unpacked, unused};
use crate::models::pages::{
    filed, parted, records, runs, sized, upper, written, Rules, BAD_MARK, BAD_WINDOW, RIGHT,
};
use crate::subjects::port::{Port, Real};
use crate::wrong::named::Wrong;

/// The code of an output that is too short.
const OUTPUT_FULL: u32 = REFUSED + 15;

/// What a page writer is given, and what it returns beside its code.
struct Call<'a> {
    first: u32,
    page: &'a [u8],
    marks: &'a [u8],
    out: &'a mut [u8],
    value: u64,
}

impl<'a> Call<'a> {
    /// The right call.
    fn made(&mut self) -> u32 {
        Real.write_page(self.first, self.page, self.marks, self.out, &mut self.value)
    }

    /// The file's length, if there is a file.
    fn length(&self) -> Option<usize> {
        let mut value = 0;
        let code = Real.page_file_length(self.first, self.page, self.marks, &mut value);
        Some(value as usize).filter(|_| code == 0)
    }

    /// A refusal with this value.
    fn refused(&mut self, code: u32, value: usize) -> u32 {
        self.value = value as u64;
        code
    }
}

/// A page writer that answers so.
struct Page<F>(F);

impl<F: Fn(&mut Call) -> u32 + Sync> Port for Page<F> {
    fn write_page(
        &self,
        first: u32,
        page: &[u8],
        marks: &[u8],
        out: &mut [u8],
        value: &mut u64,
    ) -> u32 {
        let mut call = Call {
            first,
            page,
            marks,
            out,
            value: *value,
        };
        let code = self.0(&mut call);
        *value = call.value;
        code
    }
}

/// A page writer that returns another length: from the code and the right one.
struct Length(fn(u32, &mut u64) -> u32);

impl Port for Length {
    fn page_file_length(&self, first: u32, page: &[u8], marks: &[u8], value: &mut u64) -> u32 {
        let code = Real.page_file_length(first, page, marks, value);
        self.0(code, value)
    }
}

fn page(name: &'static str, answer: impl Fn(&mut Call) -> u32 + Sync + 'static) -> Wrong {
    (name, Box::new(Page(answer)))
}

/// A page writer that goes by other rules.
fn ruled(name: &'static str, rules: Rules) -> Wrong {
    page(name, move |call| {
        let file = filed(rules, call.first, call.page, call.marks);
        let answer = written(&file, call.out.len());
        let held = answer.held(call.out);
        call.out.copy_from_slice(&held);
        call.value = answer.value;
        answer.code
    })
}

/// Every wrong page writer.
pub fn all() -> Vec<Wrong> {
    [
        cuts(),
        bases(),
        places(),
        texts(),
        bits(),
        marks(),
        windows(),
        order(),
        outputs(),
        lengths(),
    ]
    .into_iter()
    .flatten()
    .collect()
}

/// Those that cut a run into other records.
fn cuts() -> Vec<Wrong> {
    let cut = |name, records| ruled(name, Rules { records, ..RIGHT });
    vec![
        cut("does not cut a record at a multiple of 65,536", |run| {
            sized(run, 16)
        }),
        cut("counts on across a multiple of 65,536", |run| {
            sized(run, 16).into_iter().flat_map(parted).collect()
        }),
        cut(
            "counts from a multiple of 16, not from the run's start",
            |run| {
                let whole = sized(run.start / 16 * 16..run.end, 16).into_iter();
                let within = |record: Range<u64>| record.start.max(run.start)..record.end;
                whole.map(within).collect()
            },
        ),
        cut("writes records of 32 bytes", |run| records(run, 32)),
        cut("writes records of 15 bytes", |run| records(run, 15)),
    ]
}

/// Those that put a type 04 elsewhere.
fn bases() -> Vec<Wrong> {
    let base = |name, extends| ruled(name, Rules { extends, ..RIGHT });
    vec![
        base(
            "puts no type 04 at the start where the upper bits are 0",
            |last, next| last.map_or(0, upper) != upper(next),
        ),
        base("puts a type 04 at the start alone", |last, _| {
            last.is_none()
        }),
        base(
            "puts no type 04 where the upper bits change in a gap",
            |last, next| match last {
                Some(last) if last.end < next.start => false,
                _ => (RIGHT.extends)(last, next),
            },
        ),
        base(
            "puts no type 04 where the upper bits change in a run",
            |last, next| match last {
                Some(last) if last.end == next.start => false,
                _ => (RIGHT.extends)(last, next),
            },
        ),
        base("puts a type 04 before each run", |last, next| {
            last.map_or(true, |last| last.end != next.start) || (RIGHT.extends)(last, next)
        }),
    ]
}

/// Those that write other places.
fn places() -> Vec<Wrong> {
    let placed = |name, runs| ruled(name, Rules { runs, ..RIGHT });
    vec![
        placed("writes the place behind a run", |marks| {
            let end = marks.len() as u64;
            let longer = |run: Range<u64>| run.start..end.min(run.end + 1);
            runs(marks).into_iter().map(longer).collect()
        }),
        placed("does not end a run at a gap of one place", |marks| {
            let mut found: Vec<Range<u64>> = Vec::new();
            for run in runs(marks) {
                match found.last_mut() {
                    Some(last) if last.end + 1 == run.start => last.end = run.end,
                    _ => found.push(run),
                }
            }
            found
        }),
        placed("leaves out the last place of the window", |marks| {
            runs(&marks[..marks.len().saturating_sub(1)])
        }),
    ]
}

/// Writes the file without its last so many bytes.
fn shortened(call: &mut Call, n: usize) -> u32 {
    let kept = call.length().map_or(0, |length| length - n);
    let behind = call.out.get(kept..).unwrap_or(&[]).to_vec();
    let code = call.made();
    if code == 0 {
        call.out[kept..].copy_from_slice(&behind);
        call.value = kept as u64;
    }
    code
}

/// Those that write another text.
fn texts() -> Vec<Wrong> {
    vec![
        page("leaves out the end record", |call| shortened(call, 12)),
        page("puts no LF behind the end record", |call| {
            shortened(call, 1)
        }),
        page("writes small letters", |call| {
            let code = call.made();
            if code == 0 {
                call.out[..call.value as usize].make_ascii_lowercase();
            }
            code
        }),
    ]
}

/// Those that take other bits for the marks of places.
fn bits() -> Vec<Wrong> {
    let taken = |name, unpacked| ruled(name, Rules { unpacked, ..RIGHT });
    vec![
        taken("takes the highest bit of a byte first", |row, places| {
            let turned: Vec<u8> = row.iter().map(|byte| byte.reverse_bits()).collect();
            unpacked(&turned, places)
        }),
        taken("takes a byte with a mark for full", |row, places| {
            let mark = |place| u8::from(row[place / 8] != 0);
            (0..places).map(mark).collect()
        }),
        taken("passes over a byte that is not full", |row, places| {
            let mark = |place| u8::from(row[place / 8] == 0xFF);
            (0..places).map(mark).collect()
        }),
        taken("leaves out the places of the last byte", |row, places| {
            let front = row.len().saturating_sub(1);
            unpacked(&row[..front], places)
        }),
    ]
}

/// Those that judge the unused bits wrongly.
fn marks() -> Vec<Wrong> {
    let judged = |name, refused| ruled(name, Rules { refused, ..RIGHT });
    vec![
        judged("names the highest unused bit that is set", |row, places| {
            unused(row, places).next_back()
        }),
        judged("names the bit in the byte, not the place", |row, places| {
            unused(row, places).next().map(|place| place % 8)
        }),
        judged("names the first unused bit, set or not", |row, places| {
            unused(row, places).next().map(|_| places)
        }),
        judged("looks at the first unused bit alone", |row, places| {
            unused(row, places).next().filter(|&place| place == places)
        }),
        judged("does not look at the unused bits", |_, _| None),
        judged(
            "takes the last byte for unused at a multiple of 8",
            |row, places| {
                let last = row.last().filter(|&&last| places % 8 == 0 && last != 0);
                let lowest = last.map(|last| places + last.trailing_zeros() as usize);
                lowest.or_else(|| unused(row, places).next())
            },
        ),
    ]
}

/// Those that want another length of the marks.
fn windows() -> Vec<Wrong> {
    let fitting = |name, fits| ruled(name, Rules { fits, ..RIGHT });
    vec![
        fitting("rounds the length of the marks down", |places, row| {
            row == places / 8
        }),
        fitting("wants a byte of marks more than that", |places, row| {
            row == places / 8 + 1
        }),
        fitting("wants a byte of marks a place", |places, row| row == places),
        fitting("takes marks that are too long", |places, row| {
            row >= packed_length(places)
        }),
        fitting("takes marks that are too short", |places, row| {
            row <= packed_length(places)
        }),
    ]
}

/// Those that refuse in another order, or other windows.
fn order() -> Vec<Wrong> {
    vec![
        page("judges the output before the marks", |call| {
            match call.made() {
                BAD_MARK if call.out.len() < 12 => call.refused(OUTPUT_FULL, 0),
                code => code,
            }
        }),
        page("judges the marks before the window", |call| {
            let first = unused(call.marks, call.page.len()).next();
            match (call.made(), first) {
                (BAD_WINDOW, Some(place)) => call.refused(BAD_MARK, place),
                (code, _) => code,
            }
        }),
        page("refuses a window that ends at 2^32", |call| {
            match u64::from(call.first) + call.page.len() as u64 {
                0x1_0000_0000 => call.refused(BAD_WINDOW, 0),
                _ => call.made(),
            }
        }),
        page("refuses a window of no place", |call| {
            match call.page.len() {
                0 => call.refused(BAD_WINDOW, 0),
                _ => call.made(),
            }
        }),
    ]
}

/// Writes a colon at the output's start where it refuses so.
fn blotted(call: &mut Call, refusal: u32) -> u32 {
    let code = call.made();
    if let Some(byte) = call.out.first_mut().filter(|_| code == refusal) {
        *byte = b':';
    }
    code
}

/// Those that treat the output wrongly.
fn outputs() -> Vec<Wrong> {
    vec![
        page("writes as much as fits, then refuses", |call| {
            blotted(call, OUTPUT_FULL)
        }),
        page("writes, then refuses an unused bit", |call| {
            blotted(call, BAD_MARK)
        }),
        page("clears the output behind the file", |call| {
            let code = call.made();
            let behind = call.out.get_mut(call.value as usize);
            if let Some(byte) = behind.filter(|_| code == 0) {
                *byte = 0;
            }
            code
        }),
        page("wants a byte more than the file has", |call| {
            match call.length() == Some(call.out.len()) {
                true => call.refused(OUTPUT_FULL, 0),
                false => call.made(),
            }
        }),
    ]
}

/// Those that return another length.
fn lengths() -> Vec<Wrong> {
    let length = |name, told| -> Wrong { (name, Box::new(Length(told))) };
    vec![
        length("returns a length of a byte too much", |code, value| {
            if code == 0 {
                *value += 1;
            }
            code
        }),
        length(
            "returns a length where an unused bit is set",
            |code, value| match code {
                BAD_MARK => {
                    *value = 12;
                    0
                }
                _ => code,
            },
        ),
    ]
}

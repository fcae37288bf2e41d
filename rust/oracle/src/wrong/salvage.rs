//! Ports that are wrong with a salvage.

use std::mem::swap;

use ihex_sys::DROPPED;
use original::Record;

use crate::models::salvage::{
    laid, saved, sets_base, written, Entry, Rules, Saved, LIST_FULL, OUTPUT_FULL, RIGHT,
};
use crate::subjects::port::{Port, Real};
use crate::wrong::named::Wrong;

/// A port that saves by other rules, and then does something to what is saved, from the text.
struct Ruled(Rules, fn(&[u8], &mut Saved));

impl Port for Ruled {
    fn salvage(
        &self,
        text: &[u8],
        out: &mut [u8],
        list: &mut [u8],
        (a, b): (&mut u64, &mut u64),
    ) -> u32 {
        let mut saved = saved(self.0, text);
        self.1(text, &mut saved);
        let (code, values) = laid(&saved, out, list);
        [*a, *b] = values;
        code
    }
}

/// A call, and what it returns beside its code.
struct Call<'a> {
    text: &'a [u8],
    out: &'a mut [u8],
    list: &'a mut [u8],
    a: u64,
    b: u64,
}

impl<'a> Call<'a> {
    /// The right call.
    fn made(&mut self) -> u32 {
        let numbers = (&mut self.a, &mut self.b);
        Real.salvage(self.text, self.out, self.list, numbers)
    }

    /// What should be saved.
    fn saved(&self) -> Saved {
        saved(RIGHT, self.text)
    }
}

/// A port that answers so.
struct Answers(fn(&mut Call) -> u32);

impl Port for Answers {
    fn salvage(
        &self,
        text: &[u8],
        out: &mut [u8],
        list: &mut [u8],
        (a, b): (&mut u64, &mut u64),
    ) -> u32 {
        let mut call = Call {
            text,
            out,
            list,
            a: *a,
            b: *b,
        };
        let code = self.0(&mut call);
        (*a, *b) = (call.a, call.b);
        code
    }
}

fn ruled(name: &'static str, rules: Rules) -> Wrong {
    (name, Box::new(Ruled(rules, |_, _| {})))
}

fn changed(name: &'static str, change: fn(&[u8], &mut Saved)) -> Wrong {
    (name, Box::new(Ruled(RIGHT, change)))
}

fn answers(name: &'static str, answer: fn(&mut Call) -> u32) -> Wrong {
    (name, Box::new(Answers(answer)))
}

/// A port that saves by the right rules, as the model does: no comparison may find it.
pub fn right() -> Box<dyn Port> {
    Box::new(Ruled(RIGHT, |_, _| {}))
}

/// Every port that is wrong with a salvage.
pub fn all() -> Vec<Wrong> {
    let parts = [
        bases(),
        records(),
        ends(),
        lines(),
        entries(),
        orders(),
        rooms(),
        buffers(),
    ];
    parts.into_iter().flatten().collect()
}

/// Those that take a base for known that is not, and keep what cannot be relied on.
pub fn bases() -> Vec<Wrong> {
    vec![
        ruled(
            "knows the base again at a data record",
            Rules {
                known: |known, record| {
                    known || sets_base(record) || matches!(record, Record::Data { .. })
                },
                ..RIGHT
            },
        ),
        ruled(
            "knows the base again at a start record",
            Rules {
                known: |known, record| {
                    let data = matches!(record, Record::Data { .. } | Record::EndOfFile);
                    known || !data
                },
                ..RIGHT
            },
        ),
        ruled(
            "knows the base after a refused line",
            Rules {
                refused: |_| true,
                ..RIGHT
            },
        ),
        ruled(
            "knows the base after a refused line that comes before any record",
            Rules {
                refused: |read| !read,
                ..RIGHT
            },
        ),
        ruled("reads on after the end record", Rules { stops: 0, ..RIGHT }),
        (
            "reads on after the end record and leaves out all but the last end",
            Box::new(Ruled(Rules { stops: 0, ..RIGHT }, |_, saved| {
                let ends = |line: &Vec<u8>| line == b":00000001FF\n";
                saved.lines.retain(|line| !ends(line));
                saved.lines.push(b":00000001FF\n".to_vec());
            })),
        ),
    ]
}

/// Those that keep too little, or what they should not, or write it otherwise.
fn records() -> Vec<Wrong> {
    vec![
        ruled(
            "does not know the base at the beginning",
            Rules {
                begins: false,
                ..RIGHT
            },
        ),
        ruled(
            "does not know the base again at a type 02",
            Rules {
                known: |known, record| known || matches!(record, Record::ExtendedLinearAddress(_)),
                ..RIGHT
            },
        ),
        ruled(
            "does not know the base again at a type 04",
            Rules {
                known: |known, record| known || matches!(record, Record::ExtendedSegmentAddress(_)),
                ..RIGHT
            },
        ),
        ruled(
            "drops a start while the base is unknown",
            Rules {
                keeps: |known, record| known || sets_base(record) || *record == Record::EndOfFile,
                ..RIGHT
            },
        ),
        ruled(
            "keeps an empty data record while the base is unknown",
            Rules {
                keeps: |known, record| match record {
                    Record::Data { value, .. } => known || value.is_empty(),
                    _ => true,
                },
                ..RIGHT
            },
        ),
        ruled(
            "drops an empty data record while the base is known",
            Rules {
                keeps: |known, record| match record {
                    Record::Data { value, .. } => known && !value.is_empty(),
                    _ => true,
                },
                ..RIGHT
            },
        ),
        ruled(
            "keeps small letters as they are",
            Rules {
                written: |_, line| line.strip_suffix(b"\n").unwrap_or(line).to_vec(),
                ..RIGHT
            },
        ),
        ruled(
            "keeps the address of an end record",
            Rules {
                written: |record, line| match record {
                    Record::EndOfFile => line[..11].to_ascii_uppercase(),
                    _ => written(record),
                },
                ..RIGHT
            },
        ),
        ruled(
            "writes CR LF",
            Rules {
                written: |record, _| [written(record), vec![b'\r']].concat(),
                ..RIGHT
            },
        ),
        changed("drops a start that differs from the first", |_, saved| {
            let is_start = |line: &Vec<u8>| matches!(&line[7..9], b"03" | b"05");
            let first = saved.lines.iter().find(|line| is_start(line)).cloned();
            saved
                .lines
                .retain(|line| !is_start(line) || Some(line) == first.as_ref());
        }),
    ]
}

/// Those that are wrong with the end record.
fn ends() -> Vec<Wrong> {
    const END: &[u8] = b":00000001FF\n";
    vec![
        changed("adds the end record twice", |_, saved| {
            if saved.list.last() == Some(&Entry::END_ADDED) {
                saved.lines.push(END.to_vec());
            }
        }),
        changed("adds an end record where there is one", |_, saved| {
            if saved.list.last() != Some(&Entry::END_ADDED) {
                saved.lines.push(END.to_vec());
                saved.list.push(Entry::END_ADDED);
            }
        }),
        changed("adds no end record", |_, saved| {
            if saved.list.last() == Some(&Entry::END_ADDED) {
                saved.lines.pop();
            }
        }),
        changed("does not list an end record that it added", |_, saved| {
            saved.list.retain(|entry| *entry != Entry::END_ADDED);
        }),
        changed("lists an end record that it added twice", |_, saved| {
            if saved.list.last() == Some(&Entry::END_ADDED) {
                saved.list.push(Entry::END_ADDED);
            }
        }),
        changed("lists an end record that it added first", |_, saved| {
            if saved.list.last() == Some(&Entry::END_ADDED) {
                saved.list.rotate_right(1);
            }
        }),
        changed("gives an end record that it added a line", |text, saved| {
            let lines = text.iter().filter(|&&byte| byte == b'\n').count();
            for entry in saved.list.iter_mut().filter(|entry| entry.why == 13) {
                entry.line = lines as u64 + 1;
            }
        }),
        changed("writes no LF after the last line", |_, saved| {
            if let Some(last) = saved.lines.last_mut() {
                last.pop();
            }
        }),
    ]
}

/// Those that are wrong with lines and their numbers.
fn lines() -> Vec<Wrong> {
    vec![
        changed("does not list a refused line", |_, saved| {
            saved.list.retain(|entry| !(1..=9).contains(&entry.why));
        }),
        changed(
            "does not list the second refused line in a row",
            |_, saved| {
                saved
                    .list
                    .dedup_by(|next, one| next.why > 0 && one.why > 0 && next.line == one.line + 1);
            },
        ),
        changed("does not list a data record that it dropped", |_, saved| {
            saved.list.retain(|entry| entry.why != 0);
        }),
        changed("has an entry for an empty line", |text, saved| {
            let line = text.split(|&byte| byte == b'\n').position(<[u8]>::is_empty);
            let last = text.iter().filter(|&&byte| byte == b'\n').count();
            if let Some(line) = line.filter(|&line| line < last) {
                let entry = Entry {
                    why: 1,
                    a: 0,
                    b: 0,
                    line: line as u64 + 1,
                };
                let at = saved
                    .list
                    .iter()
                    .take_while(|one| (1..entry.line).contains(&one.line));
                saved.list.insert(at.count(), entry);
            }
        }),
        changed("counts lines from 0", |_, saved| {
            for entry in saved.list.iter_mut().filter(|entry| entry.why != 13) {
                entry.line -= 1;
            }
        }),
        changed("counts only lines that have a byte", |text, saved| {
            let pieces = text
                .split(|&byte| byte == b'\n')
                .map(|line| !matches!(line, b"" | b"\r"));
            let full: Vec<bool> = pieces.collect();
            for entry in saved.list.iter_mut().filter(|entry| entry.why != 13) {
                let before = full.iter().take(entry.line as usize).filter(|&&full| full);
                entry.line = before.count() as u64;
            }
        }),
        changed("tells the number of a line in two bytes", |_, saved| {
            for entry in &mut saved.list {
                entry.line &= 0xFFFF;
            }
        }),
        answers("does not read a last line without LF", |call| {
            let length = call
                .text
                .iter()
                .rposition(|&byte| byte == b'\n')
                .map_or(0, |at| at + 1);
            call.text = &call.text[..length];
            call.made()
        }),
    ]
}

/// Those that are wrong with what an entry tells.
fn entries() -> Vec<Wrong> {
    fn each(saved: &mut Saved, change: fn(&mut Entry)) {
        saved.list.iter_mut().for_each(change);
    }
    vec![
        changed("loses the values of a refusal", |_, saved| {
            each(saved, |entry| (entry.a, entry.b) = (0, 0));
        }),
        changed("loses the second value of a refusal", |_, saved| {
            each(saved, |entry| entry.b = 0);
        }),
        changed("swaps the two values of refusal 6", |_, saved| {
            each(saved, |entry| swap(&mut entry.a, &mut entry.b));
        }),
        changed("tells the place of refusal 2 in one byte", |_, saved| {
            each(saved, |entry| entry.a &= 0xFF);
        }),
        changed("tells the column of refusal 2", |_, saved| {
            each(saved, |entry| {
                entry.a += u16::from(entry.why == 2 && entry.a < 9)
            });
        }),
        changed("tells the code of a refusal, not its number", |_, saved| {
            each(saved, |entry| entry.why += 256 * u32::from(entry.why > 0));
        }),
        changed("tells every line as refused that it dropped", |_, saved| {
            each(saved, |entry| entry.why = entry.why.max(1));
        }),
        answers("tells numbers high byte first", |call| {
            let code = call.made();
            if code == 0 {
                for entry in call.list.chunks_mut(DROPPED).take(call.b as usize) {
                    entry[..4].reverse();
                    entry[8..].reverse();
                }
            }
            code
        }),
    ]
}

/// Those that refuse in another order, or for no reason.
fn orders() -> Vec<Wrong> {
    vec![
        answers("refuses with 22 before 15", |call| {
            let entries = call.saved().list.len();
            match call.made() {
                OUTPUT_FULL if entries > call.list.len() / DROPPED => LIST_FULL,
                code => code,
            }
        }),
        answers("refuses an output that is just full", |call| {
            if call.saved().clean().len() == call.out.len() {
                (call.a, call.b) = (0, 0);
                return OUTPUT_FULL;
            }
            call.made()
        }),
        answers("refuses a list that is just full", |call| {
            let full = DROPPED * call.saved().list.len() == call.list.len();
            let room = call.saved().clean().len() <= call.out.len();
            if full && room && !call.list.is_empty() {
                (call.a, call.b) = (0, 0);
                return LIST_FULL;
            }
            call.made()
        }),
        answers("wants a list of an entry where there is none", |call| {
            let saved = call.saved();
            if saved.list.is_empty()
                && call.list.len() < DROPPED
                && saved.clean().len() <= call.out.len()
            {
                (call.a, call.b) = (0, 0);
                return LIST_FULL;
            }
            call.made()
        }),
        answers("tells the numbers with a refusal", |call| {
            let code = call.made();
            if code != 0 {
                let saved = call.saved();
                (call.a, call.b) = (saved.clean().len() as u64, saved.list.len() as u64);
            }
            code
        }),
        answers("returns the length of the list in bytes", |call| {
            let code = call.made();
            call.b *= DROPPED as u64;
            code
        }),
    ]
}

/// Those that take other room than there is.
fn rooms() -> Vec<Wrong> {
    vec![
        answers("cuts off a clean file that is too long", |call| {
            let clean = call.saved().clean();
            let code = call.made();
            if code == OUTPUT_FULL && call.list.len() > DROPPED {
                let length = call.out.len();
                call.out.copy_from_slice(&clean[..length]);
                call.a = length as u64;
                return 0;
            }
            code
        }),
        answers("cuts off a list that is too long", |call| {
            let mut saved = call.saved();
            let code = call.made();
            if code == LIST_FULL {
                saved.list.truncate(call.list.len() / DROPPED);
                let (code, values) = laid(&saved, call.out, call.list);
                [call.a, call.b] = values;
                return code;
            }
            code
        }),
        answers("counts a part of an entry as room for one", |call| {
            let room = (call.list.len() + DROPPED - 1) / DROPPED;
            let mut whole = vec![0; DROPPED * room];
            whole[..call.list.len()].copy_from_slice(call.list);
            let code = Real.salvage(call.text, call.out, &mut whole, (&mut call.a, &mut call.b));
            let length = call.list.len();
            call.list.copy_from_slice(&whole[..length]);
            code
        }),
    ]
}

/// Those that change a byte that is not theirs.
fn buffers() -> Vec<Wrong> {
    vec![
        answers(
            "writes a byte of the output before it refuses with 15",
            |call| {
                let code = call.made();
                if let (OUTPUT_FULL, Some(first)) = (code, call.out.first_mut()) {
                    *first = b':';
                }
                code
            },
        ),
        answers("writes the clean file before it refuses with 22", |call| {
            let clean = call.saved().clean();
            let code = call.made();
            if code == LIST_FULL {
                call.out[..clean.len()].copy_from_slice(&clean);
            }
            code
        }),
        answers("writes the list before it refuses with 15", |call| {
            let entries = call.saved().entries();
            let code = call.made();
            if code == OUTPUT_FULL && entries.len() <= call.list.len() {
                call.list[..entries.len()].copy_from_slice(&entries);
            }
            code
        }),
        answers("writes entries before it refuses with 22", |call| {
            let entries = call.saved().entries();
            let code = call.made();
            if code == LIST_FULL {
                let room = call.list.len() / DROPPED * DROPPED;
                call.list[..room].copy_from_slice(&entries[..room]);
            }
            code
        }),
        answers("puts a NUL after the clean file", |call| {
            let code = call.made();
            if let (0, Some(next)) = (code, call.out.get_mut(call.a as usize)) {
                *next = 0;
            }
            code
        }),
        answers("clears the rest of the list", |call| {
            let code = call.made();
            if code == 0 {
                call.list[DROPPED * call.b as usize..].fill(0);
            }
            code
        }),
        answers("writes no entry", |call| {
            let before = call.list.to_vec();
            let code = call.made();
            call.list.copy_from_slice(&before);
            code
        }),
        answers("leaves the last line of the clean file as it was", |call| {
            let before = call.out.to_vec();
            let code = call.made();
            if code == 0 {
                let last = call.a as usize - 12..call.a as usize;
                call.out[last.clone()].copy_from_slice(&before[last]);
            }
            code
        }),
    ]
}

//! The answers to chunks, one after the other, against those to the joined text: of the crate's reader,
//! and of the port's text reader with the same pools and positions.

use ihex_sys::{DONE, IN_CARRY, IN_CHUNK, USED_UP};

use crate::comparisons::run::{blocks, by_block, by_chance, by_length, Kind, Plan};
use crate::comparisons::seen::{EntryPoint, Places};
use crate::inputs::chunks::{ChunkCase, Standing};
use crate::inputs::cuts;
use crate::inputs::shrink::readable;
use crate::models::texts::line_of;
use crate::subjects::port::Port;
use crate::subjects::the_crate::{by_crate, offender_of, rows, Row};
use crate::subjects::told::{pool_full, told, Place, Told};

/// What the chunk reader is to be asked for.
pub static SEEN: EntryPoint = EntryPoint::new(
    "chunk reader",
    &[
        0, 1, 2, 3, 4, 5, 257, 258, 259, 260, 261, 262, 263, 264, 265, 266, 274, DONE, USED_UP,
    ],
);

/// What the end of a text in chunks is to be asked for.
pub static SEEN_END: EntryPoint = EntryPoint::new(
    "end of a text in chunks",
    &[
        0, 1, 2, 3, 4, 5, 257, 258, 259, 260, 261, 262, 263, 264, 265, 266, 274, DONE,
    ],
);

/// Where the line of a byte that is not a digit is cut: nowhere, further before the byte, directly before
/// it, and after it.
pub static SEEN_CUTS: [Places; 4] = [
    Places::new("chunk reader, in a line that is not cut", 1),
    Places::new("chunk reader, with a cut further ahead", 2),
    Places::new("chunk reader, with a cut directly ahead", 1),
    Places::new("chunk reader, with a cut behind it", 1),
];

/// The entry point that is given a chunk, or that ends a text in chunks.
pub fn entry_of(chunk: Option<&[u8]>) -> &'static EntryPoint {
    chunk.map_or(&SEEN_END, |_| &SEEN)
}

/// What a line or a place is where nothing was written.
const UNWRITTEN: usize = usize::MAX / 3;

/// The line that the port shows at a place.
pub fn line_at(
    port: &dyn Port,
    place: Place,
    chunk: &[u8],
    carry: &[u8],
) -> Result<Vec<u8>, String> {
    let mut start = UNWRITTEN;
    let n = port.shown(place, chunk, carry, &mut start);
    let buffer = match place.0 {
        IN_CHUNK => chunk,
        IN_CARRY => carry,
        _ => &[],
    };
    let line = buffer.get(start..start.saturating_add(n));
    line.map(<[u8]>::to_vec)
        .ok_or_else(|| format!("{place:?} is shown as {n} bytes from {start} on"))
}

/// An answer, "used up" and "done" left out: of which entry point, with which pool and position it was
/// asked for, the number of the line answered last, and the line shown.
struct Step {
    entry: &'static EntryPoint,
    told: Told,
    pool: usize,
    at: usize,
    line: usize,
    shown: Vec<u8>,
}

/// A reader of chunks, with what it is lent.
struct Reader<'a> {
    port: &'a dyn Port,
    carry: Vec<u8>,
    pool: Vec<u8>,
    at: usize,
    state: Standing,
    /// How many calls it may still take.
    calls: usize,
}

impl<'a> Reader<'a> {
    /// One call, with a chunk or for the end: the code and values, with what it put into the pool.
    fn call(&mut self, chunk: Option<&[u8]>) -> Result<(Told, Place), String> {
        self.calls = self.calls.checked_sub(1).ok_or("no end of answers")?;
        let (mut a, mut b, mut c) = (0, 0, 0);
        let mut place = (0, UNWRITTEN, UNWRITTEN);
        let standing = self.state.lend();
        let lies = (&mut place.0, &mut place.1, &mut place.2);
        let (carry, pool, at) = (&mut self.carry, &mut self.pool, self.at);
        let values = (&mut a, &mut b, &mut c);
        let code = match chunk {
            Some(chunk) => self
                .port
                .next_chunk(chunk, carry, pool, at, standing, lies, values),
            None => self.port.finish(carry, pool, at, standing, lies, values),
        };
        let mut answer = told(code, a, b, c);
        if code == 0 {
            let payload = self
                .pool
                .get(b as usize..)
                .and_then(|from| from.get(..c as usize));
            answer.payload = payload.ok_or("a payload outside the pool")?.to_vec();
        }
        Ok((answer, place))
    }

    /// Asks for the answers of a chunk, or of the end, until there are no more. Where the pool is full
    /// the same call is made again: at its beginning, or with one that has room.
    fn ask(&mut self, chunk: Option<&[u8]>, steps: &mut Vec<Step>) -> Result<(), String> {
        loop {
            let (told, place) = self.call(chunk)?;
            if told.code == USED_UP || told.code == DONE {
                return Ok(());
            }
            let step = Step {
                entry: entry_of(chunk),
                pool: self.pool.len(),
                at: self.at,
                line: self.state.line,
                shown: line_at(self.port, place, chunk.unwrap_or(&[]), &self.carry)?,
                told,
            };
            if step.told != pool_full() {
                self.at += step.told.payload.len();
            } else if self.at > 0 {
                self.at = 0;
            } else {
                self.pool = vec![0; 255];
            }
            steps.push(step);
        }
    }
}

/// The answers to all chunks, to the end, and to what comes after it.
fn steps(port: &dyn Port, case: &ChunkCase) -> Result<Vec<Step>, String> {
    let mut reader = Reader {
        port,
        carry: case.carry.clone(),
        pool: vec![0; case.pool],
        at: 0,
        state: case.state,
        calls: case.chunks.len() + 3 * case.text().len() + 9,
    };
    let mut steps = Vec::new();
    for chunk in &case.chunks {
        reader.ask(Some(chunk), &mut steps)?;
    }
    reader.ask(None, &mut steps)?;
    reader.ask(Some(b":00000001FF\n"), &mut steps)?;
    reader.ask(None, &mut steps)?;
    Ok(steps)
}

/// What is wrong with the answers, if they should be the crate's.
fn unlike_crate(rows: &[Row], text: &[u8], steps: &[Step]) -> Option<String> {
    let mut read = steps.iter().filter(|step| step.told != pool_full());
    for (i, row) in rows.iter().enumerate() {
        let step = read.next();
        let told = by_crate::answer(&row.0, step.map_or(0, |step| step.at));
        let (number, line) = (row.1.line, line_of(text, row));
        let is = step.map(|step| (&step.told, step.line, &step.shown));
        if is != Some((&told, number, &line)) {
            let is = is.map(|(told, number, line)| (told, number, readable(line)));
            let should = (told, number, readable(&line));
            return Some(format!("answer {i}: {is:?}, crate {should:?}"));
        }
    }
    let more = read.next().map(|step| &step.told);
    more.map(|told| format!("{told:?} behind the crate's last answer"))
}

/// What is wrong with the answers, if they should be those of the port's text reader.
fn unlike_text(port: &dyn Port, flags: u8, text: &[u8], steps: &[Step]) -> Option<String> {
    let (mut position, mut line, mut flags) = (0, 0, flags);
    let mut ask = |pool: usize, at: usize| {
        let (mut a, mut b, mut c) = (0, 0, 0);
        let state = (&mut position, &mut line, &mut flags);
        let values = (&mut a, &mut b, &mut c);
        let code = port.next(text, &mut vec![0; pool], at, state, values);
        (code, [a, b, c], line)
    };
    for (i, step) in steps.iter().enumerate() {
        let is = (step.told.code, step.told.values, step.line);
        let should = ask(step.pool, step.at);
        if is != should {
            return Some(format!("answer {i}: {is:?}, text reader {should:?}"));
        }
    }
    let last = ask(255, 0);
    (last.0 != DONE).then(|| format!("no more answers, text reader {last:?}"))
}

/// Notes the places that are named: for the call that names each, and for where its line is cut.
fn note_places(case: &ChunkCase, rows: &[Row], steps: &[Step]) {
    let ends = case.chunks.iter().scan(0, |end, chunk| {
        *end += chunk.len();
        Some(*end)
    });
    let cuts: Vec<usize> = ends.collect();
    let read = steps.iter().filter(|step| step.told != pool_full());
    for ((answer, place), step) in rows.iter().zip(read) {
        let offender = offender_of(answer);
        let at = place.start + offender.unwrap_or(0);
        let some = |from: usize, to: usize| {
            let next = cuts.partition_point(|&cut| cut < from);
            cuts.get(next).map_or(false, |&cut| cut < to)
        };
        step.entry.places.note(offender);
        let are = [
            !some(place.start + 1, place.end),
            some(place.start + 1, at),
            some(at, at + 1),
            some(at + 1, place.end),
        ];
        for (seen, is) in SEEN_CUTS.iter().zip(are) {
            seen.note(offender.filter(|_| is));
        }
    }
}

/// What is wrong with the answers to the chunks of a whole text.
fn port(port: &dyn Port, case: &ChunkCase) -> Option<String> {
    let (text, flags) = (case.text(), case.state.flags);
    let steps = match steps(port, case) {
        Ok(steps) => steps,
        Err(why) => return Some(why),
    };
    for step in &steps {
        step.entry.answers.note(step.told.code);
    }
    let rows = rows(&text, flags);
    note_places(case, &rows, &steps);
    unlike_crate(&rows, &text, &steps).or_else(|| unlike_text(port, flags, &text, &steps))
}

/// What is compared with the port.
pub fn of_port<'a>(port: &'a dyn Port, plan: Plan) -> Vec<Kind<'a>> {
    let check = move |case: &ChunkCase| self::port(port, case);
    vec![
        by_chance(
            "texts in chunks, cut by chance",
            plan,
            16,
            cuts::cut_text,
            check,
        ),
        by_block(
            "texts in chunks, cut in two at every place",
            plan,
            blocks(400, plan),
            |_, chance| cuts::cut_everywhere(chance),
            check,
        ),
        by_length(
            "texts in chunks, lines of 519 to 70,000 bytes",
            plan,
            move |case| check(&case.chunks()),
        ),
    ]
}

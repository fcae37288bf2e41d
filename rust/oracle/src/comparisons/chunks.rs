//! A text in chunks: the port's reader of chunks call by call, with what each call leaves, and the
//! face's reader.

use ihex_sys::{DONE, IN_CARRY, IN_CHUNK, USED_UP};

use crate::comparisons::joined::{entry_of, line_at};
use crate::comparisons::lent::{Lent, Numbers};
use crate::comparisons::lines::unlike;
use crate::comparisons::run::{by_chance, by_length, Kind, Plan};
use crate::inputs::chunks::{ChunkCase, ShownCase, Standing};
use crate::inputs::cuts;
use crate::inputs::shrink::readable;
use crate::models::chunks::{outcome, Call, Outcome, CARRY_TOO_SMALL};
use crate::models::texts;
use crate::subjects::face::{self, ask};
use crate::subjects::port::Port;
use crate::subjects::the_crate::rows;
use crate::subjects::told::{pool_full, Place, Shown, Told};

/// A state and a place that are lent, between guards.
struct Lending {
    places: [usize; 13],
    words: [u16; 3],
    bytes: [u8; 5],
}

const PLACE: usize = usize::MAX / 3;
const WORD: u16 = 0xA55A;

impl Lending {
    fn new(state: Standing) -> Self {
        let mut places = [PLACE; 13];
        places[1] = state.position;
        places[3] = state.line;
        places[5] = state.empties;
        places[7] = state.used;
        Lending {
            places,
            words: [WORD, state.skipped, WORD],
            bytes: [0xA5, state.flags, 0xA5, 0xA5, 0xA5],
        }
    }

    fn lend(&mut self) -> (ihex_sys::Standing<'_>, ihex_sys::Lies<'_>) {
        let [_, position, _, line, _, empties, _, used, _, from, _, len, _] = &mut self.places;
        let [_, skipped, _] = &mut self.words;
        let [_, flags, _, lies, _] = &mut self.bytes;
        let standing = (position, line, empties, used, skipped, flags);
        (standing, (lies, from, len))
    }

    fn state(&self) -> Standing {
        Standing {
            position: self.places[1],
            line: self.places[3],
            empties: self.places[5],
            used: self.places[7],
            skipped: self.words[1],
            flags: self.bytes[1],
        }
    }

    fn place(&self) -> Place {
        (self.bytes[3], self.places[9], self.places[11])
    }

    fn is_guarded(&self) -> bool {
        let places = (0..13).step_by(2).all(|i| self.places[i] == PLACE);
        let words = (self.words[0], self.words[2]) == (WORD, WORD);
        places && words && (0..5).step_by(2).all(|i| self.bytes[i] == 0xA5)
    }
}

/// What is lent to the chunk reader, call after call.
struct Calls<'a> {
    port: &'a dyn Port,
    carry: Lent,
    pool: Lent,
    at: usize,
    state: Standing,
}

impl<'a> Calls<'a> {
    /// One call, with a chunk or for the end: its answer, or what is wrong with it.
    fn call(&mut self, chunk: Option<&[u8]>) -> Result<Told, String> {
        let (held, before) = (self.carry.bytes().to_vec(), self.pool.bytes().to_vec());
        let call = Call {
            chunk,
            carry: &held,
            pool: before.len(),
            at: self.at,
        };
        let expected = outcome(self.state, &call);
        let (mut numbers, mut lent) = (Numbers::default(), Lending::new(self.state));
        let code = self.lend(chunk, &mut lent, &mut numbers);
        let told = &expected.told;
        if let Some(why) = unlike(told, code, &numbers, &self.pool, &before, self.at) {
            return Err(why);
        }
        self.state = lent.state();
        self.compare(&expected, &lent)?;
        let chunk = chunk.unwrap_or(&[]);
        let line = line_at(self.port, expected.place, chunk, self.carry.bytes())?;
        if line != expected.shown {
            let should = readable(&expected.shown);
            return Err(format!("shows {}, should be {should}", readable(&line)));
        }
        Ok(expected.told)
    }

    fn lend(&mut self, chunk: Option<&[u8]>, lent: &mut Lending, numbers: &mut Numbers) -> u32 {
        let (carry, pool) = (self.carry.slice(), self.pool.slice());
        let (standing, lies) = lent.lend();
        let (numbers, at) = (numbers.lend(), self.at);
        match chunk {
            Some(chunk) => self
                .port
                .next_chunk(chunk, carry, pool, at, standing, lies, numbers),
            None => self.port.finish(carry, pool, at, standing, lies, numbers),
        }
    }

    /// What is wrong with the state, the place and the carry that a call left.
    fn compare(&self, expected: &Outcome, lent: &Lending) -> Result<(), String> {
        if !lent.is_guarded() {
            return Err("numbers beside the lent state were written".into());
        }
        let (is, should) = ((self.state, lent.place()), (expected.state, expected.place));
        if is != should {
            return Err(format!("state {is:?}, should be {should:?}"));
        }
        let mut held = self.carry.bytes().to_vec();
        held[..expected.carried.len()].copy_from_slice(&expected.carried);
        self.carry.unlike("carry", &held).map_or(Ok(()), Err)
    }

    /// Asks for the answers of a chunk, or of the end, until there are no more. Where the pool is full
    /// the same call is made again: at its beginning, or with one that has room. The last code.
    fn ask(&mut self, chunk: Option<&[u8]>) -> Result<u32, String> {
        loop {
            let told = self.call(chunk)?;
            entry_of(chunk).answers.note(told.code);
            if [USED_UP, DONE, CARRY_TOO_SMALL].contains(&told.code) {
                return Ok(told.code);
            }
            if told != pool_full() {
                self.at += told.payload.len();
            } else if self.at > 0 {
                self.at = 0;
            } else {
                self.pool = Lent::new(255);
            }
        }
    }

    /// Hands over all chunks, or a few of those that are not read any more, ends the text, and goes on
    /// after its end.
    fn all(&mut self, case: &ChunkCase) -> Result<(), String> {
        let mut unread = 0;
        for (i, chunk) in case.chunks.iter().enumerate() {
            let lent = Lent::holding(chunk);
            let asked = self.ask(Some(lent.bytes()));
            let code = asked.map_err(|why| format!("chunk {i}: {why}"))?;
            lent.unlike("chunk", chunk).map_or(Ok(()), Err)?;
            unread += usize::from(code != USED_UP);
            if unread > 3 {
                break;
            }
        }
        let asked = self.ask(None);
        asked.map_err(|why| format!("at the end: {why}"))?;
        for more in [Some(&b":00000001FF\n"[..]), None] {
            let asked = self.ask(more);
            asked.map_err(|why| format!("behind the end: {why}"))?;
        }
        Ok(())
    }
}

/// A text in chunks, call by call: what each answers and leaves.
fn port(port: &dyn Port, case: &ChunkCase) -> Option<String> {
    let mut calls = Calls {
        port,
        carry: Lent::holding(&case.carry),
        pool: Lent::new(case.pool),
        at: 0,
        state: case.state,
    };
    calls.all(case).err()
}

/// The face's answers. Of one chunk in three all are asked for, of one the first, of one none; what is
/// left comes at the end.
fn face_row(case: &ChunkCase) -> Vec<Shown> {
    let mut reader = ihex::ChunkReader::new_with_options(face::options(case.state.flags));
    let mut row = Vec::new();
    for (i, chunk) in case.chunks.iter().enumerate() {
        ask(reader.feed(chunk), [usize::MAX, 1, 0][i % 3], &mut row);
    }
    ask(reader.finish(), usize::MAX, &mut row);
    row
}

/// What is wrong with what the face answers to chunks.
pub fn face(case: &ChunkCase) -> Option<String> {
    let text = case.text();
    let rows = rows(&text, case.state.flags);
    let should: Vec<Shown> = rows
        .iter()
        .map(|row| texts::shown_row(&text, row))
        .collect();
    let is = face_row(case);
    (is != should).then(|| format!("face {is:?}, crate {should:?}"))
}

/// What is wrong with the line that the port shows at a place.
fn shown_by_port(port: &dyn Port, case: &ShownCase) -> Option<String> {
    let (lies, from, len) = case.place;
    let behind = match lies {
        IN_CHUNK => case.chunk.get(from..).unwrap_or(&[]),
        IN_CARRY => &case.carry,
        _ => &[],
    };
    let should = &behind[..len.min(behind.len())];
    match line_at(port, case.place, &case.chunk, &case.carry) {
        Err(why) => Some(why),
        Ok(line) if line == should => None,
        Ok(line) => Some(format!(
            "{}, should be {}",
            readable(&line),
            readable(should)
        )),
    }
}

/// What is compared with the port.
pub fn of_port<'a>(port: &'a dyn Port, plan: Plan) -> Vec<Kind<'a>> {
    let calls = move |case: &ChunkCase| self::port(port, case);
    let shown = move |case: &ShownCase| shown_by_port(port, case);
    let kind = |name, thousands, make| by_chance(name, plan, thousands, make, calls);
    vec![
        kind("texts in chunks, call by call", 8, cuts::cut_text),
        kind("texts in chunks, states made up by hand", 12, cuts::by_hand),
        by_chance("places shown", plan, 20, cuts::place, shown),
        by_length(
            "texts in chunks, lines of 519 to 70,000 bytes, call by call",
            plan,
            move |case| calls(&case.chunks()),
        ),
    ]
}

/// What is compared with the face.
pub fn of_face(plan: Plan) -> Vec<Kind<'static>> {
    vec![by_chance(
        "face: texts in chunks",
        plan,
        8,
        cuts::cut_text,
        face,
    )]
}

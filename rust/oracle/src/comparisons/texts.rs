//! A text: the crate's reader against the port's and the face's, call by call.

use ihex::LineError;
use ihex_sys::{DONE, FINISHED};

use crate::comparisons::lent::{Lent, Numbers};
use crate::comparisons::lines::unlike;
use crate::comparisons::run::{by_chance, Kind, Plan};
use crate::comparisons::seen::EntryPoint;
use crate::inputs::chance::Chance;
use crate::inputs::texts::{by_hand, stopped_text, State, TextCase};
use crate::models::lines::in_pool;
use crate::models::texts::{flags_behind, rows_from};
use crate::subjects::face::{self, by_face};
use crate::subjects::port::Port;
use crate::subjects::the_crate::{as_str, by_crate, offender_of, rows, Answer};
use crate::subjects::told::{pool_full, told, Told};

/// What the text reader is to be asked for.
pub static SEEN: EntryPoint = EntryPoint::new(
    "text reader",
    &[
        0, 1, 2, 3, 4, 5, 257, 258, 259, 260, 261, 262, 263, 264, 265, 266, DONE,
    ],
);

/// What is lent to the text reader, call after call.
struct Calls<'a> {
    port: &'a dyn Port,
    text: Lent,
    pool: Lent,
    state: State,
}

impl<'a> Calls<'a> {
    /// One call, and what is wrong with it if this answer and this state should come back.
    fn call(&mut self, at: usize, expected: &Told, behind: State) -> Option<String> {
        SEEN.answers.note(expected.code);
        let before = self.pool.bytes().to_vec();
        let mut numbers = Numbers::default();
        let mut places = [usize::MAX / 3, self.state.position, 7, self.state.line, 9];
        let mut flags = [0xA5, self.state.flags, 0x5A];
        let [_, position, _, line, _] = &mut places;
        let lent = (position, line, &mut flags[1]);
        let code = self.port.next(
            self.text.bytes(),
            self.pool.slice(),
            at,
            lent,
            numbers.lend(),
        );
        self.state = State {
            position: places[1],
            line: places[3],
            flags: flags[1],
        };
        if (places[0], places[2], places[4]) != (usize::MAX / 3, 7, 9)
            || flags[0] != 0xA5
            || flags[2] != 0x5A
        {
            return Some("numbers beside the lent state were written".into());
        }
        if let Some(why) = unlike(expected, code, &numbers, &self.pool, &before, at) {
            return Some(why);
        }
        (self.state != behind).then(|| format!("state {:?}, should be {behind:?}", self.state))
    }

    /// Two calls after the last answer, which left this state, and what is wrong with them.
    fn behind_the_last(&mut self, at: usize, mut state: State) -> Option<String> {
        state.flags |= FINISHED;
        (0..2).find_map(|i| {
            let why = self.call(at, &told(DONE, 0, 0, 0), state)?;
            Some(format!("call {i} behind the last answer: {why}"))
        })
    }
}

/// What is wrong with what the port's text reader answers, call after call.
pub fn port(port: &dyn Port, case: &TextCase) -> Option<String> {
    let mut calls = Calls {
        port,
        text: Lent::holding(&case.text),
        pool: Lent::new(case.pool),
        state: case.state,
    };
    let mut state = State {
        flags: case.state.flags & 7,
        ..case.state
    };
    let mut at = 0;
    for (i, (answer, place)) in rows_from(state, &case.text).iter().enumerate() {
        let put = |at| in_pool(by_crate::answer(answer, at), case.pool, at);
        if put(at) == pool_full() {
            // The line is not used up. There may be room at the pool's beginning.
            if let Some(why) = calls.call(at, &pool_full(), state) {
                return Some(format!("answer {i}, with a full pool: {why}"));
            }
            at = 0;
        }
        let expected = put(at);
        if expected == pool_full() {
            return None;
        }
        state = State {
            position: case.state.position + place.end,
            line: case.state.line.wrapping_add(place.line),
            flags: flags_behind(state.flags, &expected),
        };
        SEEN.places.note(offender_of(answer));
        if let Some(why) = calls.call(at, &expected, state) {
            return Some(format!("answer {i}: {why}"));
        }
        at += expected.payload.len();
    }
    calls
        .behind_the_last(at, state)
        .or_else(|| calls.text.unlike("text", &case.text))
}

/// What is wrong with the text that the face prints for this answer of the crate, if anything is.
fn misprinted(given: Option<&LineError>, answer: &Answer, line: usize) -> Option<String> {
    let printed = given.map(LineError::to_string);
    let refusal = answer.as_ref().err();
    let should = refusal.map(|refusal| refusal.printed(Some(line)));
    (printed != should).then(|| format!("face prints {printed:?}, should be {should:?}"))
}

/// What is wrong with what the readers of the face answer.
pub fn face(case: &TextCase) -> Option<String> {
    let stops = face::options(case.state.flags);
    let mut bytes = ihex::ByteReader::new_with_options(&case.text, stops);
    let mut numbered = bytes.clone().numbered();
    let string = as_str(&case.text);
    let mut strings = ihex::Reader::new_with_options(&string, stops);
    for (i, (answer, place)) in rows(&case.text, case.state.flags).iter().enumerate() {
        let (from_bytes, from_string) = (bytes.next(), strings.next());
        let told = from_bytes.as_ref().map(|given| by_face::answer(given, 0));
        if told != Some(by_crate::answer(answer, 0)) || from_string != from_bytes {
            return Some(format!(
                "answer {i}: face {from_bytes:?}, {from_string:?}, crate {answer:?}"
            ));
        }
        let with_line = numbered.next();
        let printed = with_line.as_ref().and_then(|given| given.as_ref().err());
        if let Some(why) = misprinted(printed, answer, place.line) {
            return Some(format!("answer {i}: {why}"));
        }
        let with_number = with_line.map(|given| match given {
            Ok((line, record)) => (line, Ok(record)),
            Err(refused) => (refused.line, Err(refused.error)),
        });
        if with_number != from_bytes.map(|given| (place.line, given))
            || (bytes.line(), strings.line()) != (place.line, place.line)
        {
            return Some(format!(
                "answer {i}: {with_number:?}, should be of line {}",
                place.line
            ));
        }
    }
    for _ in 0..2 {
        if bytes.next().is_some() || strings.next().is_some() || numbered.next().is_some() {
            return Some("an answer behind the crate's last".into());
        }
    }
    None
}

/// What is compared with the port: texts, with each of the four settings of the stops and with states that
/// no call need have left.
pub fn of_port<'a>(port: &'a dyn Port, plan: Plan) -> Vec<Kind<'a>> {
    let check = move |case: &TextCase| self::port(port, case);
    let stopped = |name, make| by_chance(name, plan, 26, make, check);
    vec![
        stopped("texts, no stop", |chance| stopped_text(0, chance)),
        stopped("texts, stop after an error", |chance| {
            stopped_text(1, chance)
        }),
        stopped("texts, stop after an end", |chance| stopped_text(2, chance)),
        stopped("texts, both stops", |chance| stopped_text(3, chance)),
        by_chance("texts, states made up by hand", plan, 20, by_hand, check),
    ]
}

/// What is compared with the face.
pub fn of_face(plan: Plan) -> Vec<Kind<'static>> {
    let any_stops = |chance: &mut Chance| stopped_text(chance.under(4) as u8, chance);
    vec![by_chance("face: texts", plan, 20, any_stops, face)]
}

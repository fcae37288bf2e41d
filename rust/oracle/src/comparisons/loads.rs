//! Loads: the model against the port's loader and the face's.

use ihex::{LoadError, Loaded, Start};
use ihex_sys::REFUSED;

use crate::comparisons::lent::{Lent, Numbers};
use crate::comparisons::run::{by_block, by_chance, Kind, Plan};
use crate::comparisons::seen::{Answers, EntryPoint};
use crate::inputs::loads::{by_rule, load, LoadCase, BLOCKS};
use crate::inputs::starts;
use crate::models::loads::{
    model, start_of, stated, LoadAnswer, Rules, BOTH_STOPS, RIGHT, UNWRAPPED,
};
use crate::subjects::face::by_face;
use crate::subjects::port::Port;
use crate::subjects::the_crate::{offender_of, rows};

/// What the loader is to be asked for.
pub static SEEN: EntryPoint = EntryPoint::new(
    "loader",
    &[
        0, 257, 258, 259, 260, 261, 262, 263, 264, 265, 269, 272, 273, 277,
    ],
);

/// The codes of loads that rest on each of the three wraps at a segment's end, in the order of `UNWRAPPED`.
pub static SEEN_WRAPS: [Answers; 3] = [
    Answers::new(
        "loader, across a segment's end before any extension record",
        &[0, 273],
    ),
    Answers::new("loader, across a segment's end behind a type 02", &[0, 273]),
    Answers::new(
        "loader, across a segment's end behind a type 02 that stands behind a type 04",
        &[0, 273],
    ),
];

/// Notes the code of a load for each of the three wraps that it rests on: with that one left out, the
/// text states something else. Only accepted loads and 17 are noted.
fn note_wraps(case: &LoadCase, code: u32) {
    if code != 0 && code != REFUSED + 17 {
        return;
    }
    let right = stated(RIGHT, case);
    for ((_, placing), seen) in UNWRAPPED.into_iter().zip(&SEEN_WRAPS) {
        if stated(Rules { placing, ..RIGHT }, case) != right {
            seen.note(code);
        }
    }
}

/// The kinds of start that accepted loads tell: none, a type 03 and a type 05.
pub static SEEN_STARTS: Answers = Answers::new("loader, by its kind of start", &[0, 3, 5]);

/// The types of two starts that differ, the first as the tens.
pub static SEEN_CONFLICTS: Answers =
    Answers::new("loader, by the types of two starts", &[33, 35, 53, 55]);

/// Notes the start that a load tells, or the two that differ.
fn note_starts(case: &LoadCase, answer: LoadAnswer) {
    if answer.code == 0 {
        SEEN_STARTS.note(answer.start.into());
    }
    if answer.code == REFUSED + 21 {
        let records = rows(&case.text, BOTH_STOPS);
        let before = records
            .iter()
            .filter(|(_, place)| place.line <= answer.line);
        let starts = before.filter_map(|(record, _)| start_of(record.as_ref().ok()?));
        let kinds: Vec<u32> = starts.map(|(kind, ..)| kind.into()).collect();
        SEEN_CONFLICTS.note(10 * kinds[0] + kinds[kinds.len() - 1]);
    }
}

/// What a model answers to a load; page and marks are changed.
pub trait Model: Fn(&LoadCase, &mut [u8], &mut [u8]) -> LoadAnswer {}

impl<F: Fn(&LoadCase, &mut [u8], &mut [u8]) -> LoadAnswer> Model for F {}

/// A page and marks to load into, and copies of them on which a model has run, with its answer.
fn lent(case: &LoadCase, model: impl Model) -> (Lent, Lent, Vec<u8>, Vec<u8>, LoadAnswer) {
    let (page, mut marks) = (Lent::new(case.page), Lent::new(case.marks));
    if let Some(last) = marks.slice().last_mut() {
        *last = case.last;
    }
    let (mut held, mut marked) = (page.bytes().to_vec(), marks.bytes().to_vec());
    let answer = model(case, &mut held, &mut marked);
    (page, marks, held, marked, answer)
}

/// What is wrong with a load by the port.
pub fn port(port: &dyn Port, case: &LoadCase) -> Option<String> {
    let note = |answer: LoadAnswer| {
        let code = answer.code;
        SEEN.answers.note(code);
        if code == REFUSED + 2 {
            let last = rows(&case.text, BOTH_STOPS).pop();
            let place = last.and_then(|(answer, _)| offender_of(&answer));
            SEEN.places.note(place);
        }
        note_wraps(case, code);
        note_starts(case, answer);
    };
    by_port(case, model, note, |text, page, marks, places, numbers| {
        port.load(text, case.first, page, marks, places, numbers)
    })
}

/// The line and the kind of start that a load tells.
pub type Places<'a> = (&'a mut usize, &'a mut u8);
/// The values that it tells.
pub type Values<'a> = (&'a mut u64, &'a mut u64, &'a mut u64);

/// What a load answers, from what is called with room for its line, its kind of start and its values.
pub fn answer(call: impl FnOnce(Places, Values) -> u32) -> LoadAnswer {
    let (mut line, mut start, mut a, mut b, mut c) = (0, 0, 0, 0, 0);
    let code = call((&mut line, &mut start), (&mut a, &mut b, &mut c));
    LoadAnswer {
        code,
        line,
        start,
        values: [a, b, c],
    }
}

/// What is wrong with a load by a loader of the port, if it should answer as a model does; the model's answer is
/// noted.
pub fn by_port(
    case: &LoadCase,
    model: impl Model,
    note: impl Fn(LoadAnswer),
    load: impl Fn(&[u8], &mut [u8], &mut [u8], Places, Values) -> u32,
) -> Option<String> {
    let (mut page, mut marks, held, marked, should) = lent(case, model);
    note(should);
    match guarded(&case.text, &mut page, &mut marks, load) {
        Err(wrong) => Some(wrong),
        Ok(is) if is != should => Some(format!("port {is:?}, model {should:?}")),
        Ok(_) => page
            .unlike("page", &held)
            .or_else(|| marks.unlike("marks", &marked)),
    }
}

/// What a loader of the port answers, if it leaves the text and what lies beside the numbers that are lent to it.
pub fn guarded(
    given: &[u8],
    page: &mut Lent,
    marks: &mut Lent,
    load: impl FnOnce(&[u8], &mut [u8], &mut [u8], Places, Values) -> u32,
) -> Result<LoadAnswer, String> {
    let text = Lent::holding(given);
    let mut numbers = Numbers::default();
    let (mut lines, mut starts) = ([3, 5, 7], [3, 7, 5]);
    let code = load(
        text.bytes(),
        page.slice(),
        marks.slice(),
        (&mut lines[1], &mut starts[1]),
        numbers.lend(),
    );
    let beside = (lines[0], lines[2], starts[0], starts[2]);
    if !numbers.is_guarded() || beside != (3, 7, 3, 5) {
        return Err("numbers beside the lent ones were written".into());
    }
    let is = LoadAnswer {
        code,
        line: lines[1],
        start: starts[1],
        values: numbers.values(),
    };
    text.unlike("text", given).map_or(Ok(is), Err)
}

/// What the face answers, in the form of the port's answers.
pub fn as_port(answer: Result<Loaded, LoadError>) -> LoadAnswer {
    let start = |start| match start {
        Start::Segment { cs, ip } => (3, cs.into(), ip.into()),
        Start::Linear(address) => (5, address.into(), 0),
        other => panic!("a start that the oracle does not know: {other}"),
    };
    match answer {
        Ok(loaded) => LoadAnswer::accepted(loaded.data_records as u64, loaded.start.map(start)),
        Err(why) => refused(why),
    }
}

/// A refusal of the face, in the form of the port's answers.
pub fn refused(why: LoadError) -> LoadAnswer {
    let [a, b, _] = match why {
        LoadError::Line(refused) => by_face::refusal(&refused.error).values,
        LoadError::SRecordLine { error, .. } => by_face::refusal(&error.0).values,
        LoadError::OutsideWindow { address, .. } => [address.into(), 0, 0],
        LoadError::CountMismatch { stated, seen, .. } => [stated.into(), seen as u64, 0],
        _ => [0; 3],
    };
    LoadAnswer::refused(why.number(), a, b, why.line().unwrap_or(0))
}

/// What is wrong with a load by the face.
pub fn face(case: &LoadCase) -> Option<String> {
    by_face_with(case, model, |text, page, marks| {
        ihex::load(text, case.first, page, marks)
    })
}

/// What is wrong with a load by a loader of the face, if it should answer as a model does.
pub fn by_face_with(
    case: &LoadCase,
    model: impl Model,
    load: impl Fn(&[u8], &mut [u8], &mut [u8]) -> Result<Loaded, LoadError>,
) -> Option<String> {
    let (mut page, mut marks, held, marked, should) = lent(case, model);
    let is = as_port(load(&case.text, page.slice(), marks.slice()));
    if is != should {
        return Some(format!("face {is:?}, model {should:?}"));
    }
    page.unlike("page", &held)
        .or_else(|| marks.unlike("marks", &marked))
}

/// What is compared with the port.
pub fn of_port<'a>(port: &'a dyn Port, plan: Plan) -> Vec<Kind<'a>> {
    let check = move |case: &LoadCase| self::port(port, case);
    vec![
        by_chance("loads", plan, 60, load, check),
        by_block("loads by rule", plan, BLOCKS, by_rule, check),
        by_chance("loads with starts", plan, 40, starts::load, check),
        by_block(
            "loads with starts by rule",
            plan,
            starts::BLOCKS,
            starts::by_rule,
            check,
        ),
    ]
}

/// What is compared with the face.
pub fn of_face(plan: Plan) -> Vec<Kind<'static>> {
    vec![
        by_chance("face: loads", plan, 20, load, face),
        by_block("face: loads by rule", plan, BLOCKS, by_rule, face),
        by_chance("face: loads with starts", plan, 20, starts::load, face),
        by_block(
            "face: loads with starts by rule",
            plan,
            starts::BLOCKS,
            starts::by_rule,
            face,
        ),
    ]
}

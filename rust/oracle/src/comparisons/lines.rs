//! One line: the crate's record reader against the port's and the face's.

use crate::comparisons::lent::{Lent, Numbers};
use crate::comparisons::run::{blocks, by_block, by_chance, Kind, Plan};
use crate::comparisons::seen::EntryPoint;
use crate::inputs::lines::{self, LineCase};
use crate::models::lines::{answered, pour};
use crate::subjects::face::by_face;
use crate::subjects::port::Port;
use crate::subjects::the_crate::{as_str, by_crate, offender_of, read, Answer};
use crate::subjects::told::Told;

/// What the record reader is to be asked for.
pub static SEEN: EntryPoint = EntryPoint::new(
    "record reader",
    &[
        0, 1, 2, 3, 4, 5, 257, 258, 259, 260, 261, 262, 263, 264, 265, 266,
    ],
);

/// What is wrong with the port's answer, if it should be this one. The pool held `before`.
pub fn unlike(
    expected: &Told,
    code: u32,
    numbers: &Numbers,
    pool: &Lent,
    before: &[u8],
    at: usize,
) -> Option<String> {
    if !numbers.is_guarded() {
        return Some("numbers beside the lent ones were written".into());
    }
    let (is, should) = ((code, numbers.values()), (expected.code, expected.values));
    if is != should {
        return Some(format!("port {is:?}, should be {should:?}"));
    }
    let mut held = before.to_vec();
    pour(expected, &mut held, at);
    pool.unlike("pool", &held)
}

/// What is wrong with what the port's record reader answers to a line.
pub fn port(port: &dyn Port, case: &LineCase) -> Option<String> {
    let answer = read(&case.line);
    let expected = answered(&answer, case);
    SEEN.answers.note(expected.code);
    SEEN.places.note(offender_of(&answer));
    let line = Lent::holding(&case.line);
    let mut pool = Lent::new(case.pool);
    let before = pool.bytes().to_vec();
    let mut numbers = Numbers::default();
    let code = port.read_record(line.bytes(), pool.slice(), case.at, numbers.lend());
    unlike(&expected, code, &numbers, &pool, &before, case.at)
        .or_else(|| line.unlike("line", &case.line))
}

/// What the face should print of an answer, for programmers and for people: the crate's texts, with the
/// place and the column that it does not name.
fn printed(answer: &Answer) -> (String, Option<String>) {
    match answer {
        Ok(record) => (format!("Ok({record:?})"), None),
        Err(refusal) => {
            let named = refusal.offender.map(|_| format!("({})", refusal.named()));
            let debug = format!("Err({:?}{})", refusal.error, named.unwrap_or_default());
            (debug, Some(refusal.printed(None)))
        }
    }
}

/// What is wrong with what the face answers to a line.
pub fn face(case: &LineCase) -> Option<String> {
    let string = as_str(&case.line);
    let by_bytes = ihex::Record::from_record_bytes(&case.line);
    let by_string = ihex::Record::from_record_string(&string);
    let parsed = string.parse::<ihex::Record>();
    let answer = read(&case.line);
    if by_bytes != by_string || by_string != parsed {
        return Some(format!("face {by_bytes:?}, {by_string:?}, {parsed:?}"));
    }
    if by_face::answer(&by_string, 0) != by_crate::answer(&answer, 0) {
        return Some(format!("face {by_string:?}, crate {answer:?}"));
    }
    let texts = (
        format!("{by_string:?}"),
        by_string.err().map(|e| e.to_string()),
    );
    let should = printed(&answer);
    (texts != should).then(|| format!("face prints {texts:?}, should be {should:?}"))
}

/// Lines that are made by rule: every short one, those about the shortest and the longest, and good ones
/// with each byte changed.
fn by_rule<'a>(port: &'a dyn Port, plan: Plan) -> Vec<Kind<'a>> {
    let line = move |case: &LineCase| self::port(port, case);
    let telling = lines::TELLING.len() as u64;
    let sizes: Vec<usize> = lines::boundaries().collect();
    let part = |blocks: u64| (blocks / plan.part_of).max(1);
    vec![
        by_block(
            "every line up to 4 characters",
            plan,
            part(telling + 1),
            lines::every_short,
            line,
        ),
        by_block(
            "every line of a colon and up to 4 characters",
            plan,
            part(telling),
            lines::every_behind_colon,
            line,
        ),
        by_block(
            "lines of 0 to 12 and 515 to 525 digits",
            plan,
            sizes.len() as u64,
            move |block, chance| lines::sized(sizes[block as usize], chance),
            line,
        ),
        by_block(
            "good lines, each byte changed to all 256",
            plan,
            blocks(12, plan),
            |_, chance| lines::changed(&lines::good(chance)),
            line,
        ),
    ]
}

/// Lines that come by chance.
fn by_chances<'a>(port: &'a dyn Port, plan: Plan) -> Vec<Kind<'a>> {
    let line = move |case: &LineCase| self::port(port, case);
    let kind = |name, thousands, make| by_chance(name, plan, thousands, make, line);
    vec![
        kind("good lines", 60, lines::good_line),
        kind("lines by chance", 250, lines::random_line),
        kind(
            "good lines with one to three damages",
            300,
            lines::damaged_line,
        ),
        kind("lines with narrow pools", 100, lines::pooled),
    ]
}

/// What is compared with the port.
pub fn of_port<'a>(port: &'a dyn Port, plan: Plan) -> Vec<Kind<'a>> {
    let mut kinds = by_rule(port, plan);
    kinds.extend(by_chances(port, plan));
    kinds
}

/// What is compared with the face.
pub fn of_face(plan: Plan) -> Vec<Kind<'static>> {
    let kind = |name, thousands, make| by_chance(name, plan, thousands, make, face);
    vec![
        kind("face: good lines", 20, lines::good_line),
        kind("face: lines by chance", 50, lines::random_line),
        kind("face: good lines with damages", 100, lines::damaged_line),
    ]
}

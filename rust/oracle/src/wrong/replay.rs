//! Programs in the place of `replay` that are wrong.

use std::io;

use crate::inputs::lights::OnePageCase;
use crate::inputs::replay::Given;
use crate::models::replay::answer;
use crate::subjects::program::Program;

/// The answer in place of the right one, to the case of this line.
type Change = fn(&str, &str) -> String;

/// A program that gives the right answers, each changed.
fn changed(change: Change) -> Box<Program<'static>> {
    let changed = move |case: &str| {
        let right = Given::of(case).map_or("?".into(), |given| answer(&given));
        change(case, &right) + "\n"
    };
    Box::new(move |cases| -> io::Result<String> { Ok(cases.lines().map(changed).collect()) })
}

/// The output after an object's answer, if the object fills it.
fn filling<'a>(case: &str, answer: &'a str) -> Option<&'a str> {
    let out = case.strip_prefix("O ")?.split(' ').next()?;
    let (length, held) = answer.strip_prefix("W ")?.split_once(" | ")?;
    Some(held).filter(|_| length == out)
}

/// What the last dump of a light alone leaves.
fn left_by_last(mut light: OnePageCase) -> String {
    light.texts.drain(..light.texts.len() - 1);
    let alone = answer(&Given::Light(light));
    let held = alone.split_once(" | ").map(|(_, held)| held);
    held.unwrap_or("").into()
}

/// Answers of `replay` that are wrong: in what, and what is told.
const ANSWERS: [(&str, Change); 13] = [
    ("tells an offset from F000 on one digit off", |_, answer| {
        answer.replace("D F", "D E")
    }),
    ("counts places from 0 behind the colon", |_, answer| {
        answer.replace("! 2 0001", "! 2 0000")
    }),
    (
        "uses up the first line where it finds the pool full",
        |_, answer| answer.replace("! 10 @0", "! 10 @1"),
    ),
    (
        "has no answer to a first line that is refused",
        |case, answer| match case.starts_with("T 4") {
            true => answer.replace("! 1 |", "done |"),
            false => answer.into(),
        },
    ),
    (
        "leaves the pool's first byte at a first answer",
        |case, answer| match answer.split_once(" | ") {
            Some((said, pool)) if case.starts_with("T 4") && pool.len() > 1 => {
                format!("{said} | EE{}", &pool[2..])
            }
            _ => answer.into(),
        },
    ),
    ("counts end records up to the second", |_, answer| {
        answer.replace("! 14 3", "! 14 2")
    }),
    (
        "wants a byte more than an object needs",
        |case, answer| match filling(case, answer) {
            Some(held) => format!("! 15 | {}", "D".repeat(held.len())),
            None => answer.into(),
        },
    ),
    ("writes into an output that is too short", |_, answer| {
        answer.replace("! 15 | DD", "! 15 | 3A")
    }),
    ("tells green for the known count", |_, answer| {
        answer.replace("stale ", "green ")
    }),
    ("tells 0 where no count is known", |_, answer| {
        answer.replace(" - ", " 0000 ")
    }),
    (
        "tells the page of a light that is not set up",
        |_, answer| answer.replace("! 24", "! 24 |  | "),
    ),
    ("tells no known count of a broken dump", |_, answer| {
        let told = |part: &str| match part.strip_prefix("broken ") {
            Some(rest) if !rest.starts_with('-') => format!("broken -{}", &rest[4..]),
            _ => part.into(),
        };
        answer
            .split("; ")
            .map(told)
            .collect::<Vec<String>>()
            .join("; ")
    }),
    (
        "has a page of its own for each dump",
        |case, answer| match (Given::of(case), answer.split_once(" | ")) {
            (Some(Given::Light(light)), Some((said, _))) => {
                format!("{said} | {}", left_by_last(light))
            }
            _ => answer.into(),
        },
    ),
];

/// Every such program: in what it is wrong, and the program.
pub fn all() -> Vec<(&'static str, Box<Program<'static>>)> {
    ANSWERS.map(|(name, change)| (name, changed(change))).into()
}

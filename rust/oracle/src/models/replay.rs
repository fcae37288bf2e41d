//! The crate's answers to the cases of `replay`, printed as that program prints its own.

use ihex_sys::{DONE, NOT_STATED, REFUSED, STOP_AFTER_EOF, STOP_AFTER_FIRST_ERROR};

use crate::inputs::asks::AtCase;
use crate::inputs::lights::OnePageCase;
use crate::inputs::lines::LineCase;
use crate::inputs::loads::LoadCase;
use crate::inputs::replay::{Given, MARKS};
use crate::inputs::spelling::hex;
use crate::inputs::tables::TableCase;
use crate::inputs::texts::TextCase;
use crate::models::asks;
use crate::models::lights::{self, Shown};
use crate::models::lines::{self, in_pool, pour};
use crate::models::loads::{self, LoadAnswer};
use crate::models::tables;
use crate::models::writes::{self, Written};
use crate::subjects::the_crate::{by_crate, read, rows, Row};
use crate::subjects::told::{pool_full, told, Told};

/// What each place of a lent buffer holds before a call.
const POOL: u8 = 0xEE;
const OUT: u8 = 0xDD;
const PAGE: u8 = 0xCC;

/// The most answers of a text that it prints, but for the last.
const MOST_ANSWERS: usize = 40;

/// The crate's answer to a case, printed as `replay` prints its own.
pub fn answer(given: &Given) -> String {
    match given {
        Given::Heading(line) => line.clone(),
        Given::Sum(case) => format!("{:02X}", original::checksum(&case.0)),
        Given::Line(case) => line(case),
        Given::Text(case) => text(case),
        Given::First(case) => first(case),
        Given::Record(case) => written(&writes::record(case), case.out),
        Given::Object(case) => written(&writes::object(case), case.out),
        Given::Load(case) => load(case),
        Given::Table(case) => load_through(case),
        Given::Ask(case) => asked(case),
        Given::Light(case) => lit(case),
    }
}

/// All bytes, or the runs of equal ones where there are more than 64.
fn spelt_long(bytes: &[u8]) -> String {
    if bytes.len() <= 64 {
        return format!(" {}", hex(bytes));
    }
    let ends = (1..=bytes.len()).filter(|&i| bytes.get(i) != Some(&bytes[i - 1]));
    ends.map(|i| format!(" {:02X}<{i:X}", bytes[i - 1]))
        .collect()
}

fn refusal(code: u32, a: u64, b: u64) -> String {
    match code - REFUSED {
        2 => format!("! 2 {a:04X}"),
        6 => format!("! 6 {a:02X} {b:02X}"),
        8 => format!("! 8 {a:02X}"),
        n @ (12 | 14) => format!("! {n} {a:X}"),
        17 => format!("! 17 {a:08X}"),
        n => format!("! {n}"),
    }
}

fn reply(answer: &Told) -> String {
    let [a, b, c] = answer.values;
    match answer.code {
        0 => format!("D {a:04X} {b:X} {c:X}"),
        1 => "E".into(),
        3 => format!("X3 {a:04X}{b:04X}"),
        5 => format!("X5 {a:08X}"),
        DONE => "done".into(),
        code if code > REFUSED => refusal(code, a, b),
        code => format!("X{code} {a:04X}"),
    }
}

/// One answer, and the pool of this length after it.
fn with_pool(answer: &Told, pool: usize, at: usize) -> String {
    let mut pool = vec![POOL; pool];
    pour(answer, &mut pool, at);
    format!("{} | {}", reply(answer), hex(&pool))
}

fn line(case: &LineCase) -> String {
    with_pool(
        &lines::answered(&read(&case.line), case),
        case.pool,
        case.at,
    )
}

/// The answer to the call after so many lines that were used up, with room in the pool, and the
/// number of the line after which the reader then stands.
fn call(rows: &[Row], used: usize) -> (Told, usize) {
    let line = |(_, place): &Row| place.line;
    match rows.get(used) {
        Some(row) => (by_crate::answer(&row.0, 0), line(row)),
        None => (told(DONE, 0, 0, 0), rows.last().map_or(0, line)),
    }
}

fn text(case: &TextCase) -> String {
    let rows = rows(&case.text, case.state.flags);
    let mut pool = vec![POOL; case.pool];
    let mut all = String::new();
    let (mut used, mut line) = (0, 0);
    for _ in 0..MOST_ANSWERS {
        let (answer, behind) = call(&rows, used);
        let answer = in_pool(answer, case.pool, 0);
        let full = answer == pool_full();
        if !full {
            used += 1;
            line = behind;
        }
        pour(&answer, &mut pool, 0);
        all += &format!("{} @{line:X} | {}; ", reply(&answer), hex(&pool));
        if full || answer.code == DONE {
            break;
        }
    }
    let (answer, behind) = call(&rows, used);
    all + &format!("{} @{behind:X}", reply(&answer))
}

/// The first answer alone, with both stops on.
fn first(case: &TextCase) -> String {
    let rows = rows(&case.text, STOP_AFTER_FIRST_ERROR | STOP_AFTER_EOF);
    let (answer, _) = call(&rows, 0);
    with_pool(&in_pool(answer, case.pool, 0), case.pool, 0)
}

fn written(answer: &Written, out: usize) -> String {
    let said = match answer.code {
        0 => format!("W {:X}", answer.value),
        code => refusal(code, answer.value, 0),
    };
    format!("{said} | {}", hex(&answer.held(&vec![OUT; out])))
}

fn loaded(answer: LoadAnswer) -> String {
    let [a, b, c] = answer.values;
    match (answer.code, answer.start) {
        (0, 0) => format!("A {a:X}"),
        (0, 3) => format!("A {a:X} X3 {b:04X}{c:04X}"),
        (0, kind) => format!("A {a:X} X{kind} {b:08X}"),
        (code, _) => format!("{} @{:X}", refusal(code, a, b), answer.line),
    }
}

/// What is said, and page and marks after it.
fn with_buffers(said: &str, page: &[u8], marks: &[u8]) -> String {
    format!("{said} |{} |{}", spelt_long(page), spelt_long(marks))
}

/// What a model answers to a load, and the page and marks of these lengths after it.
fn with_page(
    page: usize,
    marks: usize,
    load: impl FnOnce(&mut [u8], &mut [u8]) -> LoadAnswer,
) -> String {
    let (mut page, mut marks) = (vec![PAGE; page], vec![MARKS; marks]);
    let said = loaded(load(&mut page, &mut marks));
    with_buffers(&said, &page, &marks)
}

fn load(case: &LoadCase) -> String {
    with_page(case.page, case.marks, |page, marks| {
        loads::model(case, page, marks)
    })
}

fn load_through(case: &TableCase) -> String {
    with_page(case.pool, case.marks, |pool, marks| {
        tables::model(case, pool, marks)
    })
}

fn asked(case: &AtCase) -> String {
    let walk = asks::walked(asks::RIGHT, &case.text);
    let answer = asks::answered(asks::RIGHT, &walk, case.address);
    let [a, b] = answer.values;
    match answer.code {
        0 => format!("B {a:02X}"),
        NOT_STATED => "none".into(),
        code => format!("{} @{:X}", refusal(code, a, b), answer.line),
    }
}

/// The colors by their numbers.
const COLORS: [&str; 6] = ["broken", "no-count", "first", "green", "stale", "restarted"];

fn shown(shown: Shown) -> String {
    let known = lights::as_count(shown.known).map(|count| format!("{count:04X}"));
    format!(
        "{} {} {}",
        COLORS[usize::from(shown.color)],
        known.unwrap_or("-".into()),
        loaded(shown.load)
    )
}

/// What each dump comes to, and the page and marks after the last.
fn lit(case: &OnePageCase) -> String {
    if lights::set_up(case.light) != 0 {
        return refusal(lights::set_up(case.light), 0, 0);
    }
    let dumps = lights::model(&case.row([PAGE, MARKS]));
    let said: Vec<String> = dumps.iter().map(|after| shown(after.shown)).collect();
    let (said, last) = (said.join("; "), dumps.last());
    last.map_or("?".into(), |last| {
        with_buffers(&said, &last.page, &last.marks)
    })
}

//! Pages with marks: the model against the port's page writer and the face's, and the file read back by the
//! crate and loaded by the port and the face.

use std::ops::Range;

use ihex::PageError;
use ihex_sys::REFUSED;

use crate::comparisons::forms;
use crate::comparisons::lent::{Lent, Numbers};
use crate::comparisons::run::{blocks, by_block, by_chance, Kind, Plan};
use crate::comparisons::seen::Answers;
use crate::comparisons::writes::unlike;
use crate::inputs::loads::LoadCase;
use crate::inputs::marks::{packed, unpacked};
use crate::inputs::pages::{by_rule, large, page, PageCase, BLOCKS};
use crate::models::loads;
use crate::models::pages::{filed, length, runs, written, Filed, BAD_MARK, RIGHT};
use crate::models::writes::{refused, Written};
use crate::subjects::port::Port;

/// What is asked of a page's file: its length, and the file.
pub static SEEN: [Answers; 2] = [
    Answers::new("length of a page's file", &[0, 272, 275]),
    Answers::new("page writer", &[0, 271, 272, 275]),
];

/// The output that a case lends.
fn output(case: &PageCase, file: &Filed) -> Lent {
    let length = file.as_ref().map_or(0, String::len) as isize;
    Lent::new((length + case.spare).max(0) as usize)
}

/// What is wrong with a load of the file: it is to give the marks, and the bytes at them, over noise, to count
/// the data records, and to tell no start.
fn unrestored(
    who: &str,
    case: &PageCase,
    text: &str,
    load: impl FnOnce(&mut [u8], &mut [u8]) -> (u32, u64, u8),
) -> Option<String> {
    let should_mark = packed(&case.marks);
    let (mut page, mut row) = (Lent::new(case.places()), Lent::new(should_mark.len()));
    let mut held = page.bytes().to_vec();
    for run in runs(&case.marks) {
        let run = run.start as usize..run.end as usize;
        held[run.clone()].copy_from_slice(&case.page[run]);
    }
    let data = text.lines().filter(|line| line.get(7..9) == Some("00"));
    let is = load(page.slice(), row.slice());
    let should = (0, data.count() as u64, 0);
    if is != should {
        return Some(format!("{who} loads {is:?}, should be {should:?}"));
    }
    page.unlike(&format!("page that {who} loads"), &held)
        .or_else(|| row.unlike(&format!("marks that {who} loads"), &should_mark))
}

/// The file of a page as a text to load into its window.
fn to_load(case: &PageCase, text: &str) -> LoadCase {
    LoadCase::new(text.into(), case.first, case.places(), 0)
}

/// What is wrong where the crate reads the file, or the port loads it.
fn misread(port: &dyn Port, case: &PageCase, text: &str) -> Option<String> {
    let by_crate = |page: &mut [u8], marks: &mut [u8]| {
        let answer = loads::model(&to_load(case, text), page, marks);
        (answer.code, answer.values[0], answer.start)
    };
    let by_port = |page: &mut [u8], marks: &mut [u8]| {
        let (mut line, mut start, mut a, mut b, mut c) = (0, 0, 0, 0, 0);
        let (places, numbers) = ((&mut line, &mut start), (&mut a, &mut b, &mut c));
        let code = port.load(text.as_bytes(), case.first, page, marks, places, numbers);
        (code, a, start)
    };
    unrestored("the crate", case, text, by_crate)
        .or_else(|| unrestored("the port", case, text, by_port))
}

/// What is wrong with the length that the port returns.
fn mismeasured(port: &dyn Port, case: &PageCase, file: &Filed) -> Option<String> {
    let row = case.row();
    let (page, marks) = (Lent::holding(&case.page), Lent::holding(&row));
    let (code, value) = length(file);
    let mut numbers = Numbers::default();
    let (first, told) = (case.first, numbers.lend().0);
    let is = port.page_file_length(first, page.bytes(), marks.bytes(), told);
    unlike(&refused(code, value), is, &numbers, &Lent::new(0), &[])
        .map(|why| format!("length: {why}"))
        .or_else(|| page.unlike("page", &case.page))
        .or_else(|| marks.unlike("marks", &row))
}

/// What is wrong with what the port writes, if it should answer this.
fn miswritten(
    port: &dyn Port,
    case: &PageCase,
    expected: &Written,
    mut out: Lent,
) -> Option<String> {
    let row = case.row();
    let (page, marks) = (Lent::holding(&case.page), Lent::holding(&row));
    let before = out.bytes().to_vec();
    let mut numbers = Numbers::default();
    let (first, value) = (case.first, numbers.lend().0);
    let is = port.write_page(first, page.bytes(), marks.bytes(), out.slice(), value);
    unlike(expected, is, &numbers, &out, &before)
        .or_else(|| page.unlike("page", &case.page))
        .or_else(|| marks.unlike("marks", &row))
}

/// What is wrong with what the port writes of a page, and with the file when it is read back.
fn port(port: &dyn Port, case: &PageCase) -> Option<String> {
    let file = filed(RIGHT, case.first, &case.page, &case.row());
    let out = output(case, &file);
    let expected = written(&file, out.bytes().len());
    SEEN[0].note(length(&file).0);
    SEEN[1].note(expected.code);
    forms::note(case, file.as_ref().ok());
    let text = file.as_ref().ok().filter(|_| expected.code == 0);
    mismeasured(port, case, &file)
        .or_else(|| miswritten(port, case, &expected, out))
        .or_else(|| misread(port, case, text?))
}

/// What the face answers, in the form of the port's answers.
fn as_port(answer: Result<usize, PageError>) -> (u32, u64) {
    match answer {
        Ok(length) => (0, length as u64),
        Err(PageError::BadMark(place)) => (BAD_MARK, place as u64),
        Err(why) => (REFUSED + why.number(), 0),
    }
}

/// What is wrong with the file that the face gives, or with its length.
fn misgiven(case: &PageCase, file: &Filed) -> Option<String> {
    let (first, page, row) = (case.first, &case.page, case.row());
    let measured = ihex::page_file_length(first, page, &row);
    let given = ihex::write_page(first, page, &row);
    let found = given.as_ref().map(String::len).map_err(|&why| why);
    let (is, should) = ([measured, found].map(as_port), [length(file); 2]);
    if is != should {
        return Some(format!("face {is:?}, should be {should:?}"));
    }
    (given.ok().as_ref() != file.as_ref().ok()).then(|| "the face gives another file".into())
}

/// What is wrong with what the face writes into an output that is lent.
fn misput(case: &PageCase, file: &Filed) -> Option<String> {
    let mut out = output(case, file);
    let before = out.bytes().to_vec();
    let expected = written(file, before.len());
    let (first, page, row) = (case.first, &case.page, case.row());
    let is = as_port(ihex::write_page_into(first, page, &row, out.slice()));
    let should = (expected.code, expected.value);
    if is != should {
        return Some(format!("face {is:?}, should be {should:?}"));
    }
    out.unlike("output", &expected.held(&before))
}

/// What is wrong with what the face says of the marks: of each place, of the runs, and how many are marked.
fn misasked(case: &PageCase) -> Option<String> {
    let (row, places) = (case.row(), case.places());
    let marks = ihex::Marks::new(&row, places);
    let list = unpacked(&row, places);
    let wide = |run: Range<usize>| run.start as u64..run.end as u64;
    let such = |place| list.get(place) == Some(&1);
    if (0..places + 9).any(|place| marks.is_marked(place) != such(place)) {
        return Some("the face says another mark of a place".into());
    }
    if !marks.runs().map(wide).eq(runs(&list)) {
        return Some("the face finds other runs of marked places".into());
    }
    let count = list.iter().filter(|&&mark| mark == 1).count();
    (marks.count() != count).then(|| "the face counts other marked places".into())
}

/// What is wrong with what the face writes of a page, with the file when it is loaded, and with what the
/// face says of the marks.
fn face(case: &PageCase) -> Option<String> {
    let file = filed(RIGHT, case.first, &case.page, &case.row());
    let text = file.as_ref().ok();
    let by_face = |page: &mut [u8], marks: &mut [u8]| {
        let text = text.map_or("", String::as_str);
        match ihex::load(text, case.first, page, marks) {
            Ok(loaded) => {
                let records = loaded.data_records as u64;
                (0, records, loaded.start.is_some().into())
            }
            Err(why) => (REFUSED + why.number(), 0, 0),
        }
    };
    misasked(case)
        .or_else(|| misgiven(case, &file))
        .or_else(|| misput(case, &file))
        .or_else(|| unrestored("the face", case, text?, by_face))
}

/// What is compared with the port.
pub fn of_port<'a>(port: &'a dyn Port, plan: Plan) -> Vec<Kind<'a>> {
    let check = move |case: &PageCase| self::port(port, case);
    let wide = "pages of up to 65,537 places written";
    vec![
        by_chance("pages written", plan, 40, page, check),
        by_block("pages written, by rule", plan, BLOCKS, by_rule, check),
        by_block(wide, plan, blocks(30, plan), large, check),
    ]
}

/// What is compared with the face.
pub fn of_face(plan: Plan) -> Vec<Kind<'static>> {
    let wide = "face: pages of up to 65,537 places written";
    vec![
        by_chance("face: pages written", plan, 10, page, face),
        by_block("face: pages written, by rule", plan, BLOCKS, by_rule, face),
        by_block(wide, plan, blocks(8, plan), large, face),
    ]
}

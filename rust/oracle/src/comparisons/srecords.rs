//! S-records: the model against the port and the face, for a line, a record to be written, and a load.

use ihex::srec::{self, SRecord};
use ihex_sys::BAD_RECORD;

use crate::comparisons::lent::{Lent, Numbers};
use crate::comparisons::loads::{by_face_with, by_port};
use crate::comparisons::run::{blocks, by_block, by_chance, by_length, Kind, Plan};
use crate::comparisons::seen::{Answers, EntryPoint, Places};
use crate::comparisons::{lines, writes};
use crate::inputs::lines::LineCase;
use crate::inputs::loads::LoadCase;
use crate::inputs::srecords::{self as inputs, CountCase, SWriteCase};
use crate::models::loads::LoadAnswer;
use crate::models::srecords::{
    answer, answered, model, offender, offender_of, stated, write, Rules, RIGHT,
};
use crate::subjects::port::Port;
use crate::subjects::srecords::{answer as of_face_answer, made, unwritten};
use crate::subjects::the_crate::as_str;

/// What the reader of S-records is to be asked for.
static READER: EntryPoint = EntryPoint::new(
    "reader of S-records",
    &[
        0, 1, 2, 3, 5, 7, 8, 9, 257, 258, 259, 260, 261, 262, 263, 264, 265, 266,
    ],
);

/// What the writer is to be asked for.
static WRITER: Answers = Answers::new(
    "writer of S-records",
    &[0, 265, 267, 268, 271, 281, BAD_RECORD],
);

/// What the loader is to be asked for.
static LOADER: EntryPoint = EntryPoint::new(
    "loader of S-records",
    &[
        0, 257, 258, 259, 260, 261, 262, 263, 264, 265, 269, 272, 273, 276,
    ],
);

/// The codes of loads that rest on the wrap at 2^32.
static WRAPS: Answers = Answers::new("loader of S-records, across 2^32", &[273]);

/// The codes of loads of a record across FFFF, which no segment ends.
static ACROSS: Answers = Answers::new("loader of S-records, across FFFF", &[0, 273]);

/// The answers that are to be called for.
pub fn answers() -> [&'static Answers; 5] {
    [&READER.answers, &WRITER, &LOADER.answers, &WRAPS, &ACROSS]
}

/// The places that are to be called for.
pub fn places() -> [&'static Places; 2] {
    [&READER.places, &LOADER.places]
}

/// What is wrong with what the port answers to a line.
fn line_by_port(port: &dyn Port, case: &LineCase) -> Option<String> {
    let expected = answered(RIGHT, case);
    READER.answers.note(expected.code);
    READER.places.note(offender_of(&case.line));
    let line = Lent::holding(&case.line);
    let mut pool = Lent::new(case.pool);
    let before = pool.bytes().to_vec();
    let mut numbers = Numbers::default();
    let code = port.read_srecord(line.bytes(), pool.slice(), case.at, numbers.lend());
    lines::unlike(&expected, code, &numbers, &pool, &before, case.at)
        .or_else(|| line.unlike("line", &case.line))
}

/// What is wrong with what the face answers to a line.
fn line_by_face(case: &LineCase) -> Option<String> {
    let string = as_str(&case.line);
    let by_bytes = SRecord::from_record_bytes(&case.line);
    let by_string = SRecord::from_record_string(&string);
    let parsed = string.parse::<SRecord>();
    if by_bytes != by_string || by_string != parsed {
        return Some(format!("face {by_bytes:?}, {by_string:?}, {parsed:?}"));
    }
    let (is, should) = (of_face_answer(&by_string), answer(RIGHT, &case.line));
    if is != should {
        return Some(format!("face {is:?}, model {should:?}"));
    }
    let again = by_string.ok()?.to_record_string();
    let line = string.to_ascii_uppercase();
    (again.as_deref() != Ok(&line)).then(|| format!("face writes {again:?}"))
}

/// What is wrong with what the port writes of a record.
fn write_by_port(port: &dyn Port, case: &SWriteCase) -> Option<String> {
    let expected = write(RIGHT, case);
    WRITER.note(expected.code);
    let pool = Lent::holding(&case.pool);
    let mut out = Lent::new(case.out);
    let before = out.bytes().to_vec();
    let mut numbers = Numbers::default();
    let lent = numbers.lend().0;
    let code = port.to_srecord_string(&case.entry, pool.bytes(), out.slice(), lent);
    writes::unlike(&expected, code, &numbers, &out, &before)
        .or_else(|| pool.unlike("pool", &case.pool))
}

/// What is wrong with what the face writes of a record. It lends an output that any line fits.
fn write_by_face(case: &SWriteCase) -> Option<String> {
    let record = made(&case.entry, &case.pool)?;
    let most = ihex_sys::MAX_SRECORD_LINE;
    let with_room = SWriteCase {
        out: most,
        ..case.clone()
    };
    let should = write(RIGHT, &with_room);
    let is = match record.to_record_string() {
        Err(why) => (unwritten(&why), vec![0; most]),
        Ok(line) => {
            let mut held = line.clone().into_bytes();
            held.resize(most, 0);
            ((0, line.len() as u64), held)
        }
    };
    let should = ((should.code, should.value), should.held(&vec![0; most]));
    (is != should).then(|| format!("face {is:02X?}, model {should:02X?}"))
}

/// Notes the code of a load that a wrap, or a wrap that is not there, decides.
fn note_load(case: &LoadCase, code: u32) {
    LOADER.answers.note(code);
    if code == 258 {
        LOADER.places.note(offender(case));
    }
    if code != 0 && code != 273 {
        return;
    }
    let right = stated(RIGHT, case);
    let rests = |placing| stated(Rules { placing, ..RIGHT }, case) != right;
    if rests(|address, i| address + i) {
        WRAPS.note(code);
    }
    if rests(|address, i| address & !0xFFFF | (address + i) & 0xFFFF) {
        ACROSS.note(code);
    }
}

/// What is wrong with a load by the port.
fn load_by_port(port: &dyn Port, case: &LoadCase) -> Option<String> {
    let note = |answer: LoadAnswer| note_load(case, answer.code);
    by_port(case, model, note, |text, page, marks, places, numbers| {
        port.load_srecords(text, case.first, page, marks, places, numbers)
    })
}

/// What is wrong with a load by the face.
fn load_by_face(case: &LoadCase) -> Option<String> {
    by_face_with(case, model, |text, page, marks| {
        srec::load_srecords(text, case.first, page, marks)
    })
}

/// The lines that are compared with the port.
fn lines_of_port<'a>(port: &'a dyn Port, plan: Plan) -> Vec<Kind<'a>> {
    let line = move |case: &LineCase| line_by_port(port, case);
    let kind = |name, thousands, make| by_chance(name, plan, thousands, make, line);
    let rule = |name, blocks, make| by_block(name, plan, blocks, make, line);
    vec![
        rule(
            "every S-record line up to 3 characters, and of an S and 3 more",
            1,
            inputs::every_short as fn(u64, &mut _) -> _,
        ),
        rule(
            "S-record lines at the limits of count, data and address",
            inputs::LIMITS,
            inputs::at_limits,
        ),
        rule(
            "S-record lines of 0 to 14 and 508 to 516 digits",
            inputs::SIZES,
            inputs::sized,
        ),
        rule(
            "good S-record lines, each byte changed to all 256",
            blocks(12, plan),
            inputs::changed,
        ),
        kind("good S-record lines", 40, inputs::good_line),
        kind("S-record lines by chance", 150, inputs::random_line),
        kind("damaged S-record lines", 200, inputs::damaged_line),
        kind("S-record lines with narrow pools", 60, inputs::pooled_line),
        by_length("S-record lines of 519 to 70,000 bytes", plan, move |case| {
            line_by_port(port, &case.srecords().0)
        }),
    ]
}

/// The loads that are compared with the port.
fn loads_of_port<'a>(port: &'a dyn Port, plan: Plan) -> Vec<Kind<'a>> {
    let load = move |case: &LoadCase| load_by_port(port, case);
    vec![
        by_block(
            "loads of S-records by rule",
            plan,
            inputs::LOADS,
            inputs::loads_by_rule,
            load,
        ),
        by_chance("loads of S-records", plan, 60, inputs::load, load),
        by_block(
            "loads of up to 65,537 S-records and a count",
            plan,
            1,
            inputs::counts,
            move |case: &CountCase| load_by_port(port, &case.load()),
        ),
        by_length(
            "loads of S-record lines of 519 to 70,000 bytes",
            plan,
            move |case| load_by_port(port, &case.srecords().1),
        ),
    ]
}

/// What is compared with the port.
pub fn of_port<'a>(port: &'a dyn Port, plan: Plan) -> Vec<Kind<'a>> {
    let write = move |case: &SWriteCase| write_by_port(port, case);
    let mut kinds = lines_of_port(port, plan);
    kinds.push(by_block(
        "S-records written by rule",
        plan,
        inputs::WRITES,
        inputs::writes_by_rule,
        write,
    ));
    kinds.push(by_chance(
        "S-records written",
        plan,
        100,
        inputs::write,
        write,
    ));
    kinds.extend(loads_of_port(port, plan));
    kinds
}

/// What is compared with the face.
pub fn of_face(plan: Plan) -> Vec<Kind<'static>> {
    let kind = |name, thousands, make| by_chance(name, plan, thousands, make, line_by_face);
    vec![
        kind("face: good S-record lines", 20, inputs::good_line),
        kind("face: S-record lines by chance", 40, inputs::random_line),
        kind("face: damaged S-record lines", 60, inputs::damaged_line),
        by_chance(
            "face: S-records written",
            plan,
            30,
            inputs::write,
            write_by_face,
        ),
        by_chance(
            "face: loads of S-records",
            plan,
            20,
            inputs::load,
            load_by_face,
        ),
        by_block(
            "face: loads of S-records by rule",
            plan,
            inputs::LOADS,
            inputs::loads_by_rule,
            load_by_face,
        ),
    ]
}

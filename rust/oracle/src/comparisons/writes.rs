//! One record and lists of them: the crate's writer against the port's and the face's.

use ihex_sys::BAD_RECORD;

use crate::comparisons::lent::{Lent, Numbers};
use crate::comparisons::run::{by_chance, Kind, Plan};
use crate::comparisons::seen::Answers;
use crate::inputs::writes::{self, ObjectCase, RecordCase};
use crate::models::writes::{object, record, Written};
use crate::subjects::face::by_face;
use crate::subjects::port::Port;
use crate::subjects::the_crate::by_crate;

/// What the record writer and the object writer are to be asked for.
pub static SEEN: [Answers; 2] = [
    Answers::new("record writer", &[0, 267, 268, 271, BAD_RECORD]),
    Answers::new("object writer", &[0, 267, 268, 269, 270, 271, BAD_RECORD]),
];

/// What is wrong with the port's answer, if it should be this one. The output held `before`.
pub fn unlike(
    expected: &Written,
    code: u32,
    numbers: &Numbers,
    out: &Lent,
    before: &[u8],
) -> Option<String> {
    let [value, rest @ ..] = numbers.values();
    let untouched = Numbers::default();
    if !numbers.is_guarded() || rest != untouched.values()[1..] {
        return Some("numbers beside the lent one were written".into());
    }
    let (is, should) = ((code, value), (expected.code, expected.value));
    if is != should {
        return Some(format!("port {is:?}, should be {should:?}"));
    }
    out.unlike("output", &expected.held(before))
}

fn record_by_port(port: &dyn Port, case: &RecordCase) -> Option<String> {
    let expected = record(case);
    SEEN[0].note(expected.code);
    let pool = Lent::holding(&case.pool);
    let mut out = Lent::new(case.out);
    let before = out.bytes().to_vec();
    let mut numbers = Numbers::default();
    let code = port.to_record_string(&case.entry, pool.bytes(), out.slice(), numbers.lend().0);
    unlike(&expected, code, &numbers, &out, &before).or_else(|| pool.unlike("pool", &case.pool))
}

fn record_by_face(case: &RecordCase) -> Option<String> {
    let is = by_face::made(&case.entry, &case.pool)?;
    let should = by_crate::made(&case.entry, &case.pool)?;
    let (is, should) = (is.to_record_string(), should.to_record_string());
    differing(is, should)
}

fn differing(
    is: Result<String, ihex::WriterError>,
    should: Result<String, original::WriterError>,
) -> Option<String> {
    let texts = |e: &dyn std::error::Error| (e.to_string(), format!("{e:?}"));
    let is = is.map_err(|e| (by_face::unwritten(&e), texts(&e)));
    let should = should.map_err(|e| (by_crate::unwritten(&e), texts(&e)));
    (is != should).then(|| format!("face {is:?}, crate {should:?}"))
}

fn object_by_port(port: &dyn Port, case: &ObjectCase) -> Option<String> {
    let expected = object(case);
    SEEN[1].note(expected.code);
    let mut list = Vec::new();
    for entry in &case.entries {
        let mut bytes =
            ihex_sys::entry(entry.kind, entry.number, entry.second, entry.at, entry.len);
        bytes[1] = case.spare;
        list.extend(bytes);
    }
    list.resize(list.len() + case.tail, case.spare);
    let lent = Lent::holding(&list);
    let pool = Lent::holding(&case.pool);
    let mut out = Lent::new(case.out);
    let before = out.bytes().to_vec();
    let mut numbers = Numbers::default();
    let code = port.create_object_file_representation(
        lent.bytes(),
        pool.bytes(),
        out.slice(),
        numbers.lend().0,
    );
    unlike(&expected, code, &numbers, &out, &before)
        .or_else(|| pool.unlike("pool", &case.pool))
        .or_else(|| lent.unlike("list", &list))
}

fn object_by_face(case: &ObjectCase) -> Option<String> {
    let made = |entry| by_face::made(entry, &case.pool);
    let is: Vec<_> = case.entries.iter().filter_map(made).collect();
    let made = |entry| by_crate::made(entry, &case.pool);
    let should: Vec<_> = case.entries.iter().filter_map(made).collect();
    differing(
        ihex::create_object_file_representation(&is),
        original::create_object_file_representation(&should),
    )
}

/// What is compared with the port.
pub fn of_port<'a>(port: &'a dyn Port, plan: Plan) -> Vec<Kind<'a>> {
    let record = move |case: &RecordCase| record_by_port(port, case);
    let object = move |case: &ObjectCase| object_by_port(port, case);
    vec![
        by_chance("records written", plan, 150, writes::record, record),
        by_chance("lists written", plan, 60, writes::object, object),
    ]
}

/// What is compared with the face.
pub fn of_face(plan: Plan) -> Vec<Kind<'static>> {
    vec![
        by_chance(
            "face: records written",
            plan,
            30,
            writes::record,
            record_by_face,
        ),
        by_chance(
            "face: lists written",
            plan,
            20,
            writes::object,
            object_by_face,
        ),
    ]
}

//! The start that a load tells: none, one of each kind, the same twice, and two that differ.

use ihex::srec::load_srecords;
use ihex::{load, write_page, LoadError, Loaded, Start};

const END: &str = ":00000001FF";
const DATA: &str = ":010002007786\n";
/// 1000:0000, and the same place as 0FFF:0010 and as a linear address.
const FAR: &str = ":0400000310000000E9";
const NEAR: &str = ":040000030FFF0010DB";
const FLAT: &str = ":0400000500010000F6";
/// The digits of the first as a linear address.
const DIGITS: &str = ":0400000510000000E7";

const AT_FAR: Start = Start::Segment { cs: 0x1000, ip: 0 };

/// What a text comes to, over a page and marks that a refusal leaves as they were.
fn loaded(text: &str) -> Result<Loaded, LoadError> {
    let (mut page, mut marks) = ([0xEE; 4], [0x5C]);
    let answer = load(text, 0, &mut page, &mut marks);
    if answer.is_err() {
        assert_eq!((page, marks), ([0xEE; 4], [0x5C]), "{text:?}");
    }
    answer
}

/// The start that these lines state before an end record.
fn start_of(lines: &[&str]) -> Result<Option<Start>, LoadError> {
    loaded(&[lines, &[END]].concat().join("\n")).map(|loaded| loaded.start)
}

fn conflict(line: usize) -> LoadError {
    LoadError::StartConflict { line }
}

#[test]
fn starts_are_told() {
    assert_eq!(start_of(&[]), Ok(None));
    assert_eq!(start_of(&[DATA]), Ok(None));
    assert_eq!(start_of(&[FAR]), Ok(Some(AT_FAR)));
    assert_eq!(start_of(&[DATA, FLAT]), Ok(Some(Start::Linear(0x1_0000))));
    let near = Start::Segment {
        cs: 0xFFF,
        ip: 0x10,
    };
    assert_eq!(start_of(&[NEAR, DATA]), Ok(Some(near)));
    // 0 is a start.
    let zero = Start::Segment { cs: 0, ip: 0 };
    assert_eq!(start_of(&[":0400000300000000F9"]), Ok(Some(zero)));
    let flat_zero = Some(Start::Linear(0));
    assert_eq!(start_of(&[":0400000500000000F7"]), Ok(flat_zero));
    // It does not change what is counted.
    let both = loaded(&[FAR, "\n", DATA, FAR, "\n", END].concat()).unwrap();
    assert_eq!((both.data_records, both.start), (1, Some(AT_FAR)));
}

#[test]
fn the_same_start_is_accepted_twice() {
    assert_eq!(start_of(&[FAR, FAR]), Ok(Some(AT_FAR)));
    assert_eq!(start_of(&[FAR, "", &FAR.to_lowercase()]), Ok(Some(AT_FAR)));
    let letters = ":04000005ABCDEF127E";
    let small = letters.to_lowercase();
    let stated = Ok(Some(Start::Linear(0xABCD_EF12)));
    assert_eq!(start_of(&[letters, &small]), stated);
    assert_eq!(start_of(&[&small, letters, &small]), stated);
    // The address field of its record is not part of it.
    assert_eq!(start_of(&[letters, ":04FACE05ABCDEF12B6"]), stated);
}

#[test]
fn starts_that_differ_are_refused() {
    let all = [FAR, NEAR, FLAT, DIGITS, ":0400000310000001E8"];
    for first in all {
        for second in all.iter().filter(|second| **second != first) {
            assert_eq!(start_of(&[first, second]), Err(conflict(2)));
            let lines = ["", first, first, DATA, second, first];
            // The data line ends in a line end of its own.
            assert_eq!(start_of(&lines), Err(conflict(6)));
        }
    }
    assert_eq!(
        conflict(2).to_string(),
        "line 2: start record states another start than the first one"
    );
    assert_eq!((conflict(7).number(), conflict(7).line()), (21, Some(7)));
    assert_eq!(conflict(7).column(), None);
}

#[test]
fn nothing_after_the_end_record_is_read() {
    assert_eq!(start_of(&[END, FAR]), Ok(None));
    assert_eq!(start_of(&[FAR, END, NEAR]), Ok(Some(AT_FAR)));
    assert_eq!(start_of(&[FAR, END, FAR, FLAT]), Ok(Some(AT_FAR)));
}

#[test]
fn refusals_come_in_the_order_of_the_text() {
    let number = |lines: &[&str]| start_of(lines).map_err(|why| (why.number(), why.line()));
    let (outside, bad_sum) = (":010004007784\n", ":00000001FE");
    for (line, said) in [(outside, 17), (bad_sum, 6), ("x", 1)] {
        let line = line.trim_end();
        assert_eq!(number(&[FAR, NEAR, line]), Err((21, Some(2))));
        assert_eq!(number(&[FAR, line, NEAR]), Err((said, Some(2))));
        assert_eq!(number(&[line, FAR, NEAR]), Err((said, Some(1))));
    }
    // Without an end record a start that differs is told, and the same start is not enough.
    assert_eq!(loaded(&[FAR, NEAR].join("\n")), Err(conflict(2)));
    let without_end = loaded(&[FAR, FAR].join("\n"));
    assert_eq!(without_end, Err(LoadError::MissingEndOfFileRecord));
}

#[test]
fn the_end_of_s_records_is_their_start() {
    for (end, address) in [
        ("S9030000FC", 0),
        ("S903FFFFFE", 0xFFFF),
        ("S804000000FB", 0),
        ("S8041234565F", 0x12_3456),
        ("S70500000000FA", 0),
        ("S70512345678e6\nS9030000FC", 0x1234_5678),
    ] {
        for data in ["", "S104000011EA\n", "S3060000000011E8\n"] {
            let (mut page, mut marks) = ([0; 4], [0]);
            let text = format!("{data}{end}");
            let loaded = load_srecords(&text, 0, &mut page, &mut marks).unwrap();
            assert_eq!(loaded.start, Some(Start::Linear(address)), "{text:?}");
        }
    }
}

#[test]
fn a_written_page_states_no_start() {
    let (mut page, mut marks) = ([0; 4], [0]);
    let text = [DATA, FAR, "\n", END].concat();
    let first = load(&text, 0, &mut page, &mut marks).unwrap();
    let file = write_page(0, &page, &marks).unwrap();
    let again = load(&file, 0, &mut page, &mut marks).unwrap();
    assert_eq!((first.start, again.start), (Some(AT_FAR), None));
    assert_eq!(first.data_records, again.data_records);
}

#[test]
fn starts_print() {
    assert_eq!(AT_FAR.to_string(), "1000:0000");
    assert_eq!(
        Start::Segment { cs: 1, ip: 0xFACE }.to_string(),
        "0001:FACE"
    );
    assert_eq!(Start::Linear(0xCD).to_string(), "000000CD");
}

/// Two dumps joined: what stands in the first before its end record, a line that sets the base back, and the second.
fn joined(first: &[&str], second: &[&str]) -> Result<Option<Start>, LoadError> {
    start_of(&[first, &[":020000020000FC"], second].concat())
}

#[test]
fn joined_dumps_have_the_first_start() {
    assert_eq!(joined(&[], &[]), Ok(None));
    assert_eq!(joined(&[FAR], &[]), Ok(Some(AT_FAR)));
    assert_eq!(joined(&[], &["", FAR]), Ok(Some(AT_FAR)));
    assert_eq!(joined(&[FAR], &[FAR, FAR]), Ok(Some(AT_FAR)));
    assert_eq!(joined(&[FAR], &["", NEAR]), Err(conflict(4)));
    assert_eq!(joined(&[FAR, FAR], &[FAR, FLAT]), Err(conflict(5)));
}

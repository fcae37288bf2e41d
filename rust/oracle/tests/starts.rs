//! Starts: the model answers as the document says, and the loads by rule call for each two kinds of start.

use std::collections::BTreeSet;

use oracle::inputs::chance::Chance;
use oracle::inputs::loads::LoadCase;
use oracle::inputs::starts::{by_rule, BLOCKS};
use oracle::models::loads::{model, LoadAnswer};
use oracle::models::srecords;
use oracle::subjects::the_crate::at_hand;

const FAR: &str = ":0400000310000000E9";
const NEAR: &str = ":040000030FFF0010DB";
const FLAT: &str = ":0400000500010000F6";
const END: &str = ":00000001FF";

fn case(lines: &[&str]) -> LoadCase {
    LoadCase::new(lines.join("\n").into_bytes(), 0, 8, 0)
}

/// What the model answers to these lines, in a window of 8 places.
fn told(lines: &[&str]) -> LoadAnswer {
    model(&case(lines), &mut [0; 8], &mut [0])
}

#[test]
fn the_model_tells_the_start_that_the_document_says() {
    if !at_hand("starts") {
        return;
    }
    let far = LoadAnswer::accepted(0, Some((3, 0x1000, 0)));
    assert_eq!(told(&[END]), LoadAnswer::accepted(0, None));
    assert_eq!(told(&[FAR, END]), far);
    assert_eq!(told(&[FAR, &FAR.to_lowercase(), END, NEAR]), far);
    let flat = LoadAnswer::accepted(0, Some((5, 0x1_0000, 0)));
    assert_eq!(told(&[FLAT, "", FLAT, END]), flat);
    let conflict = |line| LoadAnswer::refused(21, 0, 0, line);
    assert_eq!(told(&[FAR, NEAR, END]), conflict(2));
    assert_eq!(told(&[FAR, FLAT, END]), conflict(2));
    assert_eq!(told(&["", FLAT, FLAT, FAR]), conflict(4));
    let outside = ":010008007780";
    let refused = LoadAnswer::refused(17, 8, 0, 2);
    assert_eq!(told(&[FAR, outside, NEAR, END]), refused);
    assert_eq!(told(&[FAR, NEAR, outside, END]), conflict(2));
}

#[test]
fn the_model_takes_the_end_of_s_records_for_the_start() {
    for (end, address) in [("S9030000FC", 0), ("S70512345678E6", 0x1234_5678)] {
        let is = srecords::model(&case(&[end]), &mut [0; 8], &mut [0]);
        assert_eq!(is, LoadAnswer::accepted(0, Some((5, address, 0))));
    }
}

#[test]
fn loads_by_rule_have_each_answer() {
    if !at_hand("starts") {
        return;
    }
    let cases = (0..BLOCKS).flat_map(|block| by_rule(block, &mut Chance::new(1)));
    let told = cases.map(|case| model(&case, &mut [0; 8], &mut [0]));
    let seen: BTreeSet<(u32, u8)> = told.map(|answer| (answer.code, answer.start)).collect();
    let accepted = [(0, 0), (0, 3), (0, 5)];
    let refused = [1, 6, 13, 17, 21].map(|number| (256 + number, 0));
    let all: BTreeSet<(u32, u8)> = accepted.into_iter().chain(refused).collect();
    assert_eq!(seen, all);
}

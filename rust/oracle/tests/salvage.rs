//! Salvage: the model saves as the document says, the port and the face save as the model does, and what can be
//! relied on finds by itself each port that keeps what cannot.

mod right;

use oracle::comparisons::run::Kind;
use oracle::comparisons::salvage::{of_face, of_port, relied_on};
use oracle::models::salvage::{placements, saved, stranger_among, Entry, Saved, RIGHT};
use oracle::subjects::port::Real;
use oracle::subjects::the_crate::at_hand;
use oracle::wrong::salvage::{bases, right};
use right::{are_right, PLAN};

const END: &str = ":00000001FF";
const ELEVEN: &str = ":0100000011EE";
const START: &str = ":04000005000000CD2A";
const LINEAR: &str = ":020000040000FA";

/// The lines, with an LF after each.
fn text(lines: &[&str]) -> Vec<u8> {
    lines
        .iter()
        .flat_map(|line| [line, "\n"].concat().into_bytes())
        .collect()
}

/// The text of these lines comes to these lines, and to these entries: why, the values, the line.
fn comes_to(capture: &[&str], kept: &[&str], list: &[(u32, u16, u16, u64)]) {
    let entry = |&(why, a, b, line): &_| Entry { why, a, b, line };
    let should = Saved {
        lines: kept.iter().map(|line| text(&[line])).collect(),
        list: list.iter().map(entry).collect(),
    };
    assert_eq!(saved(RIGHT, &text(capture)), should);
}

#[test]
fn the_model_saves_as_the_document_says() {
    if !at_hand("salvage") {
        return;
    }
    let added = (13, 0, 0, 0);
    comes_to(&[], &[END], &[added]);
    comes_to(
        &["x", ELEVEN, ELEVEN, END],
        &[END],
        &[(1, 0, 0, 1), (0, 0, 0, 2), (0, 0, 0, 3)],
    );
    comes_to(
        &[ELEVEN, "", ":00000001FE", ELEVEN, LINEAR, ELEVEN, END],
        &[ELEVEN, LINEAR, ELEVEN, END],
        &[(6, 0xFF, 0xFE, 3), (0, 0, 0, 4)],
    );
    comes_to(&[ELEVEN, "x"], &[ELEVEN, END], &[(1, 0, 0, 2), added]);
    comes_to(&["x", START, END], &[START, END], &[(1, 0, 0, 1)]);
    comes_to(
        &["x", ":0000000000", END],
        &[END],
        &[(1, 0, 0, 1), (0, 0, 0, 2)],
    );
    comes_to(&[":0100000011ee", ":00123401b9", "x"], &[ELEVEN, END], &[]);
    comes_to(&["", ":G", END], &[END], &[(2, 1, 0, 2)]);
    comes_to(
        &[START, ":04000005000000CE29", END],
        &[START, ":04000005000000CE29", END],
        &[],
    );
}

#[test]
fn what_is_stated_is_compared_in_order() {
    let (one, two) = ((0, 0x11), (0x12005, 0x77));
    assert_eq!(stranger_among(&[one, two], &[two, one, two]), None);
    assert_eq!(stranger_among(&[two, one], &[one, two]), Some(one));
    assert_eq!(stranger_among(&[one, one], &[one]), Some(one));
    if at_hand("salvage") {
        let capture = [
            ELEVEN,
            ":020000021200EA",
            ":010005007783",
            END,
            ":0100050011E9",
        ];
        assert_eq!(placements(&text(&capture)), [one, two]);
    }
}

#[test]
fn the_port_and_the_face_are_right() {
    if at_hand("salvage") {
        are_right(of_port(&Real, PLAN));
        are_right(of_face(PLAN));
    }
}

#[test]
fn a_port_by_the_right_rules_is_right() {
    if at_hand("salvage") {
        are_right(of_port(right().as_ref(), PLAN));
    }
}

#[test]
fn what_can_be_relied_on_finds_what_cannot() {
    if !at_hand("salvage") {
        return;
    }
    for (name, port) in bases() {
        let found = |kind: &Kind| kind().smallest.is_some();
        assert!(relied_on(port.as_ref(), PLAN).iter().any(found), "{name}");
    }
}

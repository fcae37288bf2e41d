//! One byte of a text: the model answers as the header says, and the port and the face answer as the model does.

mod right;

use oracle::comparisons::asks::{of_face, of_port};
use oracle::inputs::asks::text;
use oracle::inputs::chance::Chance;
use oracle::models::asks::{answered, telling, walked, AskAnswer, RIGHT};
use oracle::subjects::port::Real;
use oracle::subjects::the_crate::at_hand;
use oracle::wrong::asks::right;
use right::{are_right, PLAN};

const END: &str = ":00000001FF";
const ELEVEN: &str = ":0100000011EE";
/// AA at offset FFFF, and BB after it.
const ACROSS: &str = ":02FFFF00AABB9B";
const NONE: AskAnswer = AskAnswer::NOT_STATED;

/// What the model answers to these lines at an address.
fn told(lines: &[&str], address: u32) -> AskAnswer {
    let walk = walked(RIGHT, lines.join("\n").as_bytes());
    answered(RIGHT, &walk, address)
}

#[test]
fn the_model_answers_as_the_header_says() {
    if !at_hand("asks") {
        return;
    }
    let byte = AskAnswer::stated;
    assert_eq!(told(&[ELEVEN, END], 0), byte(0x11));
    assert_eq!(told(&[ELEVEN, END], 1), NONE);
    assert_eq!(told(&[ELEVEN, ":0100000022DD", END], 0), byte(0x22));
    assert_eq!(told(&[END, ELEVEN, "x"], 0), NONE);
    let refused = AskAnswer::refused(6, 0xFF, 0xFE, 2);
    assert_eq!(told(&[ELEVEN, ":00000001FE"], 5), refused);
    assert_eq!(told(&[ELEVEN, ":00000001FE"], 0), refused);
    assert_eq!(told(&[ELEVEN, ""], 0), AskAnswer::refused(13, 0, 0, 0));
    let starts = [":04000005000000CD2A", ":04000005000000CE29"];
    let conflict = AskAnswer::refused(21, 0, 0, 3);
    assert_eq!(told(&[ELEVEN, starts[0], starts[1], END], 0), conflict);
    assert_eq!(told(&[ELEVEN, starts[0], starts[0], END], 0), byte(0x11));
}

#[test]
fn the_model_places_as_the_header_says() {
    if !at_hand("asks") {
        return;
    }
    // The lines before the record, and where its two bytes lie.
    let bases: [(&[&str], u32, u32); 5] = [
        (&[], 0xFFFF, 0),
        (&[":02000002FFFFFE"], 0x10_FFEF, 0xF_FFF0),
        (&[":020000040000FA"], 0xFFFF, 0x1_0000),
        (&[":02000004FFFFFC"], u32::MAX, 0),
        (&[":02000004FFFFFC", ":020000020001FB"], 0x1_000F, 0x10),
    ];
    for (lines, first, second) in bases {
        let lines = [lines, &[ACROSS, END]].concat();
        let wanted = [AskAnswer::stated(0xAA), AskAnswer::stated(0xBB)];
        assert_eq!([first, second].map(|at| told(&lines, at)), wanted);
        for other in [first.wrapping_sub(1), second.wrapping_add(1)] {
            assert_eq!(told(&lines, other), NONE);
        }
    }
}

#[test]
fn a_text_is_asked_at_its_bytes_and_about_them() {
    if !at_hand("asks") {
        return;
    }
    let ends = [0, 1, 0xFFFE, 0xFFFF, 0x1_0000, u32::MAX - 1, u32::MAX];
    let asked: Vec<u32> = telling(b"").into_iter().collect();
    assert_eq!(asked, ends);
    // Also after the end, in a segment of its own.
    let text = [END, ":020000021200EA", ":010005007783"].join("\n");
    let asked = telling(text.as_bytes());
    let more = [0x12000, 0x12004, 0x12005, 0x12006, 0x21FFF, 0x22000];
    assert!(more
        .iter()
        .chain(&ends)
        .all(|address| asked.contains(address)));
}

/// Of the texts by chance, many are accepted and state a byte more than once.
#[test]
fn texts_state_bytes_more_than_once() {
    if !at_hand("asks") {
        return;
    }
    let mut chance = Chance::new(3);
    let (mut accepted, mut twice) = (0, 0);
    for _ in 0..1000 {
        let walk = walked(RIGHT, &text(&mut chance).0);
        accepted += usize::from(walk.refused.is_none());
        let mut addresses: Vec<u64> = walk.bytes.iter().map(|(address, _)| *address).collect();
        addresses.sort_unstable();
        twice += usize::from(addresses.windows(2).any(|two| two[0] == two[1]));
    }
    assert!(accepted > 500 && accepted < 900, "{accepted}");
    assert!(twice > 200, "{twice}");
}

#[test]
fn the_port_and_the_face_are_right() {
    if at_hand("asks") {
        are_right(of_port(&Real, PLAN));
        are_right(of_face(PLAN));
    }
}

#[test]
fn a_port_by_the_right_rules_is_right() {
    if at_hand("asks") {
        are_right(of_port(right().as_ref(), PLAN));
    }
}

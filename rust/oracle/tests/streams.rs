//! Lines on which dump after dump comes: the model answers as the rule says, the port and the face answer as the model does, and every
//! wrong listener is found.

mod right;

use ihex_sys::{COLOR_BROKEN, COLOR_FIRST, COLOR_STALE};
use oracle::comparisons::streams::{of_face, of_port};
use oracle::inputs::chance::Chance;
use oracle::inputs::streams::{stream, stream_everywhere, Piece, StreamCase};
use oracle::inputs::tables::Kind;
use oracle::models::streams::{model, Event};
use oracle::subjects::port::Real;
use oracle::subjects::the_crate::at_hand;
use oracle::subjects::told::Light;
use oracle::wrong::streams as wrong;
use right::{are_right, PLAN};

const END: &str = ":00000001FF\n";
/// A data record of one byte, at place 0 of a page from 0 on.
const BYTE: &str = ":0100000001FE\n";

/// A listener for a page of four places, and these pieces. One that is "pause" is a pause.
fn case(known: bool, pieces: &[&str]) -> StreamCase {
    let piece = |piece: &&str| match *piece {
        "pause" => Piece::Pause,
        text => Piece::Chunk(text.into()),
    };
    StreamCase {
        light: Light {
            first: 0,
            length: 4,
            high: 0,
            low: 0,
        },
        kind: Kind::Intel,
        known,
        old: 0xEE,
        pieces: pieces.iter().map(piece).collect(),
    }
}

/// What the model says: a refusal's number with its line, how many records a dump has, "passed" or "quiet".
fn brief(case: &StreamCase) -> Vec<String> {
    let word = |(_, event)| match event {
        Event::Passed => "passed".to_string(),
        Event::Quiet => "quiet".to_string(),
        Event::Decided { load, .. } if load.code == 0 => format!("{} records", load.values[0]),
        Event::Decided { load, .. } => format!("{} at {}", load.code - 256, load.line),
    };
    model(case).into_iter().map(word).collect()
}

#[test]
fn the_model_skips_as_the_rule_says() {
    if !at_hand("streams") {
        return;
    }
    let known = |pieces: &[&str]| brief(&case(true, pieces));
    assert_eq!(known(&["x\n", END]), ["1 at 1", "passed"]);
    assert_eq!(known(&["x\n", BYTE, END]), ["1 at 1", "passed"]);
    let should = ["1 at 1", "passed", "1 records"];
    assert_eq!(known(&["x\n", END, BYTE, END]), should);
    let base = ":020000040000FA\n";
    assert_eq!(known(&["x\n", base, BYTE, END]), ["1 at 1", "passed"]);
    let damaged = [BYTE, ":00000001FE\n", BYTE, END, BYTE, END];
    assert_eq!(known(&damaged), ["6 at 2", "passed", "1 records"]);
    // At an unknown place, and after a pause there.
    let unknown = |pieces: &[&str]| brief(&case(false, pieces));
    assert_eq!(unknown(&[BYTE, END, BYTE, END]), ["passed", "1 records"]);
    assert_eq!(unknown(&[BYTE, "pause", BYTE, END]), ["quiet", "1 records"]);
    assert_eq!(
        known(&["x\n", "pause", END]),
        ["1 at 1", "quiet", "0 records"]
    );
}

#[test]
fn the_model_ends_dumps_as_the_rule_says() {
    if !at_hand("streams") {
        return;
    }
    let known = |pieces: &[&str]| brief(&case(true, pieces));
    assert_eq!(known(&[BYTE]), [""; 0]);
    assert_eq!(known(&[BYTE, "pause"]), ["13 at 0"]);
    assert_eq!(known(&[BYTE, "pause", "pause"]), ["13 at 0", "quiet"]);
    assert_eq!(known(&[BYTE, ":00000001FF"]), [""; 0]);
    assert_eq!(known(&[BYTE, ":00000001FF", "pause"]), ["1 records"]);
    assert_eq!(known(&[":00000001FF\r", "pause", "\n"]), ["2 at 1"]);
    assert_eq!(known(&[":00000001FF\r", "\n"]), ["0 records"]);
    // Empty lines before a dump belong to none; after its first line they are counted.
    assert_eq!(known(&["\n\r", "\n\n", BYTE, "\n\nx\n"]), ["1 at 4"]);
    assert_eq!(
        known(&["\n\r\n", "pause", "\r", "pause"]),
        ["quiet", "quiet"]
    );
    assert_eq!(known(&["\r\r\n"]), ["1 at 1"]);
}

#[test]
fn the_model_commits_and_shows_what_was_decided() {
    if !at_hand("streams") {
        return;
    }
    let both = ["\n:020000000505F4\n", END];
    let one = [":0100000005FA\n", END];
    let events = model(&case(true, &[both[0], both[1], "x\n", END, one[0], one[1]]));
    let decided = |n: usize| match &events[n] {
        (
            at,
            Event::Decided {
                color,
                known,
                page,
                marks,
                ..
            },
        ) => (*at, *color, *known, page.clone(), marks.clone()),
        other => panic!("{other:?}"),
    };
    let page = vec![5, 5, 0xEE, 0xEE];
    assert_eq!(decided(0), (29, COLOR_FIRST, 0x505, page.clone(), vec![3]));
    assert_eq!(decided(1), (31, COLOR_BROKEN, 0x505, page.clone(), vec![3]));
    assert_eq!(events[2], (43, Event::Passed));
    assert_eq!(decided(3), (69, COLOR_STALE, 0x505, page, vec![1]));
    assert_eq!(events.len(), 4);
}

/// Streams have what they are said to have.
#[test]
fn streams_have_noise_cuts_and_pauses() {
    let mut chance = Chance::new(3);
    let cases: Vec<StreamCase> = (0..3000).map(|_| stream(&mut chance)).collect();
    let some = |such: &dyn Fn(&[Piece]) -> bool| {
        let found = cases.iter().filter(|case| case.pieces.windows(2).any(such));
        assert!(found.count() > 3);
    };
    let ends =
        |piece: &Piece, with: &[u8]| matches!(piece, Piece::Chunk(bytes) if bytes.ends_with(with));
    let begins = |piece: &Piece, with: &[u8]| matches!(piece, Piece::Chunk(bytes) if bytes.starts_with(with));
    some(&|two| two == [Piece::Pause, Piece::Pause]);
    some(&|two| ends(&two[0], b"\r") && begins(&two[1], b"\n"));
    some(&|two| ends(&two[0], b"\r") && two[1] == Piece::Pause);
    some(&|two| two[1] == Piece::Pause && !ends(&two[0], b"\n"));
    some(&|two| two[0] == Piece::Chunk(vec![]));
    some(&|two| begins(&two[1], b"\n:") || begins(&two[1], b"\n\r\n"));
    assert!(cases.iter().any(|case| case.light.length == 65_536));
    for known in [false, true] {
        for kind in [Kind::Intel, Kind::SRecords] {
            assert!(cases
                .iter()
                .any(|case| case.known == known && case.kind == kind));
        }
    }
    let window = |light: Light| u64::from(light.first) + light.length as u64;
    assert!(cases.iter().all(|case| window(case.light) <= 1 << 32));
    assert!(cases.iter().any(|case| window(case.light) == 1 << 32));
}

#[test]
fn a_stream_is_cut_at_every_place() {
    let mut chance = Chance::new(5);
    for _ in 0..20 {
        let bytes = |case: &StreamCase| -> Vec<u8> {
            let chunks = case.pieces.iter().map(|piece| match piece {
                Piece::Chunk(bytes) => &bytes[..],
                Piece::Pause => &[],
            });
            chunks.collect::<Vec<_>>().concat()
        };
        let cases = stream_everywhere(&mut chance);
        let whole = bytes(&cases[0]);
        assert_eq!(cases.len(), whole.len() + 1);
        for (place, case) in cases.iter().enumerate() {
            assert_eq!(case.pieces[0], Piece::Chunk(whole[..place].to_vec()));
            assert_eq!(bytes(case), whole);
        }
    }
}

#[test]
fn the_port_is_right() {
    if at_hand("streams") {
        are_right(of_port(&Real, PLAN));
    }
}

#[test]
fn the_face_is_right() {
    if at_hand("streams") {
        are_right(of_face(PLAN));
    }
}

#[test]
fn every_wrong_listener_is_found() {
    if !at_hand("streams") {
        return;
    }
    let missed: Vec<&str> = wrong::all()
        .into_iter()
        .filter(|(_, port)| {
            of_port(&**port, PLAN)
                .iter()
                .all(|kind| kind().smallest.is_none())
        })
        .map(|(name, _)| name)
        .collect();
    assert!(missed.is_empty(), "{missed:#?}");
}

//! The inputs of the chunk reader are what they are said to be, and a reader that is wrong is told with a
//! small one.

use ihex_sys::CARRY;
use oracle::comparisons::all::of_chunks;
use oracle::comparisons::dumps;
use oracle::comparisons::run::Plan;
use oracle::inputs::chance::Chance;
use oracle::inputs::chunks::ChunkCase;
use oracle::inputs::cuts::{by_hand, cut_everywhere, cut_text};
use oracle::inputs::dumps::cut_dumps;
use oracle::inputs::long::{long, LENGTHS};
use oracle::subjects::face::RealFace;
use oracle::subjects::port::Real;
use oracle::subjects::the_crate::at_hand;
use oracle::wrong;

fn cases(make: fn(&mut Chance) -> ChunkCase) -> Vec<ChunkCase> {
    let mut chance = Chance::new(3);
    (0..1000).map(|_| make(&mut chance)).collect()
}

/// Whether a chunk and the next, in one of the cases, are such.
fn some(cases: &[ChunkCase], such: fn(&[u8], &[u8]) -> bool) -> bool {
    let one = |case: &ChunkCase| case.chunks.windows(2).any(|two| such(&two[0], &two[1]));
    cases.iter().any(one)
}

#[test]
fn texts_are_cut_in_every_way() {
    let cases = cases(cut_text);
    assert!(some(&cases, |one, next| one.ends_with(b"\r")
        && next.starts_with(b"\n")));
    assert!(some(&cases, |one, next| one.ends_with(b"\r")
        && !next.is_empty()
        && next[0] != b'\n'));
    assert!(some(&cases, |one, next| one.ends_with(b"\n") && !next.is_empty()));
    assert!(some(&cases, |one, _| one.is_empty()));
    let single = |case: &&ChunkCase| case.chunks.iter().all(|chunk| chunk.len() == 1);
    let longest = cases
        .iter()
        .filter(single)
        .map(|case| case.chunks.len())
        .max();
    assert!(longest > Some(1000));
    for flags in 0..4 {
        assert!(cases.iter().any(|case| case.state.flags == flags));
    }
    assert!(cases.iter().all(|case| case.carry.len() >= CARRY));
}

#[test]
fn a_text_is_cut_at_every_place() {
    let cases = cut_everywhere(&mut Chance::new(5));
    let text = cases[0].text();
    assert_eq!(cases.len(), text.len() + 1);
    for (place, case) in cases.iter().enumerate() {
        assert_eq!(case.chunks[0].len(), place);
        assert_eq!(case.text(), text);
    }
}

#[test]
fn dumps_follow_each_other() {
    let cases = cases(cut_dumps);
    let chunks = || cases.iter().flat_map(|case| &case.chunks);
    let has = |chunk: &[u8], part: &[u8]| chunk.windows(part.len()).any(|found| found == part);
    for end in [
        "\n:00000001FF\n:",
        "\r\n:00000001FF\r\n:",
        "\n:00000001FF\n\n",
    ] {
        assert!(chunks().any(|chunk| has(chunk, end.as_bytes())), "{end:?}");
    }
    assert!(chunks().any(|chunk| chunk.starts_with(b"1FF\n:")));
    assert!(some(&cases, |one, next| one.ends_with(b":00000001FF\r")
        && next.starts_with(b"\n")));
    for flags in 0..4 {
        assert!(cases.iter().any(|case| case.state.flags == flags));
    }
}

#[test]
fn states_are_made_up() {
    let cases = cases(by_hand);
    let some = |such: fn(&ChunkCase) -> bool| cases.iter().filter(|case| such(case)).count() > 3;
    assert!(some(|case| case.carry.len() == CARRY - 1));
    assert!(some(|case| case.carry.len() == CARRY + 1));
    assert!(some(|case| case.state.used == CARRY));
    assert!(some(|case| case.state.used == CARRY + 1));
    assert!(some(|case| case.state.used == usize::MAX));
    assert!(some(|case| case.state.skipped == u16::MAX));
    assert!(some(
        |case| case.state.used == CARRY && (1..60_000).contains(&case.state.skipped)
    ));
    assert!(some(|case| case.chunks.is_empty() && case.state.skipped > 0));
    let first = |case: &ChunkCase| case.chunks.first().map_or(usize::MAX, Vec::len);
    assert!(cases.iter().any(|case| case.state.position > first(case)));
    assert!(some(
        |case| case.state.flags > 15 && case.state.flags & 4 == 0
    ));
    assert!(some(
        |case| case.state.line == usize::MAX && case.state.empties > 0
    ));
}

#[test]
fn lines_are_long() {
    let mut chance = Chance::new(7);
    for length in LENGTHS {
        let cases = long(length, &mut chance);
        let texts: Vec<Vec<u8>> = cases.iter().map(|one| one.text().text).collect();
        for text in &texts {
            let line = text.split(|&byte| byte == b'\n').nth(1);
            let line = line.expect("a line behind the first");
            let more = line.iter().rev().take_while(|&&byte| byte == b'\r').count();
            assert!((length..=length + more).contains(&line.len()));
        }
        let crs = texts.iter().filter(|text| text.ends_with(b"\r")).count();
        assert!(crs > 0);
    }
}

const PLAN: Plan = Plan {
    seed: 2,
    times: 1,
    part_of: 50,
    enough: 1,
};

#[test]
fn the_port_is_right() {
    if !at_hand("chunks") {
        return;
    }
    for kind in of_chunks(&Real, PLAN) {
        let report = kind();
        assert_eq!(report.smallest, None, "{}", report.name);
        assert!(report.inputs > 0);
    }
}

#[test]
fn a_wrong_reader_is_told_with_a_small_text() {
    if !at_hand("chunks") {
        return;
    }
    let mut all = wrong::chunks::all();
    let (name, port) = all.remove(0);
    assert_eq!(name, "takes a CR at a chunk's end for part of the line");
    let report = of_chunks(port.as_ref(), PLAN)[0]();
    let told = report.smallest.expect("it is found");
    assert!(
        told.starts_with(r#"chunks "\r" "\n" pool 0 carry "#),
        "{told}"
    );
}

#[test]
fn each_dump_is_read() {
    if !at_hand("chunks") {
        return;
    }
    for kind in dumps::of_face(&RealFace, PLAN) {
        let report = kind();
        assert_eq!(report.smallest, None, "{}", report.name);
        assert!(report.inputs > 0);
    }
}

#[test]
fn a_face_that_loses_a_dump_is_told_with_a_small_text() {
    if !at_hand("chunks") {
        return;
    }
    let mut all = wrong::dumps::all();
    let (name, face) = all.remove(0);
    assert_eq!(name, "loses what follows a stop in its chunk");
    let report = dumps::of_face(face.as_ref(), PLAN)[0]();
    let told = report.smallest.expect("it is found");
    assert!(
        told.starts_with(r#"chunks ":00000001ff\n0" pool 0 carry 0"#),
        "{told}"
    );
}

//! Window tables: the model answers as the document says, and the port and the face answer as the model does.

mod right;

use oracle::comparisons::tables::{of_face, of_port};
use oracle::inputs::tables::{Kind as TextKind, Row, TableCase};
use oracle::models::loads::LoadAnswer;
use oracle::models::tables::{broken, model};
use oracle::subjects::port::Real;
use oracle::subjects::the_crate::at_hand;
use oracle::wrong::tables::right;
use right::{are_right, PLAN};

const END: &str = "S9030000FC";

/// A load of S-records for an owner through these windows.
fn case(lines: &[&str], owner: u32, rows: &[(u32, u32, u64, u64)], pool: usize) -> TableCase {
    let row = |&(owner, first, length, place): &_| Row::new(owner, first, length, place);
    let text = lines.join("\n").into_bytes();
    let rows = rows.iter().map(row).collect();
    TableCase::new(TextKind::SRecords, text, owner, rows, pool)
}

/// The limits that a table breaks with a pool, by their numbers in the model's list.
fn limits(rows: &[(u32, u32, u64, u64)], pool: usize) -> Vec<usize> {
    broken(&case(&[END], 1, rows, pool))
}

#[test]
fn the_model_refuses_tables_as_the_document_says() {
    const NONE: [usize; 0] = [];
    assert_eq!(limits(&[(1, 0, 8, 0), (1, 4, 0, 4)], 8), NONE);
    assert_eq!(limits(&[(1, 0, 0, 9)], 8), [7]);
    assert_eq!(limits(&[(1, 0, 0, 8)], 8), NONE);
    assert_eq!(limits(&[(1, 0xFFFF_FFFC, 4, 0)], 8), NONE);
    assert_eq!(limits(&[(1, 0xFFFF_FFFD, 4, 0)], 8), [6]);
    assert_eq!(limits(&[], 8), NONE);
    assert_eq!(limits(&[(1, 0, 4, 0), (2, 0, 4, 4)], 8), NONE);
    assert_eq!(limits(&[(1, 0, 4, 0), (1, 4, 4, 4)], 8), NONE);
    assert_eq!(limits(&[(1, 0, 4, 0), (1, 3, 4, 4)], 8), [9]);
    assert_eq!(limits(&[(1, 0, 4, 0), (2, 9, 4, 3)], 8), [8]);
    assert_eq!(limits(&[(1, 0, 1 << 63, 1 << 63)], 8), [6, 7]);
    assert_eq!(limits(&[(3, 0, 1, 0)], 8), [3]);
    assert_eq!(limits(&[(1, 0, 0, 0); 17], 8), [1]);
    assert_eq!(limits(&[(1, 0, 0, 0); 16], 65_536), NONE);
    assert_eq!(limits(&[], 65_537), [4]);
    assert_eq!(broken(&case(&[END], 3, &[], 8)), [2]);
}

/// What the model answers and leaves, over a pool of EE and marks of FF.
fn left(case: &TableCase) -> (LoadAnswer, Vec<u8>, Vec<u8>) {
    let (mut pool, mut row) = (vec![0xEE; case.pool], vec![0xFF; case.marks]);
    (model(case, &mut pool, &mut row), pool, row)
}

#[test]
fn the_model_loads_as_the_document_says() {
    let start = Some((5, 0, 0));
    // 103 to 105 in 100+4 and 104+2.
    let rows = [(1, 0x100, 4, 2), (1, 0x104, 2, 0), (2, 0x103, 2, 8)];
    let spans = case(&["S10601031122338F", END], 1, &rows, 11);
    let (answer, pool, row) = left(&spans);
    assert_eq!(answer, LoadAnswer::accepted(1, start));
    assert_eq!(pool[..6], [0x22, 0x33, 0xEE, 0xEE, 0xEE, 0x11]);
    assert_eq!((&pool[6..], row), (&[0xEE; 5][..], vec![0xE3, 0xFF]));
    let other = case(&["S10601031122338F", END], 2, &rows, 11);
    let refused = LoadAnswer::refused(17, 0x105, 0, 1);
    assert_eq!(left(&other), (refused, vec![0xEE; 11], vec![0xFF; 2]));
    // No windows.
    let (answer, _, row) = left(&case(&[END], 2, &[], 11));
    assert_eq!((answer.code, row), (0, vec![0xFF; 2]));
    let (answer, ..) = left(&case(&["S104000011EA", END], 2, &[], 11));
    assert_eq!(answer, LoadAnswer::refused(17, 0, 0, 1));
    // Before the text.
    let (answer, ..) = left(&case(&["x"], 3, &[], 0));
    assert_eq!(answer, LoadAnswer::refused(23, 0, 0, 0));
}

#[test]
fn the_port_and_the_face_are_right() {
    if at_hand("tables") {
        are_right(of_port(&Real, PLAN));
        are_right(of_face(PLAN));
    }
}

#[test]
fn a_port_by_the_right_rules_is_right() {
    if at_hand("tables") {
        are_right(of_port(right().as_ref(), PLAN));
    }
}

//! S-records: the model answers as the document says, and the port and the face answer as the model does. The
//! crate is not needed for it.

mod right;

use oracle::comparisons::srecords::{of_face, of_port};
use oracle::models::srecords::{read, Said, RIGHT};
use oracle::subjects::port::Real;
use oracle::wrong::srecords::right;
use right::{are_right, PLAN};

#[test]
fn the_model_refuses_as_the_document_says() {
    let refused = [
        ("", (1, 0, 0)),
        (":00000001FF", (1, 0, 0)),
        ("s9030000FC", (1, 0, 0)),
        ("SG", (2, 1, 0)),
        ("S4G", (2, 2, 0)),
        ("S1 030000FC", (2, 2, 0)),
        ("S", (3, 0, 0)),
        ("S1", (3, 0, 0)),
        ("S4", (8, 4, 0)),
        ("SA", (8, 10, 0)),
        ("S6030000FC", (8, 6, 0)),
        ("S1030000F", (3, 0, 0)),
        ("S9030000FC0", (5, 0, 0)),
        ("S9030000FD", (6, 0xFC, 0xFD)),
        ("S1000000FF", (7, 0, 0)),
        ("S904000000FB", (9, 0, 0)),
    ];
    for (line, why) in refused {
        assert_eq!(read(RIGHT, line.as_bytes()), Err(why), "{line:?}");
    }
    for (digits, why) in [(511, 5), (513, 4), (600, 4)] {
        let line = format!("S1{}", "0".repeat(digits));
        assert_eq!(read(RIGHT, line.as_bytes()), Err((why, 0, 0)));
    }
    let line = format!("S4{}", "0".repeat(600));
    assert_eq!(read(RIGHT, line.as_bytes()), Err((8, 4, 0)));
}

#[test]
fn the_model_reads_as_the_document_says() {
    let said = [
        ("S0030001FB", 0, 1, &[][..]),
        ("S105FFFFAABB97", 1, 0xFFFF, &[0xAA, 0xBB]),
        ("S1050000AABB95", 1, 0, &[0xAA, 0xBB]),
        ("S2050000AABB95", 2, 0xAA, &[0xBB]),
        ("S3050000AABB95", 3, 0xAABB, &[]),
        ("S7050000AABB95", 7, 0xAABB, &[]),
        ("S5030003F9", 5, 3, &[]),
        ("S804000000fb", 8, 0, &[]),
        ("S9030000FC", 9, 0, &[]),
    ];
    for (line, kind, address, data) in said {
        let data = data.to_vec();
        let should = Said {
            kind,
            address,
            data,
        };
        assert_eq!(read(RIGHT, line.as_bytes()), Ok(should), "{line:?}");
    }
}

#[test]
fn the_port_and_the_face_are_right() {
    are_right(of_port(&Real, PLAN));
    are_right(of_face(PLAN));
}

#[test]
fn a_port_by_the_right_rules_is_right() {
    are_right(of_port(right().as_ref(), PLAN));
}

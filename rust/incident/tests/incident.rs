//! What the demonstration shows is what the buffer says: the numbers here are written out by hand.
//! Where the crate's source is not at hand, the Rust face stands in for its reader.

use ihex::{marks_len, Marks};
use incident::shown::shown;
use incident::{by_crate, by_port, Side, FIRST, PLACES};

const BUFFER: &[u8] = include_bytes!("../../../samples/incident.hex");
/// The lines of the new dump, its end record included.
const NEW: usize = 5;

/// Addresses and bytes of the new dump's time, levels and valves.
const STATED: [(u32, &[u8]); 3] = [
    (0x2000_0100, &[0x21, 0x46]),
    (
        0x2000_0110,
        &[0x21, 0x45, 0x18, 0x00, 0x48, 0x70, 0x09, 0x15],
    ),
    (0x2000_0120, &[0x00, 0x80, 0x00, 0x00]),
];
/// Those of the tail: levels, one tank more, and valves.
const TAIL: [(u32, &[u8]); 2] = [
    (
        0x2000_0110,
        &[0x21, 0x50, 0x17, 0x65, 0x31, 0x20, 0x09, 0x40, 0x15, 0x35],
    ),
    (0x2000_0120, &[0x00, 0x35, 0x00, 0x60]),
];

/// The page and marks of these placements, in their order.
fn placed(all: &[(u32, &[u8])], records: usize) -> Side {
    let (mut page, mut marks) = ([0; PLACES], [0; marks_len(PLACES)]);
    for (address, bytes) in all {
        let place = (address - FIRST) as usize;
        page[place..place + bytes.len()].copy_from_slice(bytes);
        for place in place..place + bytes.len() {
            marks[place / 8] |= 1 << (place % 8);
        }
    }
    Side {
        page,
        marks,
        answer: Ok(records),
    }
}

fn lines() -> Vec<&'static [u8]> {
    BUFFER.split_inclusive(|&byte| byte == b'\n').collect()
}

#[test]
fn the_old_tail_lands_on_the_crates_page() {
    let mut all = STATED.to_vec();
    all.extend(TAIL);
    assert_eq!(by_crate(BUFFER, false), placed(&all, 5));
}

#[test]
fn nothing_of_the_tail_lands_on_the_ports_page() {
    let new = placed(&STATED, 3);
    assert_eq!(by_port(BUFFER), new);
    assert_eq!(by_port(&lines()[..NEW].concat()), new);
}

/// At each place of the tail the two differ, in the byte or in the mark, unless the bytes are the
/// same by chance; and nowhere else.
#[test]
fn the_pages_differ_where_the_tail_lands() {
    let (crates, port) = (by_crate(BUFFER, false), by_port(BUFFER));
    let shown = |side: &Side, i| {
        let marks = Marks::new(&side.marks, PLACES);
        (side.page[i], marks.is_marked(i))
    };
    let differs = |i: &usize| shown(&crates, *i) != shown(&port, *i);
    let found: Vec<usize> = (0..PLACES).filter(differs).collect();
    let same_by_chance = [0x10, 0x16, 0x20, 0x22];
    let tail = (0x10..0x1A).chain(0x20..0x24);
    let should: Vec<usize> = tail.filter(|i| !same_by_chance.contains(i)).collect();
    assert_eq!(found, should);
}

#[test]
fn with_the_stop_on_the_crate_leaves_what_the_port_leaves() {
    assert_eq!(by_crate(BUFFER, true), by_port(BUFFER));
}

/// A minute later: a new time, tank 3 higher, and the same tail.
#[test]
fn the_crates_levels_stand_still() {
    let mut later = lines();
    later[1] = b":02010000214795\n";
    later[2] = b":080110002145180049100915F2\n";
    let later = later.concat();
    let (before, after) = (by_crate(BUFFER, false), by_crate(&later, false));
    assert_eq!((before.page[1], after.page[1]), (0x46, 0x47));
    assert_eq!(before.page[2..], after.page[2..]);
    assert_eq!(by_port(BUFFER).page[0x14..0x16], [0x48, 0x70]);
    assert_eq!(by_port(&later).page[0x14..0x16], [0x49, 0x10]);
}

/// A wrong digit in the new dump's levels: neither side draws anything from it.
#[test]
fn a_refused_buffer_gives_no_green_light() {
    let mut wrong = lines();
    wrong[2] = b":080110002145180049700915F2\n";
    let wrong = wrong.concat();
    let (crates, port) = (by_crate(&wrong, false), by_port(&wrong));
    assert_eq!(port.page, [0; PLACES]);
    assert_eq!(port.marks, [0; marks_len(PLACES)]);
    let told = shown(&wrong, Some(&crates), &port);
    assert!(told.contains("refused, line 3: invalid checksum '92', expecting 'F2'"));
    assert_eq!(told.matches("the light is not green").count(), 2);
    assert!(!told.contains("a green light") && !told.contains("after the end record\n"));
}

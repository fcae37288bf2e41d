//! The evening's rows are what its buffers say: the numbers here are written out by hand. Where the crate's source is not at
//! hand, the Rust face stands in for its reader.

use std::fs;

use ihex::Color;
use incident::evening::{self, count, rows, Buffer, Row};
use incident::shown::shown;
use incident::{by_crate, by_port, Side};

const BUFFER: &[u8] = include_bytes!("../../../samples/incident.hex");
const SAMPLES: &str = concat!(env!("CARGO_MANIFEST_DIR"), "/../../samples/evening");
const END: &[u8] = b":00000001FF\n";
/// Where the level of tank 3 lies in the window.
const TANK_3: usize = 0x14;

/// Whether the old light is green, and the count and tank 3 on the crate's page.
type Old = (bool, Option<u16>, Option<u16>);
/// What the library's light shows and knows, and tank 3 on the library's page.
type New = (Color, Option<u16>, Option<u16>);

/// The tail of the dump of 21:02 on the crate's page.
const TAIL: Old = (true, Some(660), Some(0x3120));
/// The evening's rows. A level has four decimal digits.
const ROWS: [(&str, Old, New); 9] = [
    (
        "21:01",
        (true, Some(600), Some(0x3080)),
        (Color::First, Some(600), Some(0x3080)),
    ),
    (
        "21:02",
        (true, Some(660), Some(0x3120)),
        (Color::Green, Some(660), Some(0x3120)),
    ),
    ("21:46", TAIL, (Color::Green, Some(3300), Some(0x4870))),
    ("21:47", TAIL, (Color::Green, Some(3360), Some(0x4910))),
    (
        "21:48",
        (false, None, None),
        (Color::Broken, Some(3360), None),
    ),
    ("21:49", TAIL, (Color::Green, Some(3480), Some(0x4990))),
    ("21:50", TAIL, (Color::Stale, Some(3480), Some(0x4990))),
    ("21:51", TAIL, (Color::NoCount, Some(3480), Some(0x5070))),
    ("21:52", TAIL, (Color::Restarted, Some(18), Some(0x5110))),
];

/// The evening's buffers, the earliest first.
fn evening() -> Vec<Buffer> {
    let files = fs::read_dir(SAMPLES).unwrap();
    let mut paths: Vec<_> = files.map(|file| file.unwrap().path()).collect();
    paths.sort();
    let read = |path| Buffer::read(path).unwrap();
    paths.into_iter().map(|path| read(path.into())).collect()
}

/// The level of tank 3 on a page whose dump was accepted.
fn tank_3(side: &Side) -> Option<u16> {
    let digits = [side.page[TANK_3], side.page[TANK_3 + 1]];
    side.answer.is_ok().then(|| u16::from_be_bytes(digits))
}

fn told(row: &Row) -> (&str, Old, New) {
    let (of_crate, of_port) = (row.of_crate.as_ref().unwrap(), &row.of_port);
    (
        &row.minute,
        (row.is_old_light_green(), count(of_crate), tank_3(of_crate)),
        (row.color, row.known[1], tank_3(of_port)),
    )
}

#[test]
fn each_row() {
    let rows = rows(&evening(), true);
    let told: Vec<_> = rows.iter().map(told).collect();
    assert_eq!(told, ROWS);
}

/// What stands on the two pages is what the loop and the loader leave of the buffer, and the count that is known was
/// stated by a dump.
#[test]
fn the_pages_are_those_of_the_buffers() {
    let (buffers, rows) = (evening(), rows(&evening(), true));
    let mut known = None;
    for (row, Buffer { text, .. }) in rows.iter().zip(&buffers) {
        assert_eq!(row.of_crate, Some(by_crate(text, false)), "{}", row.minute);
        assert_eq!(row.of_port, by_port(text), "{}", row.minute);
        let after = count(&row.of_port).or(known);
        assert_eq!(row.known, [known, after], "{}", row.minute);
        known = after;
    }
    let stated: Vec<_> = rows.iter().map(|row| count(&row.of_port)).collect();
    let [none, hung] = [None, Some(3480)];
    let counts = [Some(600), Some(660), Some(3300), Some(3360)];
    assert_eq!(stated[..4], counts);
    assert_eq!(stated[4..], [none, hung, hung, none, Some(18)]);
}

/// With the stop on, the crate's page is the library's, for each buffer that is accepted.
#[test]
fn with_the_stop_on_no_count_is_old() {
    let accepted = evening()
        .into_iter()
        .filter(|buffer| by_port(&buffer.text).answer.is_ok());
    let mut number = 0;
    for Buffer { text, minute } in accepted {
        assert_eq!(by_crate(&text, true), by_port(&text), "{minute}");
        number += 1;
    }
    assert_eq!(number, 8);
}

/// Each dump is laid over what the buffer held: from its end record on nothing changes.
#[test]
fn each_tail_is_what_the_buffer_held() {
    let buffers = evening();
    for two in buffers.windows(2) {
        let [before, after] = [&two[0].text, &two[1].text];
        let ends = after.windows(END.len()).position(|line| line == END);
        let tail = ends.unwrap() + END.len();
        assert_eq!(before.len(), after.len(), "{}", two[1].minute);
        assert_eq!(before[tail..], after[tail..], "{}", two[1].minute);
    }
    let same: Vec<_> = buffers
        .windows(2)
        .filter(|two| two[0].text == two[1].text)
        .map(|two| two[1].minute.as_str())
        .collect();
    assert_eq!(same, ["21:50"]);
}

/// The same buffers the other way round: the colors and the words follow the counts.
#[test]
fn in_another_order() {
    let mut buffers = evening();
    buffers.reverse();
    let rows = rows(&buffers, true);
    let colors: Vec<Color> = rows.iter().map(|row| row.color).collect();
    let first = [Color::First, Color::NoCount, Color::Green, Color::Stale];
    assert_eq!(colors[..4], first);
    assert_eq!(colors[4], Color::Broken);
    assert_eq!(colors[5..], [Color::Restarted; 4]);
    let text = evening::shown(&rows);
    for words in [
        "the count moved forward by 3462\n",
        "the count went from 3480 to 3360\n",
        "the count went from 660 to 600\n",
        "is green for 8 of 9 buffers. For 6 of these",
        "The library's light is green for 1 of 9 buffers.",
    ] {
        assert_eq!(text.matches(words).count(), 1, "{words}\n{text}");
    }
}

/// Where the crate's source is not at hand, the library's columns are the same.
#[test]
fn the_ports_side_alone() {
    let (both, alone) = (rows(&evening(), true), rows(&evening(), false));
    for (both, alone) in both.into_iter().zip(alone) {
        let of_port = Row {
            of_crate: None,
            ..both
        };
        assert_eq!(alone, of_port);
        assert!(!alone.is_old_light_green() && !alone.is_count_old());
    }
    assert_eq!(evening::shown(&rows(&[], true)), "");
}

#[test]
fn the_text_is_the_stored_one() {
    let (crates, port) = (by_crate(BUFFER, false), by_port(BUFFER));
    let text = |of_crate: Option<&Side>| {
        let rows = rows(&evening(), of_crate.is_some());
        shown(BUFFER, of_crate, &port) + &evening::shown(&rows)
    };
    assert_eq!(text(Some(&crates)), include_str!("../expected"));
    assert_eq!(text(None), include_str!("../expected-alone"));
}

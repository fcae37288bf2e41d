//! Lights: the model answers as the header says, the port and the face answer as the model does, and every wrong light is found.

mod right;

use ihex_sys::{
    COLOR_BROKEN, COLOR_FIRST, COLOR_GREEN, COLOR_NO_COUNT, COLOR_RESTARTED, COLOR_STALE,
    COUNT_UNKNOWN,
};
use oracle::comparisons::lights::{beside_loads, cut_off, of_face, of_port, twice_running};
use oracle::comparisons::run::{Kind, Plan};
use oracle::inputs::chance::Chance;
use oracle::inputs::lights::{long_row, short_row, Dump, LightCase};
use oracle::inputs::shrink::Case;
use oracle::inputs::tables::Kind as TextKind;
use oracle::models::lights::{model, read_part, set_up, After};
use oracle::models::loads::LoadAnswer;
use oracle::subjects::port::{Port, Real};
use oracle::subjects::the_crate::at_hand;
use oracle::subjects::told::Light;
use oracle::wrong::lights as wrong;
use right::{are_right, PLAN};

const END: &str = ":00000001FF";
/// A data record of one byte, at place 0 of a page from 0 on.
const HIGH: &str = ":0100000000FF";
/// A page of four places, with the count in the first two.
const FOUR: Light = Light {
    first: 0,
    length: 4,
    high: 0,
    low: 1,
};

/// A dump of these lines into the page of a light.
fn lines(light: Light, lines: &[&str]) -> Dump {
    Dump::new(light, TextKind::Intel, lines.join("\n").into_bytes())
}

/// A dump that states this count in the first two places of a page from 0 on.
fn count(count: u16) -> Dump {
    let [high, low] = count.to_be_bytes();
    let sum = 2u8.wrapping_add(high).wrapping_add(low).wrapping_neg();
    let line = format!(":02000000{high:02X}{low:02X}{sum:02X}");
    lines(FOUR, &[&line, END])
}

/// What the model says of dumps for a light.
fn told(light: Light, dumps: &[Dump]) -> Vec<After> {
    model(&LightCase::new(light, dumps.to_vec()))
}

/// The colors that the model has for them.
fn colors(light: Light, dumps: &[Dump]) -> Vec<u8> {
    told(light, dumps)
        .iter()
        .map(|after| after.shown.color)
        .collect()
}

#[test]
fn the_model_sets_up_as_the_header_says() {
    let light = |first, length, high, low| Light {
        first,
        length,
        high,
        low,
    };
    for good in [
        light(0xFFFF_FFFF, 2, 0, 1),
        light(0, 2, 1, 0),
        light(0x1_2000, 8, 1, 1),
        light(0, 1, 0, 0),
    ] {
        assert_eq!(set_up(good), 0, "{good:?}");
    }
    for bad in [
        light(0x1_2000, 8, 0x1_2000, 0x1_2001),
        light(0, 2, 2, 1),
        light(0, 2, 1, 2),
        light(0, 0, 0, 0),
    ] {
        assert_eq!(set_up(bad), 280, "{bad:?}");
    }
}

#[test]
fn the_model_has_the_colors_of_the_header() {
    if !at_hand("lights") {
        return;
    }
    let two = |from, to| colors(FOUR, &[count(from), count(to)])[1];
    assert_eq!(two(0, 32_767), COLOR_GREEN);
    assert_eq!(two(0, 32_768), COLOR_RESTARTED);
    assert_eq!(two(65_535, 0), COLOR_GREEN);
    assert_eq!(two(0, 65_535), COLOR_RESTARTED);
    assert_eq!(two(7, 7), COLOR_STALE);
    let (empty, broken) = (lines(FOUR, &[END]), lines(FOUR, &["x"]));
    assert_eq!(
        colors(FOUR, &[count(5), empty, count(5)]),
        [COLOR_FIRST, COLOR_NO_COUNT, COLOR_STALE]
    );
    assert_eq!(
        colors(FOUR, &[count(5), broken, count(6)]),
        [COLOR_FIRST, COLOR_BROKEN, COLOR_GREEN]
    );
    assert_eq!(
        colors(FOUR, &[count(5), count(4), count(4)]),
        [COLOR_FIRST, COLOR_RESTARTED, COLOR_STALE]
    );
    let one = lines(FOUR, &[HIGH, END]);
    assert_eq!(
        colors(FOUR, &[count(5), one]),
        [COLOR_FIRST, COLOR_NO_COUNT]
    );
}

#[test]
fn the_model_leaves_what_a_load_leaves() {
    if !at_hand("lights") {
        return;
    }
    let long = Dump {
        page: 5,
        old: Some([0x11, 0x22]),
        ..count(6)
    };
    let after = told(FOUR, &[count(5), long]);
    let accepted = &after[0];
    assert_eq!(accepted.shown.load, LoadAnswer::accepted(1, None));
    assert_eq!(accepted.shown.known, 5);
    assert_eq!(
        (&accepted.page[..], &accepted.marks[..]),
        (&[0, 5, 0xCC, 0xCC][..], &[3][..])
    );
    let refused = &after[1];
    assert_eq!(refused.shown.load, LoadAnswer::refused(16, 0, 0, 0));
    assert_eq!(refused.shown.known, 5);
    assert_eq!(
        (&refused.page[..], &refused.marks[..]),
        (&[0x11; 5][..], &[0x22][..])
    );
}

#[test]
fn the_model_answers_lights_made_up_by_hand() {
    if !at_hand("lights") {
        return;
    }
    let known = |known, dump: Dump| {
        let case = LightCase {
            known: Some(known),
            ..LightCase::new(FOUR, vec![dump])
        };
        let shown = model(&case)[0].shown;
        (shown.color, shown.known)
    };
    assert_eq!(known(4, count(5)), (COLOR_GREEN, 5));
    assert_eq!(known(COUNT_UNKNOWN + 4, count(5)), (COLOR_FIRST, 5));
    let broken = lines(FOUR, &["x"]);
    assert_eq!(known(u32::MAX, broken), (COLOR_BROKEN, COUNT_UNKNOWN));
    let outside = Light { low: 9, ..FOUR };
    assert_eq!(colors(outside, &[count(5)]), [COLOR_NO_COUNT]);
}

#[test]
fn a_text_is_cut_after_the_line_at_which_its_load_stops() {
    if !at_hand("lights") {
        return;
    }
    let accepted = LoadAnswer::accepted(0, None);
    let cut = |kind, text: &'static str, load| read_part(kind, text.as_bytes(), load);
    let intel = |text, load| cut(TextKind::Intel, text, load);
    assert_eq!(intel("\n:00000001FF\r\nx", accepted), b"\n:00000001FF\r\n");
    let s_records = "S1030000FC\nS9030000FC\nS9030000FC";
    let part = cut(TextKind::SRecords, s_records, accepted);
    assert_eq!(part, b"S1030000FC\nS9030000FC\n");
    assert_eq!(intel("x\ny\nz", LoadAnswer::refused(1, 0, 0, 1)), b"x\n");
    assert_eq!(intel("x\ny", LoadAnswer::refused(13, 0, 0, 0)), b"x\ny");
}

/// Of the rows by chance, many dumps are accepted, and many are green.
#[test]
fn rows_by_chance_have_every_color() {
    if !at_hand("lights") {
        return;
    }
    let mut chance = Chance::new(3);
    let mut times = [0; 6];
    for _ in 0..1000 {
        for after in model(&short_row(&mut chance)) {
            times[usize::from(after.shown.color)] += 1;
        }
    }
    assert!(times.iter().all(|&n| n > 100), "{times:?}");
    assert!(times[usize::from(COLOR_GREEN)] > 400, "{times:?}");
}

/// A long row has as many dumps as it says, and those of a shorter one are among them.
#[test]
fn long_rows_are_made_again() {
    let row = long_row(&mut Chance::new(4));
    let whole = row.row().dumps;
    assert_eq!(whole.len(), row.dumps);
    for smaller in row.smaller() {
        let part = smaller.row().dumps;
        assert_eq!(
            part,
            whole[smaller.skipped..smaller.skipped + smaller.dumps]
        );
    }
}

#[test]
fn the_port_and_the_face_are_right() {
    if at_hand("lights") {
        are_right(of_port(&Real, PLAN));
        are_right(of_face(PLAN));
    }
}

#[test]
fn a_port_by_the_right_rules_is_right() {
    if at_hand("lights") {
        are_right(of_port(wrong::right().as_ref(), PLAN));
    }
}

/// A wrong light: in what, and its port.
type Wrong = (&'static str, Box<dyn Port>);

/// Each of these is found by one of these kinds of comparison.
fn are_found(ports: Vec<Wrong>, kinds: for<'a> fn(&'a dyn Port, Plan) -> Vec<Kind<'a>>) {
    for (name, port) in ports {
        let mut reports = kinds(port.as_ref(), PLAN).into_iter().map(|kind| kind());
        assert!(reports.any(|report| report.disagreements > 0), "{name}");
    }
}

#[test]
fn every_wrong_light_is_found() {
    if at_hand("lights") {
        assert!(wrong::all().len() >= 100);
        are_found(wrong::all(), of_port);
        are_found(wrong::unlike_loads(), beside_loads);
        are_found(wrong::green_again(), twice_running);
        are_found(wrong::beyond_stops(), cut_off);
    }
}

//! One byte of a text: where it is looked for, which of several is returned, and what is refused.

use ihex::{ask, load, LineError, LoadError, Marks, ReaderError};

const END: &str = ":00000001FF";
const ELEVEN: &str = ":0100000011EE";
/// Segment base FFFF0, the highest there is, and linear base FFFF0000.
const HIGH_SEGMENT: &str = ":02000002FFFFFE";
const HIGH_LINEAR: &str = ":02000004FFFFFC";
/// AA at offset FFFF, and BB after it.
const ACROSS: &str = ":02FFFF00AABB9B";
const STARTS: [&str; 2] = [":04000005000000CD2A", ":04000005000000CE29"];

/// The lines, with an LF after each.
fn text(lines: &[&str]) -> String {
    lines.iter().map(|line| format!("{line}\n")).collect()
}

/// The text of these lines and an end record states just these bytes at these addresses and their neighbours.
fn states(lines: &[&str], bytes: &[(u32, u8)]) {
    let text = text(&[lines, &[END]].concat());
    for &(address, _) in bytes {
        for asked in [address.wrapping_sub(1), address, address.wrapping_add(1)] {
            let stated = bytes.iter().find(|(at, _)| *at == asked);
            let byte = stated.map(|&(_, byte)| byte);
            assert_eq!(ask(&text, asked), Ok(byte), "{lines:?} at {asked:08X}");
        }
    }
}

/// The text of these lines is refused so at any address.
fn refused(lines: &[&str], why: LoadError) {
    let text = text(lines);
    for asked in [0, 1, 5, 0xFFFF, 0x1_0000, u32::MAX] {
        assert_eq!(ask(&text, asked), Err(why), "{lines:?} at {asked:08X}");
    }
}

fn line(line: usize, error: ReaderError) -> LoadError {
    LoadError::Line(LineError { line, error })
}

#[test]
fn both_ends_of_a_segment() {
    let ends = [ELEVEN, ":01FFFF0022DF"];
    states(&ends, &[(0, 0x11), (0xFFFF, 0x22)]);
    let (first, last) = (0x12000, 0x21FFF);
    let ends = [":020000021200EA", ends[0], ends[1]];
    states(&ends, &[(first, 0x11), (last, 0x22)]);
}

#[test]
fn a_segment_wraps() {
    states(&[ACROSS], &[(0xFFFF, 0xAA), (0, 0xBB)]);
    states(
        &[HIGH_SEGMENT, ACROSS],
        &[(0x10_FFEF, 0xAA), (0xF_FFF0, 0xBB)],
    );
    // After a type 04 too, if a type 02 is the latest.
    states(
        &[HIGH_LINEAR, ":020000020000FC", ACROSS],
        &[(0xFFFF, 0xAA), (0, 0xBB)],
    );
}

#[test]
fn a_linear_address_goes_on_and_wraps_at_the_last() {
    states(
        &[":020000040000FA", ACROSS],
        &[(0xFFFF, 0xAA), (0x1_0000, 0xBB)],
    );
    states(&[HIGH_LINEAR, ACROSS], &[(u32::MAX, 0xAA), (0, 0xBB)]);
}

#[test]
fn the_last_byte_that_is_stated_counts() {
    let twice = [ELEVEN, ":0100000022DD"];
    states(&twice, &[(0, 0x22)]);
    states(&[twice[1], twice[0]], &[(0, 0x11)]);
    // By way of another base: 0000:0010, and then 0001:0000.
    let by_another = [":0100100011DE", ":020000020001FB", ":0100000022DD"];
    states(&by_another, &[(0x10, 0x22)]);
    // A record that passes its segment's end, and one at the segment's start.
    states(&[ACROSS, ":0100000033CC"], &[(0xFFFF, 0xAA), (0, 0x33)]);
}

#[test]
fn each_record_counts_with_its_own_base() {
    let two = ":0100000022DD";
    states(
        &[ELEVEN, ":020000040001F9", two],
        &[(0, 0x11), (0x1_0000, 0x22)],
    );
    states(
        &[":020000040001F9", ELEVEN, ":020000021200EA", two],
        &[(0x1_0000, 0x11), (0x1_2000, 0x22)],
    );
    // Bytes in the middle of a record, and in the last one.
    states(
        &[":0300000011223397", ":03000500445566F9"],
        &[
            (0, 0x11),
            (1, 0x22),
            (2, 0x33),
            (5, 0x44),
            (6, 0x55),
            (7, 0x66),
        ],
    );
    // A start record changes no base.
    states(&[":020000021200EA", STARTS[0], ELEVEN], &[(0x12000, 0x11)]);
}

#[test]
fn a_byte_of_zero_is_a_byte() {
    states(&[":0100000000FF"], &[(0, 0)]);
}

#[test]
fn nothing_is_stated() {
    for lines in [&[END][..], &[":0000000000", END], &[STARTS[0], END]] {
        for asked in [0, 1, 0xFFFF, 0x1_0000, u32::MAX] {
            assert_eq!(ask(&text(lines), asked), Ok(None), "{lines:?}");
        }
    }
}

#[test]
fn a_text_without_an_end_is_refused() {
    for lines in [&[][..], &[""], &[ELEVEN], &[":0000000000"]] {
        refused(lines, LoadError::MissingEndOfFileRecord);
    }
    assert_eq!(ask("", 0), Err(LoadError::MissingEndOfFileRecord));
    assert_eq!(LoadError::MissingEndOfFileRecord.line(), None);
}

#[test]
fn two_starts_that_differ_are_refused() {
    let [one, other] = STARTS;
    refused(
        &[ELEVEN, one, other, END],
        LoadError::StartConflict { line: 3 },
    );
    // Before a line that is refused, and not after one.
    refused(&[one, "", other, "x"], LoadError::StartConflict { line: 3 });
    refused(
        &[one, "x", other, END],
        line(2, ReaderError::MissingStartCode),
    );
    states(&[one, ELEVEN, one], &[(0, 0x11)]);
}

#[test]
fn a_byte_before_a_refused_line_is_not_returned() {
    refused(
        &[ELEVEN, ":00000001FE"],
        line(2, ReaderError::ChecksumMismatch(0xFF, 0xFE)),
    );
    let long = format!(":{}", "0".repeat(521));
    let all = [
        ("x", ReaderError::MissingStartCode),
        (":0000000lFF", ReaderError::ContainsInvalidCharacters(8)),
        (":", ReaderError::RecordTooShort),
        (&long, ReaderError::RecordTooLong),
        (":00000001FF0", ReaderError::RecordNotEvenLength),
        (":0100000012EE", ReaderError::ChecksumMismatch(0xED, 0xEE)),
        (":01000000FF", ReaderError::PayloadLengthMismatch),
        (":00000006FA", ReaderError::UnsupportedRecordType(6)),
        (":0100000100FE", ReaderError::InvalidLengthForType),
    ];
    for (bad, error) in all {
        refused(&[ELEVEN, "", bad, ELEVEN, END], line(3, error));
        refused(&[bad, ELEVEN], line(1, error));
    }
}

#[test]
fn what_follows_the_end_is_not_read() {
    let [one, other] = STARTS;
    for after in ["x", ":0100000022DD", ":0100010022DC", other, END, ":"] {
        let text = text(&[one, ELEVEN, END, after]);
        assert_eq!(ask(&text, 0), Ok(Some(0x11)), "{after}");
        assert_eq!(ask(&text, 1), Ok(None), "{after}");
    }
}

#[test]
fn line_ends_and_letters_do_not_matter() {
    let wanted = Ok(Some(0xAA));
    for text in [
        ":02ffff00aabb9b\r\n\r\n:00000001ff\r\n",
        ":02FFFF00aaBB9b\n\n:00000001FF",
        "\n\r\n:02FFFF00AABB9B\n:00123401B9\r\n",
    ] {
        assert_eq!(ask(text, 0xFFFF), wanted, "{text:?}");
    }
    // A CR at the end, without an LF, is part of the line.
    let error = ReaderError::ContainsInvalidCharacters(11);
    let refused = ask(":0100000011EE\r\n:00000001FF\r", 0).unwrap_err();
    assert_eq!(refused, line(2, error));
    assert_eq!((refused.line(), refused.column()), (Some(2), Some(12)));
}

#[test]
fn bytes_that_are_not_utf_8_are_refused() {
    let refused = ask(b":0100000011EE\n:01\xFF0000022DD\n:00000001FF\n", 0);
    let error = ReaderError::ContainsInvalidCharacters(3);
    assert_eq!(refused, Err(line(2, error)));
    let refused = ask(&b"\xFE"[..], 0);
    assert_eq!(refused, Err(line(1, ReaderError::MissingStartCode)));
    let after = ask(b":0100000011EE\n:00000001FF\n\xFF\xFE".as_slice(), 0);
    assert_eq!(after, Ok(Some(0x11)));
}

/// Each place of a full page, of a text that passes the end of segment 0 and states one place twice.
#[test]
fn a_load_says_the_same_of_each_place() {
    let text = text(&[
        ":04FFFE001122334455",
        ":0312340055667785",
        ":020000040000FA",
        ":01FFFF009968",
        END,
    ]);
    let (mut page, mut marks) = (vec![0; 0x1_0000], vec![0; 0x2000]);
    load(&text, 0, &mut page, &mut marks).unwrap();
    let marked = Marks::new(&marks, page.len());
    for (place, &byte) in page.iter().enumerate() {
        let stated = marked.is_marked(place).then_some(byte);
        assert_eq!(ask(&text, place as u32), Ok(stated), "{place:04X}");
    }
    assert_eq!(marked.count(), 7);
}

/// What a load refuses for its window alone is accepted here.
#[test]
fn there_is_no_window() {
    let text = text(&[HIGH_LINEAR, ":0300000011223397", END]);
    let refused = load(&text, 0xFFFF_0001, &mut [0; 8], &mut [0]);
    let outside = LoadError::OutsideWindow {
        line: 2,
        address: 0xFFFF_0000,
    };
    assert_eq!(refused, Err(outside));
    let refused = load(&text, u32::MAX, &mut [0; 2], &mut [0]);
    assert_eq!(refused, Err(LoadError::BadWindow));
    assert_eq!(ask(&text, 0xFFFF_0000), Ok(Some(0x11)));
    assert_eq!(ask(&text, u32::MAX), Ok(None));
}

/// A load refuses the first line for its window, and here the second is refused.
#[test]
fn a_line_is_not_refused_for_its_address() {
    let text = text(&[ELEVEN, ":00000001FE"]);
    let outside = LoadError::OutsideWindow {
        line: 1,
        address: 0,
    };
    assert_eq!(load(&text, 5, &mut [0], &mut [0]), Err(outside));
    let error = ReaderError::ChecksumMismatch(0xFF, 0xFE);
    assert_eq!(ask(&text, 5), Err(line(2, error)));
}

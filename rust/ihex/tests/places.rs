//! The place of a byte that is no digit, by example: each reader names the first of its line, and people
//! are told the line and the column.

use ihex::ReaderError::ContainsInvalidCharacters as Invalid;
use ihex::{
    load, ByteReader, ChunkReader, LineError, LoadError, Reader, ReaderError, ReaderOptions, Record,
};

/// Places, and the number that each has in a refusal.
const PLACES: [(usize, u16); 12] = [
    (1, 1),
    (2, 2),
    (17, 17),
    (519, 519),
    (520, 520),
    (521, 521),
    (522, 522),
    (1043, 1043),
    (65_534, 65_534),
    (65_535, 65_535),
    (65_536, 65_535),
    (70_000, 65_535),
];

/// What stands ahead of a line in a text: an empty line and a good one.
const AHEAD: &str = "\n:0100000041BE\r\n";

/// A line with so many bytes ahead of one that is no digit, and this behind it.
fn line(place: usize, behind: &str) -> String {
    format!(":{}G{behind}", "0".repeat(place - 1))
}

fn read(line: &str) -> Result<Record, ReaderError> {
    let read = Record::from_record_string(line);
    assert_eq!(line.parse(), read);
    assert_eq!(Record::from_record_bytes(line.as_bytes()), read);
    read
}

/// The refusal of the third line, as each reader of texts tells it, with what people read.
fn third(text: &str) -> (LineError, String) {
    let refused = Reader::new(text).numbered().last();
    let refused = refused.and_then(Result::err).expect("a refused line");
    let mut reader = ByteReader::new(text);
    assert_eq!(reader.by_ref().last(), Some(Err(refused.error)));
    assert_eq!((reader.line(), refused.line), (3, 3));
    let (mut page, mut marks) = ([7; 1], [8; 1]);
    let load = load(text, 0, &mut page, &mut marks).unwrap_err();
    assert_eq!(load, LoadError::Line(refused));
    assert_eq!(
        (load.line(), load.column()),
        (Some(3), refused.error.column())
    );
    assert_eq!(load.to_string(), refused.to_string());
    assert_eq!((page, marks), ([7], [8]));
    (refused, refused.to_string())
}

/// The last answer to these chunks and to the end.
fn last<'a>(chunks: impl IntoIterator<Item = &'a [u8]>) -> Option<LineError> {
    let mut reader = ChunkReader::new();
    let mut answer = None;
    for chunk in chunks {
        answer = reader.feed(chunk).numbered().last().or(answer);
    }
    let answer = reader.finish().numbered().last().or(answer);
    answer.and_then(Result::err)
}

#[test]
fn a_line_names_the_first() {
    for (place, named) in PLACES {
        for behind in ["", "0", "G", "\r", "00000000:", &"0".repeat(600)] {
            let line = line(place, behind);
            assert_eq!(read(&line), Err(Invalid(named)), "{place} {behind:?}");
        }
    }
}

#[test]
fn texts_and_loads_name_the_place_in_the_line() {
    for (place, named) in PLACES {
        for end in ["", "\n", "\r\n", "\n:00000001FF\n"] {
            let text = format!("{AHEAD}{}{end}", line(place, "0G"));
            let error = Invalid(named);
            assert_eq!(third(&text).0, LineError { line: 3, error });
        }
    }
}

#[test]
fn chunks_name_the_place_in_the_line() {
    for (place, named) in PLACES {
        let (line, error) = (3, Invalid(named));
        let should = Some(LineError { line, error });
        for end in ["0G\n", "", "\r\n", "\r"] {
            let text = format!("{AHEAD}{}{end}", self::line(place, ""));
            let (text, at) = (text.as_bytes(), AHEAD.len() + place);
            for size in [1, 2, 7, 521, 522, 523, 4096, 65_536, at - 1, at, at + 1] {
                assert_eq!(last(text.chunks(size)), should, "{place} {end:?} {size}");
            }
            for cut in [AHEAD.len(), AHEAD.len() + 1, at - 1, at, at + 1] {
                let (one, two) = text.split_at(cut);
                assert_eq!(last([one, two]), should, "{place} {end:?} {cut}");
                let (byte, rest) = two.split_at(two.len().min(1));
                assert_eq!(last([one, b"", byte, rest]), should);
            }
        }
    }
}

#[test]
fn each_line_is_counted_anew() {
    let all = ReaderOptions {
        stop_after_first_error: false,
        stop_after_eof: false,
    };
    let places = [600, 521, 70_000, 3, 700, 522];
    let text: String = places.map(|place| line(place, "0\n")).concat();
    let named = places.map(|place| Err(Invalid(place.min(65_535) as u16)));
    for size in [1, 100, 522, 600, 5000, 100_000] {
        let mut reader = ChunkReader::new_with_options(all);
        let mut answers = Vec::new();
        for chunk in text.as_bytes().chunks(size) {
            answers.extend(reader.feed(chunk));
        }
        assert_eq!(answers, named, "{size}");
    }
    let answers: Vec<_> = Reader::new_with_options(&text, all).collect();
    assert_eq!(answers, named);
}

#[test]
fn a_wide_character_is_named_by_its_first_byte() {
    for wide in ["\u{E9}", "\u{20AC}", "\u{1D11E}", "\u{661}", "\u{FF21}"] {
        for ahead in [0, 1, 8, 520, 521, 600] {
            let line = format!(":{}{wide}00", "0".repeat(ahead));
            let error = Invalid(ahead as u16 + 1);
            assert_eq!(read(&line), Err(error));
            assert_eq!(third(&format!("{AHEAD}{line}")).0.error, error);
            for size in [1, 2, 3, 522, ahead + 1, ahead + 2] {
                let refused = last(line.as_bytes().chunks(size));
                assert_eq!(refused, Some(LineError { line: 1, error }), "{line} {size}");
            }
        }
    }
    // Behind another, which is named; and bytes that are no UTF-8.
    assert_eq!(read(":0 \u{E9}"), Err(Invalid(2)));
    assert_eq!(
        Record::from_record_bytes(b":00\xA9\xC3"),
        Err(Invalid(3)),
        "a byte of the middle of a character"
    );
}

#[test]
fn a_cr_that_ends_no_line_is_named() {
    for digits in [0, 1, 10, 519, 520, 521, 600, 65_533, 65_534, 65_535, 70_000] {
        let error = Invalid((digits + 1).min(65_535) as u16);
        for end in ["\r", "\r\r\n", "\r0", "\r0\n", "\r\r"] {
            let line = format!(":{}{end}", "7".repeat(digits));
            let text = format!("{AHEAD}{line}");
            assert_eq!(third(&text).0.error, error, "{digits} {end:?}");
            for size in [
                1,
                64,
                522,
                AHEAD.len() + digits + 1,
                AHEAD.len() + digits + 2,
            ] {
                let refused = last(text.as_bytes().chunks(size));
                assert_eq!(
                    refused,
                    Some(LineError { line: 3, error }),
                    "{end:?} {size}"
                );
            }
        }
        let text = format!("{AHEAD}:{}\r\n", "7".repeat(digits));
        assert_eq!(third(&text).0.error.place(), None, "{digits}");
    }
}

#[test]
fn the_order_of_refusals() {
    let refused = |line: &str| read(line).unwrap_err();
    // A missing colon goes before all else.
    for line in ["", "G", "0G", " :G", "\u{E9}:G"] {
        assert_eq!(refused(line), ReaderError::MissingStartCode, "{line:?}");
    }
    // A byte that is no digit goes before what is too short, odd, too long, or wrong in any other way.
    assert_eq!(refused(":G"), Invalid(1));
    assert_eq!(refused(":0100000G"), Invalid(8));
    assert_eq!(refused(":00000001FF0G"), Invalid(12));
    assert_eq!(refused(":00000001FG"), Invalid(10));
    assert_eq!(refused(":0000000GFF"), Invalid(8));
    assert_eq!(refused(&line(521, "")), Invalid(521));
    assert_eq!(refused(&line(521, "0")), Invalid(521));
    assert_eq!(refused(&line(3, &"0".repeat(600))), Invalid(3));
}

#[test]
fn people_are_told_line_and_column() {
    let text = |place| third(&format!("{AHEAD}{}", line(place, ""))).1;
    let invalid = "invalid characters encountered in record";
    assert_eq!(text(16), format!("line 3, column 17: {invalid}"));
    assert_eq!(text(1), format!("line 3, column 2: {invalid}"));
    assert_eq!(text(65_534), format!("line 3, column 65535: {invalid}"));
    for place in [65_535, 65_536, 70_000] {
        assert_eq!(
            text(place),
            format!("line 3, column 65536 or beyond: {invalid}")
        );
    }
    // Where no line is known, the column alone is told.
    let refused = read(&line(16, "")).unwrap_err();
    assert_eq!(refused.to_string(), format!("column 17: {invalid}"));
    let with_line = LineError {
        line: 9,
        error: refused,
    };
    assert_eq!(
        with_line.to_string(),
        format!("line 9, column 17: {invalid}")
    );
    assert_eq!((refused.place(), refused.column()), (Some(16), Some(17)));
    assert_eq!(Invalid(u16::MAX).column(), Some(65_536));
    let other = ReaderError::RecordTooShort;
    assert_eq!((other.place(), other.column()), (None, None));
}

//! S-records, by example: each line, record and load with its answer, and each text that people read.

use ihex::srec::{load_srecords, SReaderError, SRecord, SType, SWriterError, MAX_DATA};
use ihex::{load, LoadError, ReaderError};

fn read(line: &str) -> Result<SRecord, SReaderError> {
    let read = SRecord::from_record_string(line);
    assert_eq!(line.parse(), read);
    assert_eq!(SRecord::from_record_bytes(line.as_bytes()), read);
    read
}

fn record(kind: SType, address: u32, value: &[u8]) -> SRecord {
    let value = value.to_vec();
    SRecord {
        kind,
        address,
        value,
    }
}

/// So many digits after the type of an S1, all 0 but for the checksum, if it is a whole number of bytes.
fn digits(n: usize) -> String {
    format!("S1{}FF", "0".repeat(n - 2))
}

#[test]
fn lines_are_refused_in_order() {
    let refused = [
        ("", ReaderError::MissingStartCode),
        (":00000001FF", ReaderError::MissingStartCode),
        ("s9030000FC", ReaderError::MissingStartCode),
        (" S9030000FC", ReaderError::MissingStartCode),
        ("SG", ReaderError::ContainsInvalidCharacters(1)),
        ("S4G", ReaderError::ContainsInvalidCharacters(2)),
        ("S1 030000FC", ReaderError::ContainsInvalidCharacters(2)),
        ("S9030000FC\r", ReaderError::ContainsInvalidCharacters(10)),
        (
            "S9030000F\u{661}",
            ReaderError::ContainsInvalidCharacters(9),
        ),
        ("S", ReaderError::RecordTooShort),
        ("S1", ReaderError::RecordTooShort),
        ("S4", ReaderError::UnsupportedRecordType(4)),
        ("SA", ReaderError::UnsupportedRecordType(10)),
        ("Sf", ReaderError::UnsupportedRecordType(15)),
        ("S6030000FC", ReaderError::UnsupportedRecordType(6)),
        ("S1030000F", ReaderError::RecordTooShort),
        ("S2030000FC", ReaderError::RecordTooShort),
        ("S3040000FBFB", ReaderError::RecordTooShort),
        ("S1030000FC0", ReaderError::RecordNotEvenLength),
        ("S9030000FD", ReaderError::ChecksumMismatch(0xFC, 0xFD)),
        ("S1000000FF", ReaderError::PayloadLengthMismatch),
        ("S1040000FB", ReaderError::PayloadLengthMismatch),
        ("S904000000FB", ReaderError::InvalidLengthForType),
        ("S504000000FB", ReaderError::InvalidLengthForType),
    ];
    for (line, error) in refused {
        assert_eq!(read(line), Err(SReaderError(error)), "{line:?}");
    }
    let of_length = |n| read(&digits(n)).map_err(|refused| refused.number());
    assert_eq!(of_length(511), Err(5));
    assert_eq!(of_length(512), Err(7));
    assert_eq!(of_length(513), Err(4));
    assert_eq!(
        read(&format!("S4{}", "0".repeat(600))),
        Err(SReaderError(ReaderError::UnsupportedRecordType(4)))
    );
    let far = format!("S{}", "0".repeat(70_000)) + "G";
    assert_eq!(read(&far).unwrap_err().place(), Some(65_535));
}

/// A record of each type, with its line.
fn one_of_each() -> [(SRecord, &'static str); 8] {
    [
        (record(SType::S0, 1, b"A"), "S004000141B9"),
        (record(SType::S1, 0xFFFF, &[0xAA, 0xBB]), "S105FFFFAABB97"),
        (record(SType::S2, 0xFF_FFFF, &[1]), "S205FFFFFF01FC"),
        (record(SType::S3, 0x1234_5678, &[]), "S30512345678E6"),
        (record(SType::S5, 3, &[]), "S5030003F9"),
        (record(SType::S7, 0xFFFF_FFFF, &[]), "S705FFFFFFFFFE"),
        (record(SType::S8, 0x10_0000, &[]), "S804100000EB"),
        (record(SType::S9, 0xFFFF, &[]), "S903FFFFFE"),
    ]
}

#[test]
fn each_type_is_read_and_written() {
    for (record, line) in one_of_each() {
        assert_eq!(read(line).as_ref(), Ok(&record));
        assert_eq!(read(&line.replace('A', "a")).as_ref(), Ok(&record));
        assert_eq!(record.to_record_string().as_deref(), Ok(line));
        assert_eq!(SType::from_digit(record.kind.digit()), Some(record.kind));
        assert_eq!(line.as_bytes()[1], b'0' + record.kind.digit());
    }
    let types = (0..=255).filter_map(SType::from_digit);
    assert_eq!(types.clone().count(), 8);
    assert_eq!(types.clone().filter(|kind| kind.is_data()).count(), 3);
    assert_eq!(types.filter(|kind| kind.is_end()).count(), 3);
}

#[test]
fn data_is_at_most_what_the_count_covers() {
    for (kind, most) in [
        (SType::S0, MAX_DATA),
        (SType::S1, 252),
        (SType::S2, 251),
        (SType::S3, 250),
    ] {
        let longest = record(kind, 7, &vec![0x5A; most]);
        let line = longest.to_record_string().unwrap();
        assert_eq!(line.len(), 514);
        assert_eq!(read(&line), Ok(longest));
        let longer = record(kind, 7, &vec![0x5A; most + 1]);
        let refused = SWriterError::DataExceedsMaximumLength(most + 1);
        assert_eq!(longer.to_record_string(), Err(refused));
    }
}

#[test]
fn records_are_refused_in_order() {
    let write = |kind, address, n: usize| record(kind, address, &vec![0; n]).to_record_string();
    let number = |kind, address, n| write(kind, address, n).map_err(|why| why.number());
    assert_eq!(number(SType::S5, 0x1_0000, 300), Err(9));
    assert_eq!(number(SType::S9, 0, 1), Err(9));
    assert_eq!(number(SType::S0, 0x1_0000, 253), Err(12));
    assert_eq!(number(SType::S5, 0x1_0000, 0), Err(25));
    assert_eq!(number(SType::S8, 0x100_0000, 0), Err(25));
    assert_eq!(number(SType::S2, 0x100_0000, 251), Err(25));
    assert!(write(SType::S7, u32::MAX, 0).is_ok());
    assert!(write(SType::S3, u32::MAX, 250).is_ok());
}

/// A text into a window of 8 places, over a page and marks that hold something.
fn loaded(text: &str, first: u32) -> (Result<usize, LoadError>, [u8; 8], u8) {
    let (mut page, mut marks) = ([0xEE; 8], [0x5C]);
    let answer = load_srecords(text, first, &mut page, &mut marks);
    if answer.is_err() {
        assert_eq!((page, marks), ([0xEE; 8], [0x5C]));
    }
    (answer.map(|loaded| loaded.data_records), page, marks[0])
}

fn refused(text: &str) -> LoadError {
    loaded(text, 0).0.unwrap_err()
}

#[test]
fn texts_are_loaded() {
    let text = "S004000141B9\r\n\r\nS105FFFFAABB97\r\nS5030001FB\r\nS70500000000FA";
    let (answer, page, marks) = loaded(text, 0xFFFE);
    assert_eq!(answer, Ok(1));
    assert_eq!(page, [0xEE, 0xAA, 0xBB, 0xEE, 0xEE, 0xEE, 0xEE, 0xEE]);
    assert_eq!(marks, 0b110);
    // What follows the end changes nothing, and neither does another kind of end.
    for end in [
        "S9030000FC",
        "S804000000FB\nS105FFFF11111F\n:x",
        "S70500000000FA\n\nS",
    ] {
        let text = format!("S105FFFFAABB97\n{end}");
        assert_eq!(loaded(&text, 0xFFFE), (Ok(1), page, marks));
    }
    // The same bytes at the same addresses, as Intel HEX.
    let (mut other, mut row) = ([0xEE; 8], [0]);
    let intel = ":020000040000FA\n:02FFFF00AABB9B\n:00000001FF\n";
    load(intel, 0xFFFE, &mut other, &mut row).unwrap();
    assert_eq!((other, row), (page, [marks]));
}

#[test]
fn addresses_wrap_at_their_end() {
    let text = "S307FFFFFFFF1122C9\nS9030000FC";
    let (answer, ..) = loaded(text, 0xFFFF_FFF8);
    let outside = LoadError::OutsideWindow {
        line: 1,
        address: 0,
    };
    assert_eq!(answer, Err(outside));
    let (answer, ..) = loaded(text, 0);
    let outside = LoadError::OutsideWindow {
        line: 1,
        address: 0xFFFF_FFFF,
    };
    assert_eq!(answer, Err(outside));
}

#[test]
fn counts_are_compared() {
    let mismatch = |line, stated, seen| LoadError::CountMismatch { line, stated, seen };
    assert_eq!(loaded("S5030000FC\nS5030000FC\nS9030000FC", 0).0, Ok(0));
    assert_eq!(
        loaded(
            "S0030000FC\nS1030000FC\nS5030001FB\nS1030000FC\nS9030000FC",
            0
        )
        .0,
        Ok(2)
    );
    assert_eq!(refused("S0030000FC\nS5030001FB"), mismatch(2, 1, 0));
    assert_eq!(refused("\nS1030000FC\nS5030000FC"), mismatch(3, 0, 1));
    let many = "S1030000FC\n".repeat(65_536) + "S5030000FC\nS9030000FC";
    assert_eq!(refused(&many), mismatch(65_537, 0, 65_536));
    // In text order: what comes first is said.
    assert_eq!(refused("S5030001FB\nx").number(), 20);
    assert_eq!(refused("x\nS5030001FB").number(), 1);
    assert_eq!(refused("S5030000FC\n"), LoadError::MissingEndOfFileRecord);
}

#[test]
fn refusals_say_where_and_why() {
    let texts = [
        ("\n:00000001FF", "line 2: missing start code 'S'"),
        ("S6030000FC", "line 1: unsupported S-record type '6'"),
        ("SA", "line 1: unsupported S-record type 'A'"),
        (
            "S1O30000FC",
            "line 1, column 3: invalid characters encountered in record",
        ),
        ("S1", "line 1: too short"),
        (
            "S9030000FD",
            "line 1: invalid checksum 'FC', expecting 'FD'",
        ),
        (
            "S10400FFAA52",
            "line 1: address 000000FF lies outside the window",
        ),
        (
            "S1030000FC\nS5030003F9",
            "line 2: count record states 3 data records, found 1 before it",
        ),
        ("", "text has no end of file record"),
    ];
    for (text, printed) in texts {
        let why = refused(text);
        assert_eq!(why.to_string(), printed);
        let of_line = matches!(why, LoadError::SRecordLine { .. });
        assert_eq!(std::error::Error::source(&why).is_some(), of_line);
    }
    let why = refused("S9030000FG");
    assert_eq!(
        (why.line(), why.column(), why.number()),
        (Some(1), Some(10), 2)
    );
    let why = refused("S5030001FB");
    assert_eq!(
        (why.line(), why.column(), why.number()),
        (Some(1), None, 20)
    );
}

#[test]
fn records_that_are_not_written_say_why() {
    let texts = [
        (
            SWriterError::InvalidLengthForType,
            "record of this type has no data",
        ),
        (
            SWriterError::DataExceedsMaximumLength(253),
            "record has 253 bytes, more than its count can cover",
        ),
        (
            SWriterError::AddressTooWide,
            "address does not fit the record type",
        ),
    ];
    for (why, text) in texts {
        assert_eq!(why.to_string(), text);
    }
    assert_eq!(SWriterError::SynthesisFailed.number(), 0);
}

/// A wrong digit of the type can be accepted as something else: the checksum does not cover it.
#[test]
fn a_wrong_type_can_go_unnoticed() {
    let line = "S1050000AABB95";
    let accepted = (0..=9).filter_map(|digit| {
        let other = format!("S{digit}{}", &line[2..]);
        read(&other).ok()
    });
    let expected = [
        record(SType::S0, 0, &[0xAA, 0xBB]),
        record(SType::S1, 0, &[0xAA, 0xBB]),
        record(SType::S2, 0xAA, &[0xBB]),
        record(SType::S3, 0xAABB, &[]),
        record(SType::S7, 0xAABB, &[]),
    ];
    assert_eq!(accepted.collect::<Vec<_>>(), expected);
}

//! The rules, by example: each line, list and load with its answer.

use ihex::{
    checksum, create_object_file_representation, load, types, BadTable, ByteReader, LineError,
    LoadError, Reader, ReaderError, ReaderOptions, Record, WriterError,
};

fn read(line: &str) -> Result<Record, ReaderError> {
    let read = Record::from_record_string(line);
    assert_eq!(line.parse(), read);
    assert_eq!(Record::from_record_bytes(line.as_bytes()), read);
    read
}

/// The line of a data record of n zeros at address 0.
fn zeros(n: u8) -> String {
    format!(
        ":{n:02X}000000{}{:02X}",
        "00".repeat(n.into()),
        n.wrapping_neg()
    )
}

/// A data record of n zeros at address 0.
fn data(n: usize) -> Record {
    let value = vec![0; n];
    Record::Data { offset: 0, value }
}

#[test]
fn lines_are_refused_in_order() {
    let refused = [
        ("", ReaderError::MissingStartCode),
        ("00000001FF", ReaderError::MissingStartCode),
        (" :00000001FF", ReaderError::MissingStartCode),
        (":", ReaderError::RecordTooShort),
        (":G", ReaderError::ContainsInvalidCharacters(1)),
        (":00000001FF ", ReaderError::ContainsInvalidCharacters(11)),
        (":00000001FF\r", ReaderError::ContainsInvalidCharacters(11)),
        (
            ":0000000\u{661}FF",
            ReaderError::ContainsInvalidCharacters(8),
        ),
        (":+0000001FF", ReaderError::ContainsInvalidCharacters(1)),
        (":0100000", ReaderError::RecordTooShort),
        (":00000001FF0", ReaderError::RecordNotEvenLength),
        (":00000001FE", ReaderError::ChecksumMismatch(0xFF, 0xFE)),
        (":01000000FF", ReaderError::PayloadLengthMismatch),
        (":01000006F9", ReaderError::PayloadLengthMismatch),
        (":00000006FA", ReaderError::UnsupportedRecordType(6)),
        (":0100000100FE", ReaderError::InvalidLengthForType),
    ];
    for (line, error) in refused {
        assert_eq!(read(line), Err(error), "{line:?}");
    }
    let longest = zeros(255);
    assert_eq!(longest.len(), 521);
    assert_eq!(
        read(&(longest.clone() + "0")),
        Err(ReaderError::RecordTooLong)
    );
    assert_eq!(read(&(longest + "00")), Err(ReaderError::RecordTooLong));
}

#[test]
fn lines_are_records() {
    let records = [
        (":00123401B9", Record::EndOfFile),
        (":00000001ff", Record::EndOfFile),
        (":020000021200EA", Record::ExtendedSegmentAddress(0x1200)),
        (":02000004FFFFFC", Record::ExtendedLinearAddress(0xFFFF)),
        (":04000005000000CD2A", Record::StartLinearAddress(0xCD)),
        (
            ":0400000300003800C1",
            Record::StartSegmentAddress { cs: 0, ip: 0x3800 },
        ),
    ];
    for (line, record) in records {
        assert_eq!(read(line), Ok(record), "{line:?}");
    }
    assert_eq!(read(&zeros(255)), Ok(data(255)));
}

/// A record of each type, with its line and its type.
fn one_of_each() -> [(Record, &'static str, u8); 6] {
    [
        (Record::EndOfFile, ":00000001FF", types::END_OF_FILE),
        (
            Record::ExtendedSegmentAddress(0x1200),
            ":020000021200EA",
            types::EXTENDED_SEGMENT_ADDRESS,
        ),
        (
            Record::StartSegmentAddress {
                cs: 0x1234,
                ip: 0x3800,
            },
            ":04000003123438007B",
            types::START_SEGMENT_ADDRESS,
        ),
        (
            Record::ExtendedLinearAddress(0xFFFF),
            ":02000004FFFFFC",
            types::EXTENDED_LINEAR_ADDRESS,
        ),
        (
            Record::StartLinearAddress(0xCD),
            ":04000005000000CD2A",
            types::START_LINEAR_ADDRESS,
        ),
        (
            Record::Data {
                offset: 0x10,
                value: vec![],
            },
            ":00001000F0",
            types::DATA,
        ),
    ]
}

#[test]
fn records_are_written_and_read_again() {
    for (record, line, kind) in one_of_each() {
        assert_eq!(record.record_type(), kind);
        assert_eq!(record.to_record_string().as_deref(), Ok(line));
        assert_eq!(read(line), Ok(record));
    }
    assert_eq!(data(255).to_record_string(), Ok(zeros(255)));
    let long = Err(WriterError::DataExceedsMaximumLength(256));
    assert_eq!(data(256).to_record_string(), long);
}

#[test]
fn objects_are_refused_in_order() {
    let end = || Record::EndOfFile;
    let written = |records: &[Record]| create_object_file_representation(records);
    let missing = Err(WriterError::MissingEndOfFileRecord);
    assert_eq!(written(&[]), missing);
    assert_eq!(written(&[end(), end(), data(0)]), missing);
    assert_eq!(
        written(&[end(), end(), end()]),
        Err(WriterError::MultipleEndOfFileRecords(3))
    );
    assert_eq!(
        written(&[data(256), end(), end()]),
        Err(WriterError::MultipleEndOfFileRecords(2))
    );
    assert_eq!(
        written(&[data(1), data(300), data(256), end()]),
        Err(WriterError::DataExceedsMaximumLength(300))
    );
    assert_eq!(written(&[end()]).as_deref(), Ok(":00000001FF\n"));
}

#[test]
fn texts_are_cut_at_line_ends() {
    let all = ReaderOptions {
        stop_after_first_error: false,
        stop_after_eof: false,
    };
    let answers = |text| -> Vec<_> { Reader::new_with_options(text, all).collect() };
    let end = Ok(Record::EndOfFile);
    assert_eq!(answers(""), vec![]);
    assert_eq!(answers("\n\r\n\n"), vec![]);
    assert_eq!(answers("\r\r\n"), vec![Err(ReaderError::MissingStartCode)]);
    assert_eq!(
        answers(":00000001FF\r"),
        vec![Err(ReaderError::ContainsInvalidCharacters(11))]
    );
    assert_eq!(
        answers(":00000001FF\r\n:00000001FF"),
        vec![end.clone(), end.clone()]
    );
    assert_eq!(Reader::new(":00000001FF\n:00000001FF").count(), 1);
    assert_eq!(Reader::new(":\n:00000001FF").count(), 1);
    let mut reader = ByteReader::new(b"\xFF\n:00000001FF");
    assert_eq!(reader.next(), Some(Err(ReaderError::MissingStartCode)));
    assert_eq!(
        (reader.next(), reader.next(), reader.line()),
        (None, None, 1)
    );
    assert_eq!(
        ReaderOptions::default(),
        ReaderOptions {
            stop_after_first_error: true,
            stop_after_eof: true
        }
    );
}

#[test]
fn loads_are_refused_and_change_nothing() {
    let end = ":00000001FF\n";
    let run = |text: &str, first, page: usize, marks: usize| {
        let (mut bytes, mut places) = (vec![0xEE; page], vec![0xEE; marks]);
        let answer = load(text, first, &mut bytes, &mut places);
        if answer.is_err() {
            assert!(bytes.iter().chain(&places).all(|&byte| byte == 0xEE));
        }
        answer
    };
    assert_eq!(run("", 0, 1, 2), Err(LoadError::BadWindow));
    assert_eq!(run(end, 0, 65_537, 8193), Err(LoadError::BadWindow));
    assert_eq!(run(end, u32::MAX, 2, 1), Err(LoadError::BadWindow));
    assert_eq!(
        run(end, u32::MAX, 1, 1).map(|loaded| loaded.data_records),
        Ok(0)
    );
    assert_eq!(run(end, 0, 0, 0).map(|loaded| loaded.data_records), Ok(0));
    assert_eq!(run("\n\n", 0, 1, 1), Err(LoadError::MissingEndOfFileRecord));
    let error = ReaderError::RecordTooShort;
    assert_eq!(
        run("\n:\n", 0, 1, 1),
        Err(LoadError::Line(LineError { line: 2, error }))
    );
}

/// The marks of so many places, of which these are marked: no unused bit is set.
fn packed(size: usize, marked: impl Iterator<Item = usize>) -> Vec<u8> {
    let mut marks = vec![0; (size + 7) / 8];
    marked.for_each(|place| marks[place / 8] |= 1 << (place % 8));
    marks
}

/// What these lines and an end record come to in a page: the marked addresses with their bytes, or the
/// address outside.
fn loaded(lines: &str, first: u32, size: usize) -> Result<Vec<(u32, u8)>, u32> {
    let text = format!("{lines}:00000001FF\n");
    let (mut page, mut marks) = (vec![0xEE; size], vec![0xEE; (size + 7) / 8]);
    match load(&text, first, &mut page, &mut marks) {
        Ok(loaded) => {
            assert_eq!(loaded.data_records, 1);
            let is_marked = |place: usize| marks[place / 8] >> (place % 8) & 1 == 1;
            let places = (first..).zip(page).enumerate();
            let (marked, rest): (Vec<_>, Vec<_>) = places.partition(|&(place, _)| is_marked(place));
            assert!(rest.iter().all(|&(_, (_, byte))| byte == 0xEE));
            assert_eq!(marks, packed(size, marked.iter().map(|&(place, _)| place)));
            Ok(marked.into_iter().map(|(_, placed)| placed).collect())
        }
        Err(LoadError::OutsideWindow { address, .. }) => {
            assert!(page.iter().chain(&marks).all(|&byte| byte == 0xEE));
            Err(address)
        }
        Err(other) => panic!("{other}"),
    }
}

/// What a record of AA and BB across offset FFFF, after these lines, comes to.
fn crossing(ahead: &str, first: u32, size: usize) -> Result<Vec<(u32, u8)>, u32> {
    loaded(&format!("{ahead}:02FFFF00AABB9B\n"), first, size)
}

#[test]
fn segments_wrap() {
    let full = 65_536;
    for (ahead, base) in [
        ("", 0),
        (":020000020000FC\n", 0),
        (":020000021200EA\n", 0x1_2000),
        (":02000002F0000C\n", 0xF_0000),
        (":02000002FFFFFE\n", 0xF_FFF0),
        (":020000040001F9\n:020000021200EA\n", 0x1_2000),
        (":020000021200EA\n:0400000300003800C1\n", 0x1_2000),
    ] {
        let end = base + 0xFFFF;
        let both = Ok(vec![(base, 0xBB), (end, 0xAA)]);
        assert_eq!(crossing(ahead, base, full), both, "{ahead}");
        assert_eq!(crossing(ahead, end, 2), Err(base), "{ahead}");
        assert_eq!(crossing(ahead, base, 8), Err(end), "{ahead}");
    }
    // inside the window, outside, and inside again
    assert_eq!(loaded(":03FFFE001122339A\n", 0, full - 1), Err(0xFFFF));
}

#[test]
fn lines_do_not_wrap_at_a_segment() {
    let two = |at| Ok(vec![(at, 0xAA), (at + 1, 0xBB)]);
    assert_eq!(crossing(":020000040000FA\n", 0xFFFF, 2), two(0xFFFF));
    assert_eq!(
        crossing(":020000021200EA\n:020000040001F9\n", 0x1_FFFF, 2),
        two(0x1_FFFF)
    );
    assert_eq!(crossing(":02000004FFFFFC\n", u32::MAX, 1), Err(0));
    assert_eq!(crossing(":02000004FFFFFC\n", 0, 1), Err(u32::MAX));
}

#[test]
fn checksums() {
    assert_eq!(checksum([0x00, 0x00, 0x00, 0x01]), 0xFF);
    assert_eq!(checksum([]), 0);
    assert_eq!(checksum(vec![0xFF; 300]), 44);
    assert_eq!(checksum("0"), 0xD0);
}

/// Each refusal of a line, with its number and its text.
const READER_ERRORS: [(ReaderError, u32, &str); 9] = [
    (ReaderError::MissingStartCode, 1, "missing start code ':'"),
    (
        ReaderError::ContainsInvalidCharacters(16),
        2,
        "column 17: invalid characters encountered in record",
    ),
    (ReaderError::RecordTooShort, 3, "too short"),
    (ReaderError::RecordTooLong, 4, "too long"),
    (
        ReaderError::RecordNotEvenLength,
        5,
        "record does not contain a whole number of bytes",
    ),
    (
        ReaderError::ChecksumMismatch(255, 14),
        6,
        "invalid checksum 'FF', expecting '0E'",
    ),
    (
        ReaderError::PayloadLengthMismatch,
        7,
        "payload length does not match record header",
    ),
    (
        ReaderError::UnsupportedRecordType(6),
        8,
        "unsupported IHEX record type '06'",
    ),
    (
        ReaderError::InvalidLengthForType,
        9,
        "payload length invalid for record type",
    ),
];

/// Each refusal of a writer, with its number and its text.
const WRITER_ERRORS: [(WriterError, u32, &str); 4] = [
    (
        WriterError::DataExceedsMaximumLength(300),
        12,
        "record has 300 bytes (max 255)",
    ),
    (
        WriterError::MissingEndOfFileRecord,
        13,
        "object is missing end of file record",
    ),
    (
        WriterError::MultipleEndOfFileRecords(2),
        14,
        "object contains 2 end of file records",
    ),
    (
        WriterError::SynthesisFailed,
        0,
        "unable to write string representation of record",
    ),
];

/// Each refusal of a load that is not a line's, with its number, its line and its text.
const LOAD_ERRORS: [(LoadError, u32, Option<usize>, &str); 5] = [
    (
        LoadError::MissingEndOfFileRecord,
        13,
        None,
        "text has no end of file record",
    ),
    (
        LoadError::BadWindow,
        16,
        None,
        "page and marks do not fit the window",
    ),
    (
        LoadError::OutsideWindow {
            line: 2,
            address: 0x12005,
        },
        17,
        Some(2),
        "line 2: address 00012005 lies outside the window",
    ),
    (
        LoadError::StartConflict { line: 3 },
        21,
        Some(3),
        "line 3: start record states another start than the first one",
    ),
    (
        LoadError::BadTable(BadTable::PoolTooLong(65_537)),
        23,
        None,
        "pool has 65537 bytes, more than 65536",
    ),
];

#[test]
fn errors_print_and_have_numbers() {
    for (error, number, text) in READER_ERRORS {
        assert_eq!((error.number(), error.to_string().as_str()), (number, text));
        let refused = LineError { line: 7, error };
        let behind = if number == 2 { "," } else { ":" };
        assert_eq!(refused.to_string(), format!("line 7{behind} {text}"));
        let load = LoadError::Line(refused);
        assert_eq!((load.number(), load.line()), (number, Some(7)));
        assert_eq!(load.column(), (number == 2).then_some(17));
        assert_eq!(load.to_string(), refused.to_string());
    }
    for (error, number, text) in WRITER_ERRORS {
        assert_eq!((error.number(), error.to_string().as_str()), (number, text));
    }
    for (error, number, line, text) in LOAD_ERRORS {
        assert_eq!((error.number(), error.line()), (number, line));
        assert_eq!((error.column(), error.to_string().as_str()), (None, text));
    }
}

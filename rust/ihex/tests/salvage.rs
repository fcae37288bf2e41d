//! Salvage: what is kept, what is listed and in which words, and buffers that are lent.

use ihex::{
    load, marks_len, salvage, salvage_into, Dropped, LoadError, ReaderError, Reason, SalvageError,
    DROPPED_SIZE,
};

const END: &str = ":00000001FF";
const DATA: &str = ":0100000011EE";
const LINEAR: &str = ":020000040001F9";
const SEGMENT: &str = ":020000021200EA";

/// What a buffer holds that nobody wrote to.
const UNTOUCHED: u8 = 0x5A;

/// How many bytes of a buffer lie after what is written.
const AFTER: usize = 21;

/// The lines, with an LF after each.
fn text(lines: &[&str]) -> String {
    lines.iter().map(|line| line.to_string() + "\n").collect()
}

/// What the list says, a line each.
fn told<I: Iterator<Item = Dropped>>(dropped: I) -> Vec<String> {
    dropped.map(|one| one.to_string()).collect()
}

/// The clean file and the list of a text, by both functions, with room to spare, none, and one too few.
fn saved(capture: &[u8]) -> (String, Vec<Dropped>) {
    let owned = salvage(capture).expect("memory");
    let list: Vec<Dropped> = owned.dropped().collect();
    let (length, entries) = (owned.clean.len(), list.len() * DROPPED_SIZE);
    for after in [0, AFTER] {
        let mut out = vec![UNTOUCHED; length + after];
        let mut room = vec![UNTOUCHED; entries + after];
        let lent = salvage_into(capture, &mut out, &mut room).expect("room");
        assert_eq!(lent.clean, owned.clean);
        assert_eq!(lent.dropped.collect::<Vec<_>>(), list);
        assert_eq!(out[length..], vec![UNTOUCHED; after]);
        assert_eq!(room[entries..], vec![UNTOUCHED; after]);
    }
    refuses(capture, length - 1, entries, SalvageError::OutputFull);
    refuses(capture, 0, 0, SalvageError::OutputFull);
    if entries > 0 {
        refuses(capture, length, entries - 1, SalvageError::ListFull);
        refuses(capture, length - 1, entries - 1, SalvageError::OutputFull);
    }
    assert!(length <= capture.len() + 13);
    let again = salvage(&owned.clean).expect("memory");
    assert_eq!((&again.clean, again.dropped().len()), (&owned.clean, 0));
    (owned.clean, list)
}

/// The text is refused so with buffers of these lengths, and no byte of them changes.
fn refuses(capture: &[u8], out: usize, list: usize, error: SalvageError) {
    let (mut out, mut list) = (vec![UNTOUCHED; out], vec![UNTOUCHED; list]);
    let refused = salvage_into(capture, &mut out, &mut list).unwrap_err();
    assert_eq!(refused, error);
    let held = out.iter().chain(&list);
    assert!(held.copied().all(|byte| byte == UNTOUCHED));
}

/// These lines come to these, and to a list in these words.
fn comes_to(capture: &[&str], kept: &[&str], list: &[&str]) {
    let (clean, dropped) = saved(text(capture).as_bytes());
    assert_eq!(
        (clean, told(dropped.into_iter())),
        (
            text(kept),
            list.iter().map(|word| word.to_string()).collect()
        )
    );
}

const UNKNOWN: &str = "base unknown after a refused line";
const ADDED: &str = "end of file record added, the text has none";

#[test]
fn an_undamaged_text_stays() {
    comes_to(&[LINEAR, DATA, END], &[LINEAR, DATA, END], &[]);
    comes_to(&[END, "x"], &[END], &[]);
    comes_to(&["", DATA, "", END], &[DATA, END], &[]);
}

#[test]
fn lines_are_written_as_the_writer_writes_them() {
    comes_to(&[":0100000011ee\r", ":00123401b9\r"], &[DATA, END], &[]);
    let (clean, dropped) = saved(b":0100000011eE\n:00000001fF");
    assert_eq!((clean, dropped.len()), (text(&[DATA, END]), 0));
}

#[test]
fn data_is_dropped_until_a_base_comes() {
    let base = |number: &str| format!("line {number}: {UNKNOWN}");
    for set in [LINEAR, SEGMENT] {
        comes_to(
            &[DATA, "x", DATA, ":0000000000", DATA, set, DATA, END],
            &[DATA, set, DATA, END],
            &[
                "line 2: missing start code ':'",
                &base("3"),
                &base("4"),
                &base("5"),
            ],
        );
    }
    let start = ":04000005000000CD2A";
    comes_to(
        &["x", start, DATA, END],
        &[start, END],
        &["line 1: missing start code ':'", &base("3")],
    );
}

#[test]
fn an_end_is_added_and_listed_last() {
    comes_to(&[], &[END], &[ADDED]);
    comes_to(
        &[DATA, "", "x"],
        &[DATA, END],
        &["line 3: missing start code ':'", ADDED],
    );
    let added = saved(b"").1[0];
    assert_eq!((added.line, added.reason), (0, Reason::EndAdded));
    assert_eq!((added.reason.number(), added.reason.column()), (13, None));
}

#[test]
fn each_refusal_is_told_in_words_with_line_and_column() {
    let long = format!(":{}", "0".repeat(521));
    let late = format!(":{}G", "0".repeat(65_534));
    let later = format!(":{}G", "0".repeat(65_535));
    let refused: [(&str, ReaderError, &str); 12] = [
        (
            "x",
            ReaderError::MissingStartCode,
            ": missing start code ':'",
        ),
        (
            ":G",
            ReaderError::ContainsInvalidCharacters(1),
            ", column 2: invalid characters encountered in record",
        ),
        (
            ":00000001FF ",
            ReaderError::ContainsInvalidCharacters(11),
            ", column 12: invalid characters encountered in record",
        ),
        (
            &late,
            ReaderError::ContainsInvalidCharacters(65_535),
            ", column 65536 or beyond: invalid characters encountered in record",
        ),
        (
            &later,
            ReaderError::ContainsInvalidCharacters(65_535),
            ", column 65536 or beyond: invalid characters encountered in record",
        ),
        (":", ReaderError::RecordTooShort, ": too short"),
        (&long, ReaderError::RecordTooLong, ": too long"),
        (
            ":00000001FF0",
            ReaderError::RecordNotEvenLength,
            ": record does not contain a whole number of bytes",
        ),
        (
            ":00000001FE",
            ReaderError::ChecksumMismatch(0xFF, 0xFE),
            ": invalid checksum 'FF', expecting 'FE'",
        ),
        (
            ":01000000FF",
            ReaderError::PayloadLengthMismatch,
            ": payload length does not match record header",
        ),
        (
            ":00000006FA",
            ReaderError::UnsupportedRecordType(6),
            ": unsupported IHEX record type '06'",
        ),
        (
            ":0100000100FE",
            ReaderError::InvalidLengthForType,
            ": payload length invalid for record type",
        ),
    ];
    for (line, error, words) in refused {
        let (clean, list) = saved(text(&["", line, END]).as_bytes());
        assert_eq!(clean, text(&[END]));
        assert_eq!((list.len(), list[0].line), (1, 2));
        assert_eq!(list[0].reason, Reason::Refused(error));
        assert_eq!(list[0].reason.number(), error.number());
        assert_eq!(list[0].reason.column(), error.column());
        assert_eq!(list[0].to_string(), format!("line 2{words}"));
    }
}

#[test]
fn bytes_that_are_not_utf_8_are_refused_lines() {
    let (clean, list) = saved(b":0100000011EE\n:01\xFF0000022DD\n\xFE\n:00000001FF\n");
    assert_eq!(clean, text(&[DATA, END]));
    let words = [
        "line 2, column 4: invalid characters encountered in record",
        "line 3: missing start code ':'",
    ];
    assert_eq!(told(list.into_iter()), words);
}

#[test]
fn a_list_is_an_iterator_that_knows_its_length() {
    let owned = salvage("x\nx\n:0100000011EE\n").expect("memory");
    let mut dropped = owned.dropped();
    assert_eq!((dropped.len(), dropped.size_hint()), (4, (4, Some(4))));
    let all: Vec<usize> = dropped.clone().map(|one| one.line).collect();
    assert_eq!(all, [1, 2, 3, 0]);
    assert_eq!(dropped.by_ref().count(), 4);
    assert_eq!((dropped.next(), dropped.next()), (None, None));
    assert_eq!(owned, owned.clone());
}

#[test]
fn lines_of_high_numbers() {
    let mut capture = "\n".repeat(70_000);
    capture += "x\n";
    let (_, list) = saved(capture.as_bytes());
    assert_eq!(
        told(list.into_iter()),
        ["line 70001: missing start code ':'", ADDED]
    );
}

#[test]
fn refusals_have_numbers_and_words() {
    let all = [
        (
            SalvageError::OutputFull,
            15,
            "clean file is longer than the output",
        ),
        (
            SalvageError::ListFull,
            22,
            "list of dropped lines is longer than its room",
        ),
        (
            SalvageError::SynthesisFailed,
            0,
            "no memory for what is saved of the text",
        ),
    ];
    for (error, number, words) in all {
        assert_eq!(
            (error.number(), error.to_string().as_str()),
            (number, words)
        );
    }
}

/// What a clean file states at an address.
fn stated(clean: &str, address: u32) -> Option<u8> {
    let (mut page, mut marks) = ([0], [0; marks_len(1)]);
    let loaded = load(clean, address, &mut page, &mut marks);
    loaded.ok().filter(|_| marks[0] == 1).map(|_| page[0])
}

/// Each limit that the documentation names, on its smallest text.
#[test]
fn what_is_not_promised() {
    let (older, list) = saved(text(&[DATA, ":0100000022DE", END]).as_bytes());
    assert_eq!((stated(&older, 0), list.len()), (Some(0x11), 1));
    let tail = [":00000001FE", ":020000040000FA", ":010000009966", END];
    let (tail, list) = saved(text(&tail).as_bytes());
    assert_eq!(
        (stated(&tail, 0), told(list.into_iter())),
        (
            Some(0x99),
            vec!["line 1: invalid checksum 'FF', expecting 'FE'".to_string()]
        )
    );
    for capture in [&["", DATA, END][..], &[DATA, END]] {
        let (lost, list) = saved(text(capture).as_bytes());
        assert_eq!((stated(&lost, 0), list.len()), (Some(0x11), 0));
    }
    let (both, list) = saved(text(&[":0100000012ED", END]).as_bytes());
    assert_eq!((stated(&both, 0), list.len()), (Some(0x12), 0));
}

#[test]
fn starts_that_differ_are_both_kept() {
    let (one, other) = (":04000005000000CD2A", ":04000005000000CE29");
    comes_to(&[one, other, END], &[one, other, END], &[]);
    let refused = load(&text(&[one, other, END]), 0, &mut [], &mut []);
    assert_eq!(refused, Err(LoadError::StartConflict { line: 2 }));
}

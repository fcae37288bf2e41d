//! A text in chunks, by example: wherever the cuts fall, the answers are those of the whole text.

use ihex::{ByteReader, ChunkReader, LineError, ReaderError, ReaderOptions, Record};

type Answer = Result<(usize, Record), LineError>;

/// Every line end, an empty line of each kind, refused lines, and a last line that no LF ends.
const TEXT: &[u8] =
    b"\r\n\n:0100000041BE\r\n:00000001FE\n\r\r\n\n:00000001FF\n\n\r\n:0:\r\n:020000021200EA\r";

fn stops(n: u8) -> ReaderOptions {
    ReaderOptions {
        stop_after_first_error: n & 1 != 0,
        stop_after_eof: n & 2 != 0,
    }
}

fn whole(text: &[u8], options: ReaderOptions) -> Vec<Answer> {
    let reader = ByteReader::new_with_options(text, options);
    reader.numbered().collect()
}

/// The answers to all chunks and to the end.
fn row<'a>(
    chunks: impl IntoIterator<Item = &'a [u8]>,
    options: ReaderOptions,
) -> (Vec<Answer>, ChunkReader) {
    let mut reader = ChunkReader::new_with_options(options);
    let mut answers = Vec::new();
    for chunk in chunks {
        answers.extend(reader.feed(chunk).numbered());
    }
    answers.extend(reader.finish().numbered());
    (answers, reader)
}

#[test]
fn two_cuts_anywhere_change_no_answer() {
    for options in (0..4).map(stops) {
        let should = whole(TEXT, options);
        for i in 0..=TEXT.len() {
            for j in i..=TEXT.len() {
                let chunks = [&TEXT[..i], &TEXT[i..j], &TEXT[j..]];
                let (answers, reader) = row(chunks, options);
                assert_eq!(answers, should, "cut at {i} and {j}, {options:?}");
                let last = should.last().map_or(0, |answer| match answer {
                    Ok((line, _)) => *line,
                    Err(refused) => refused.line,
                });
                assert_eq!(reader.line(), last);
            }
        }
    }
    assert_eq!(whole(TEXT, stops(0)).len(), 6);
}

#[test]
fn chunks_of_any_size_change_no_answer() {
    for options in (0..4).map(stops) {
        for n in 1..=TEXT.len() {
            let (answers, _) = row(TEXT.chunks(n), options);
            assert_eq!(answers, whole(TEXT, options), "{n}, {options:?}");
            let with_empty = TEXT.chunks(n).flat_map(|chunk| [&[][..], chunk, &[]]);
            assert_eq!(row(with_empty, options).0, answers, "{n}, {options:?}");
        }
    }
}

#[test]
fn a_cr_at_a_chunks_end_waits_for_what_follows() {
    let read = |chunks: &[&str]| -> Vec<Answer> {
        row(chunks.iter().map(|chunk| chunk.as_bytes()), stops(0)).0
    };
    let refused = |line, error| vec![Err(LineError { line, error })];
    let invalid = ReaderError::ContainsInvalidCharacters;
    let end = vec![Ok((1, Record::EndOfFile))];
    assert_eq!(read(&[":00000001FF\r", "\n"]), end);
    assert_eq!(read(&[":00000001FF\r", "", "\n"]), end);
    assert_eq!(read(&[":00000001FF", "\r", "\n"]), end);
    assert_eq!(read(&[":00000001FF\r"]), refused(1, invalid(11)));
    assert_eq!(read(&[":00000001FF\r", "\r\n"]), refused(1, invalid(11)));
    assert_eq!(read(&[":000000\r", "01FF\n"]), refused(1, invalid(7)));
    assert_eq!(read(&["\r", "\n", "\r", "\n"]), vec![]);
    let start = ReaderError::MissingStartCode;
    assert_eq!(read(&["\r", "\n\n\r"]), refused(3, start));
}

/// The line of a data record of 255 zeros: with 521 characters the longest.
fn longest() -> Vec<u8> {
    format!(":FF000000{}01", "00".repeat(255)).into_bytes()
}

#[test]
fn long_lines_are_judged_as_they_are() {
    for n in [522, 523, 524, 600, 1043, 1044, 70_000] {
        let digits = [b":", &vec![b'0'; n - 1][..]].concat();
        let mut cases = vec![(digits.clone(), ReaderError::RecordTooLong)];
        for place in [1, 520, 521, 522, 523, n - 1] {
            let place = place.min(n - 1);
            let mut line = digits.clone();
            line[place] = b'G';
            let named = place.min(65_535) as u16;
            cases.push((line, ReaderError::ContainsInvalidCharacters(named)));
        }
        cases.push((vec![b'0'; n], ReaderError::MissingStartCode));
        for (line, error) in cases {
            for end in ["\n", "\r\n"] {
                let text = [&line[..], end.as_bytes(), b":00000001FF"].concat();
                let should = vec![
                    Err(LineError { line: 1, error }),
                    Ok((2, Record::EndOfFile)),
                ];
                for size in [1, 64, 521, 522, 523, n, n + 1] {
                    assert_eq!(row(text.chunks(size), stops(0)).0, should, "{n}, {size}");
                }
            }
        }
    }
}

#[test]
fn a_long_line_may_end_the_text() {
    let digits = [b":", &[b'0'; 600][..]].concat();
    let judged = |end: &str| {
        let text = [&digits[..], end.as_bytes()].concat();
        row(text.chunks(100), stops(0)).0
    };
    let refused = |error| vec![Err(LineError { line: 1, error })];
    assert_eq!(judged(""), refused(ReaderError::RecordTooLong));
    assert_eq!(
        judged("\r"),
        refused(ReaderError::ContainsInvalidCharacters(601))
    );
}

#[test]
fn the_longest_line_is_read() {
    let text = [&longest()[..], b"\r\n"].concat();
    for size in [1, 7, 520, 521, 522, 523] {
        let (answers, reader) = row(text.chunks(size), stops(3));
        let record = Record::Data {
            offset: 0,
            value: vec![0; 255],
        };
        assert_eq!(answers, [Ok((1, record))]);
        assert_eq!(reader.shown(), longest());
    }
}

#[test]
fn the_line_of_a_record_is_shown() {
    let lines: Vec<&[u8]> = TEXT.split(|&byte| byte == b'\n').collect();
    for size in 1..=TEXT.len() {
        let mut reader = ChunkReader::new_with_options(stops(0));
        let mut shown = 0;
        for chunk in TEXT.chunks(size) {
            let mut answers = reader.feed(chunk);
            while let Some(answer) = answers.next() {
                let line = lines[answers.line() - 1];
                let line = line.strip_suffix(b"\r").unwrap_or(line);
                let should = if answer.is_ok() { line } else { &[] };
                assert_eq!(answers.shown(), should, "{size}");
                shown += answer.map_or(0, |_| 1);
            }
        }
        assert_eq!((shown, reader.shown()), (2, &[][..]));
    }
    let (_, reader) = row([&b":0000"[..], b"0001FF"], stops(0));
    assert_eq!(reader.shown(), b":00000001FF");
}

fn assert_silent(reader: &mut ChunkReader, chunk: &str) {
    assert_eq!(reader.feed(chunk).next(), None);
    assert_eq!(reader.finish().next(), None);
}

#[test]
fn nothing_follows_a_stop() {
    let end = ":00000001FF\n";
    let mut reader = ChunkReader::new();
    assert_eq!(reader.line(), 0);
    assert_eq!(reader.feed(&end.repeat(2)).count(), 1);
    assert_silent(&mut reader, end);
    assert_eq!(reader.line(), 1);

    let mut reader = ChunkReader::new();
    assert_eq!(reader.feed(&[":\n", end].concat()).count(), 1);
    assert_silent(&mut reader, end);
}

#[test]
fn nothing_follows_the_texts_end() {
    let end = ":00000001FF\n";
    let mut reader = ChunkReader::new_with_options(stops(0));
    assert_eq!(reader.feed(end).count(), 1);
    assert_eq!(reader.finish().next(), None);
    assert_silent(&mut reader, end);

    let mut reader = ChunkReader::new_with_options(stops(0));
    assert_eq!(reader.feed(end.trim_end()).next(), None);
    assert_eq!(reader.finish().next(), Some(Ok(Record::EndOfFile)));
    assert_silent(&mut reader, end);
}

/// The answers where of each chunk only so many are asked for, and all at the end.
fn asked(chunks: &[&[u8]], few: usize, options: ReaderOptions) -> Vec<Answer> {
    let mut reader = ChunkReader::new_with_options(options);
    let mut answers = Vec::new();
    for chunk in chunks {
        answers.extend(reader.feed(chunk).numbered().take(few));
    }
    loop {
        let before = answers.len();
        answers.extend(reader.finish().numbered().take(few.max(1)));
        if answers.len() == before {
            return answers;
        }
    }
}

#[test]
fn dropping_answers_loses_none() {
    for options in (0..4).map(stops) {
        let should = whole(TEXT, options);
        for size in 1..=TEXT.len() {
            let chunks: Vec<&[u8]> = TEXT.chunks(size).collect();
            for few in 0..4 {
                let answers = asked(&chunks, few, options);
                assert_eq!(answers, should, "{size}, {few}, {options:?}");
            }
        }
    }
}

#[test]
fn answers_stay_at_their_end() {
    let mut reader = ChunkReader::new_with_options(stops(0));
    let mut answers = reader.feed(":00000001FF\n:00000001");
    assert!(answers.next().is_some());
    assert_eq!((answers.next(), answers.next()), (None, None));
    drop(answers);
    assert_eq!(reader.feed("FF\n").next(), Some(Ok(Record::EndOfFile)));
    let mut answers = reader.finish();
    assert_eq!((answers.next(), answers.next()), (None, None));
}

#[test]
fn a_clone_goes_on_by_itself() {
    let mut reader = ChunkReader::default();
    assert_eq!(reader.feed("\n:00000001").next(), None);
    let mut clone = reader.clone();
    assert_eq!(reader.feed("FF\n").next(), Some(Ok(Record::EndOfFile)));
    let refused = clone.feed("FE\n").next();
    assert_eq!(
        refused,
        Some(Err(ReaderError::ChecksumMismatch(0xFF, 0xFE)))
    );
    assert_eq!((reader.line(), clone.line()), (2, 2));
    assert_eq!(
        (reader.shown(), clone.shown()),
        (&b":00000001FF"[..], &[][..])
    );
}

#[test]
fn one_answer_of_each_chunk_leaves_one_line() {
    let mut reader = ChunkReader::new();
    let line = ":020000021200EA\n";
    assert!(reader.feed(&line.repeat(2)).next().is_some());
    let held = format!("{reader:?}").len();
    for _ in 0..1000 {
        assert!(reader.feed(line).next().is_some());
    }
    assert!(format!("{reader:?}").len() < held + 100);
    assert_eq!(reader.finish().count(), 1);
}

#[test]
fn forgotten_answers_do_not_move_the_next_chunk() {
    let mut reader = ChunkReader::new();
    let mut answers = reader.feed(":020000021200EA\n:02000004FFFFFC\n");
    assert!(answers.next().is_some());
    std::mem::forget(answers);
    let next: Vec<_> = reader.feed(":00000001FF\n").collect();
    assert_eq!(next, [Ok(Record::EndOfFile)]);
}

const END: &str = ":00000001FF\n";

/// Dumps that end with an end record. The second begins with empty lines, and the third has a line that is refused.
const DUMPS: [&str; 3] = [
    ":0100000041BE\n:00000001FF\n",
    "\n\n:020000021200EA\n\n:00000001FF\n",
    ":00000001FE\n:00000001FF\n",
];

/// The dumps with this line end.
fn dumps_with(end: &str, n: usize) -> Vec<String> {
    let dumps = DUMPS[..n].iter();
    dumps.map(|dump| dump.replace('\n', end)).collect()
}

/// How a reader that has stopped is followed by another.
type Follow = fn(ChunkReader, ReaderOptions) -> ChunkReader;

fn by_itself(mut reader: ChunkReader, _: ReaderOptions) -> ChunkReader {
    reader.begin_next();
    reader
}

fn by_a_new_one(reader: ChunkReader, options: ReaderOptions) -> ChunkReader {
    let mut next = ChunkReader::new_with_options(options);
    drop(next.feed(reader.held()));
    next
}

/// The answers to each dump. Of each chunk only so many are asked for at a time, and all at the end.
fn dump_rows<'a>(
    chunks: impl IntoIterator<Item = &'a [u8]>,
    few: usize,
    options: ReaderOptions,
    follow: Follow,
) -> Vec<Vec<Answer>> {
    let mut reader = ChunkReader::new_with_options(options);
    let mut rows = vec![Vec::new()];
    for mut chunk in chunks {
        loop {
            let row = rows.last_mut().unwrap();
            row.extend(reader.feed(chunk).numbered().take(few));
            if !reader.is_finished() {
                assert_eq!(reader.used(), chunk.len());
                break;
            }
            chunk = &chunk[reader.used()..];
            reader = follow(reader, options);
            rows.push(Vec::new());
        }
    }
    loop {
        let row = rows.last_mut().unwrap();
        let before = row.len();
        row.extend(reader.finish().numbered());
        assert!(reader.is_finished());
        if row.len() == before {
            break;
        }
        reader = follow(reader, options);
        rows.push(Vec::new());
    }
    assert_eq!(reader.held(), b"");
    if rows.last().unwrap().is_empty() {
        rows.pop();
    }
    rows
}

/// Holds the answers to these dumps, joined and cut, to the answers to each.
fn assert_dumps(dumps: &[String], options: ReaderOptions) {
    let text = dumps.concat().into_bytes();
    let alone = dumps.iter().map(|dump| whole(dump.as_bytes(), options));
    let should: Vec<Vec<Answer>> = alone.collect();
    for follow in [by_itself as Follow, by_a_new_one] {
        for few in [usize::MAX, 0, 1, 2] {
            for cut in 0..=text.len() {
                let chunks = [&text[..cut], &text[cut..]];
                let rows = dump_rows(chunks, few, options, follow);
                assert_eq!(rows, should, "cut at {cut}, {few} at a time");
            }
            for size in [1, 5, 12, 13] {
                let rows = dump_rows(text.chunks(size), few, options, follow);
                assert_eq!(rows, should, "chunks of {size}, {few} at a time");
            }
        }
    }
}

#[test]
fn each_dump_has_its_own_answers() {
    for end in ["\n", "\r\n"] {
        for n in [2, 3] {
            assert_dumps(&dumps_with(end, n), stops(2));
        }
    }
}

#[test]
fn a_new_text_begins_after_a_refused_line() {
    for end in ["\n", "\r\n"] {
        // With both stops on, the third dump ends where its first line is refused.
        let mut dumps = dumps_with(end, 3);
        let third = dumps.remove(2);
        let (refused, last) = third.split_at(third.find('\n').unwrap() + 1);
        dumps.extend([refused.into(), last.into()]);
        assert_dumps(&dumps, stops(3));
    }
}

#[test]
fn with_the_stops_off_all_is_used() {
    let text = DUMPS.concat().into_bytes();
    let should = whole(&text, stops(0));
    assert_eq!(should.len(), 6);
    for few in [usize::MAX, 0, 1] {
        for cut in 0..=text.len() {
            let chunks = [&text[..cut], &text[cut..]];
            let rows = dump_rows(chunks, few, stops(0), by_itself);
            assert_eq!(rows, [&should[..]], "cut at {cut}, {few} at a time");
        }
    }
}

/// Where the next line begins, after each line that has an answer.
fn line_ends(text: &str) -> Vec<usize> {
    let mut end = 0;
    let mut found = Vec::new();
    for line in text.split_inclusive('\n') {
        end += line.len();
        if !line.trim_end().is_empty() {
            found.push(end);
        }
    }
    found
}

#[test]
fn what_is_used_ends_with_the_line_answered() {
    for end in ["\n", "\r\n"] {
        let text = dumps_with(end, 3).concat() + end + ":00";
        let mut reader = ChunkReader::new_with_options(stops(0));
        let mut answers = reader.feed(&text);
        assert_eq!(answers.used(), 0);
        for should in line_ends(&text).into_iter().take(6) {
            assert!(answers.next().is_some());
            assert_eq!(answers.used(), should);
        }
        assert_eq!((answers.next(), answers.used()), (None, text.len()));
        assert_eq!((answers.next(), answers.used()), (None, text.len()));
        drop(answers);
        assert_eq!((reader.used(), reader.held()), (text.len(), &[][..]));
    }
}

#[test]
fn empty_lines_after_a_stop_are_not_used() {
    for (lines, stop) in [(END, 12), (":00000001FF\r\n", 13), (":\n", 2)] {
        let text = [lines, "\n\r\n", END].concat();
        for cut in 0..stop {
            let mut reader = ChunkReader::new();
            assert_eq!(reader.feed(&text[..cut]).next(), None);
            assert_eq!((reader.used(), reader.is_finished()), (cut, false));
            let mut answers = reader.feed(&text[cut..]);
            assert!(answers.next().is_some());
            assert_eq!(answers.used(), stop - cut);
            assert_eq!((answers.next(), answers.used()), (None, stop - cut));
            drop(answers);
            assert_eq!((reader.used(), reader.is_finished()), (stop - cut, true));
            assert_eq!(reader.held(), b"");
        }
    }
}

#[test]
fn a_stop_in_what_is_held_uses_nothing_of_the_chunk() {
    let mut reader = ChunkReader::new();
    drop(reader.feed(&[END, "\n:0100"].concat()));
    assert_eq!((reader.used(), reader.is_finished()), (18, false));
    assert_eq!(reader.held(), b":00000001FF\n\n:0100");
    let mut answers = reader.feed("000041BE\n");
    assert_eq!(answers.next(), Some(Ok(Record::EndOfFile)));
    assert_eq!(
        (answers.used(), answers.next(), answers.used()),
        (0, None, 0)
    );
    drop(answers);
    assert_eq!((reader.used(), reader.held()), (0, &b"\n:0100"[..]));

    // Nothing changes where it is asked once more.
    assert_eq!(reader.feed("000041BE\n").next(), None);
    assert_eq!((reader.used(), reader.held()), (0, &b"\n:0100"[..]));
    assert_eq!(reader.shown(), b":00000001FF");
    reader.begin_next();
    assert_eq!((reader.line(), reader.is_finished()), (0, false));
    assert_eq!(reader.shown(), b"");
    let answers: Vec<Answer> = reader.feed("000041BE\n").numbered().collect();
    let record = Record::Data {
        offset: 0,
        value: vec![0x41],
    };
    assert_eq!(answers, [Ok((2, record))]);
    assert_eq!((reader.used(), reader.held()), (9, &[][..]));
}

#[test]
fn a_stopped_reader_holds_no_chunk() {
    let mut reader = ChunkReader::new();
    assert_eq!(reader.feed(&END.repeat(2)).count(), 1);
    assert_eq!((reader.used(), reader.held()), (12, &[][..]));
    for chunk in ["", "\n", END] {
        assert_eq!(reader.feed(chunk).next(), None);
        assert_eq!((reader.used(), reader.held()), (0, &[][..]));
    }
}

#[test]
fn the_end_uses_no_chunk() {
    let mut reader = ChunkReader::new();
    assert_eq!(reader.feed(":00000001FF").next(), None);
    assert_eq!(reader.used(), 11);
    let mut answers = reader.finish();
    assert_eq!(answers.next(), Some(Ok(Record::EndOfFile)));
    assert_eq!((answers.next(), answers.used()), (None, 11));
    drop(answers);
    assert_eq!((reader.used(), reader.is_finished()), (11, true));
    reader.begin_next();
    assert_eq!(reader.feed(END).next(), Some(Ok(Record::EndOfFile)));

    // What is used up to a stop stays, too.
    assert_eq!(reader.finish().next(), None);
    assert_eq!(reader.used(), 12);
}

#[test]
fn a_line_that_is_begun_is_no_part_of_the_next_text() {
    for begun in ["\n:00", ":0\r", "\r", &format!("\n{}", "0".repeat(1000))] {
        for ahead in ["", "\n"] {
            let mut reader = ChunkReader::new_with_options(stops(0));
            assert_eq!(reader.feed(begun).next(), None);
            reader.begin_next();
            let text = [ahead, END, ":G\n"].concat();
            let answers: Vec<Answer> = reader.feed(&text).numbered().collect();
            let line = ahead.len() + 1;
            let refused = LineError {
                line: line + 1,
                error: ReaderError::ContainsInvalidCharacters(1),
            };
            assert_eq!(answers, [Ok((line, Record::EndOfFile)), Err(refused)]);
        }
    }
}

#[test]
fn forgotten_answers_say_what_is_used() {
    let text = [END, END].concat();
    let mut reader = ChunkReader::new_with_options(stops(0));
    let mut answers = reader.feed(&text);
    assert!(answers.next().is_some());
    std::mem::forget(answers);
    assert_eq!((reader.used(), reader.held()), (12, &[][..]));
    assert_eq!(reader.feed(&text[12..]).count(), 1);

    // What was held, and is read, is held no more.
    drop(reader.feed(&text));
    let mut answers = reader.feed("\n");
    assert!(answers.next().is_some());
    std::mem::forget(answers);
    assert_eq!((reader.used(), reader.held()), (0, END.as_bytes()));
    assert_eq!(reader.feed("\n").count(), 1);
}

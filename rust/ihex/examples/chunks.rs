use ihex::{ChunkReader, LineError, ReaderError, Record};

fn main() {
    let mut reader = ChunkReader::new();
    // The first line is cut in its payload, and its CR from its LF.
    let mut records: Vec<Record> = Vec::new();
    for chunk in [":01000000", "41BE\r", "\n:00000", "001FF"] {
        for answer in reader.feed(chunk) {
            records.push(answer.unwrap());
        }
    }
    assert_eq!(records.len(), 1);
    assert_eq!((reader.line(), reader.shown()), (1, &b":0100000041BE"[..]));
    // No LF ended the last line: the text's end does.
    for answer in reader.finish() {
        records.push(answer.unwrap());
    }
    assert_eq!(records[1], Record::EndOfFile);
    assert_eq!((reader.line(), reader.shown()), (2, &b":00000001FF"[..]));

    // With the number of the line.
    let mut reader = ChunkReader::new();
    assert_eq!(reader.feed("\n:0000").numbered().next(), None);
    let refused = reader.feed("0001FE\n").numbered().next();
    let error = ReaderError::ChecksumMismatch(0xFF, 0xFE);
    assert_eq!(refused, Some(Err(LineError { line: 2, error })));

    // Only the first answer of a chunk is asked for. The others come ahead of the next chunk's.
    let mut reader = ChunkReader::new();
    let first = reader.feed(":020000021200EA\n:02000004FFFFFC\n").next();
    assert_eq!(first, Some(Ok(Record::ExtendedSegmentAddress(0x1200))));
    let others: Vec<_> = reader.feed(":00000001FF\n").collect();
    let second = Record::ExtendedLinearAddress(0xFFFF);
    assert_eq!(others, [Ok(second), Ok(Record::EndOfFile)]);
}

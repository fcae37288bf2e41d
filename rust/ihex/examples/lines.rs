use ihex::{LineError, Reader, ReaderError, Record};

fn main() {
    let text = "\n:0100000041BE\n\n:00000001FE\n";
    let mut answers = Reader::new(text).numbered();
    let (line, record) = answers.next().unwrap().unwrap();
    assert_eq!((line, record.record_type()), (2, ihex::types::DATA));

    let refused = answers.next().unwrap().unwrap_err();
    let error = ReaderError::ChecksumMismatch(0xFF, 0xFE);
    assert_eq!(refused, LineError { line: 4, error });
    assert_eq!(
        refused.to_string(),
        "line 4: invalid checksum 'FF', expecting 'FE'"
    );
    assert!(answers.next().is_none());

    let all: Result<Vec<(usize, Record)>, LineError> = Reader::new(text).numbered().collect();
    assert_eq!(all.unwrap_err().line, 4);

    // Of a character that is no digit, here an O for a 0, the column is told too. The colon's is 1.
    let text = ":0100000041BE\n\n:040120001020304O3B\n";
    let refused = Reader::new(text).numbered().last().unwrap().unwrap_err();
    assert_eq!((refused.line, refused.error.column()), (3, Some(17)));
    assert_eq!(
        refused.to_string(),
        "line 3, column 17: invalid characters encountered in record"
    );
}

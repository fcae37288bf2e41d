use ihex::{ByteReader, ReaderError, Record};

fn main() {
    let text = b":00000001FF \xFF\n\xC3\n:00000001FF";
    let mut reader = ByteReader::new_with_options(
        text,
        ihex::ReaderOptions {
            stop_after_first_error: false,
            stop_after_eof: true,
        },
    );
    assert_eq!(
        reader.next(),
        Some(Err(ReaderError::ContainsInvalidCharacters(11)))
    );
    assert_eq!(reader.next(), Some(Err(ReaderError::MissingStartCode)));
    assert_eq!(reader.next(), Some(Ok(Record::EndOfFile)));
    assert_eq!(reader.next(), None);
    assert_eq!(reader.line(), 3);

    let line = Record::from_record_bytes(b":\xFF");
    assert_eq!(line, Err(ReaderError::ContainsInvalidCharacters(1)));
}

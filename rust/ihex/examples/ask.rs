use ihex::{ask, LineError, LoadError, ReaderError};

fn main() {
    // The first record lies at 12000 to 12002, and the second states 12001 once more: the last byte counts.
    let text = ":020000021200EA\n:0300000011223397\n:010001004AB4\n:00000001FF\n";
    assert_eq!(ask(text, 0x12000), Ok(Some(0x11)));
    assert_eq!(ask(text, 0x12001), Ok(Some(0x4A)));
    assert_eq!(ask(text, 0x12003), Ok(None));

    // A text that is refused is refused at every address, also after a record that states the byte.
    let damaged = ":0100000011EE\n:00000001FE\n";
    let refused = ask(damaged, 0).unwrap_err();
    let error = ReaderError::ChecksumMismatch(0xFF, 0xFE);
    assert_eq!(refused, LoadError::Line(LineError { line: 2, error }));
    assert_eq!(ask(damaged, 5), Err(refused));
    let words = "line 2: invalid checksum 'FF', expecting 'FE'";
    assert_eq!(refused.to_string(), words);
    let cut = ask(":0100000011EE\n", 0);
    assert_eq!(cut, Err(LoadError::MissingEndOfFileRecord));
}

use ihex::{Reader, ReaderOptions, Record};

fn main() {
    let text = ":0100000041BE\r\n\n:00000001FF\n:no record\n";
    let records: Result<Vec<Record>, _> = Reader::new(text).collect();
    assert_eq!(records.unwrap().len(), 2);

    let options = ReaderOptions {
        stop_after_eof: false,
        ..ReaderOptions::default()
    };
    let refused = Reader::new_with_options(text, options).filter(|answer| answer.is_err());
    assert_eq!(refused.count(), 1);
}

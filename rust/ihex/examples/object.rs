use ihex::{create_object_file_representation, Record, WriterError};

fn main() {
    let mut records = vec![
        Record::Data {
            offset: 0x0010,
            value: b"Hello".to_vec(),
        },
        Record::EndOfFile,
    ];
    let text = create_object_file_representation(&records).unwrap();
    assert_eq!(text, ":0500100048656C6C6FF7\n:00000001FF\n");

    records.push(Record::EndOfFile);
    let refused = create_object_file_representation(&records);
    assert_eq!(refused, Err(WriterError::MultipleEndOfFileRecords(2)));
}

use ihex::{ReaderError, Record};

fn main() {
    let record = Record::from_record_string(":0300300002337A1E").unwrap();
    let data = Record::Data {
        offset: 0x0030,
        value: vec![0x02, 0x33, 0x7A],
    };
    assert_eq!(record, data);
    assert_eq!(record.to_record_string().unwrap(), ":0300300002337A1E");

    let refused = ":0300300002337A1F".parse::<Record>().unwrap_err();
    assert_eq!(refused, ReaderError::ChecksumMismatch(0x1E, 0x1F));
}

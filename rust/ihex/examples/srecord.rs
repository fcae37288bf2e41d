use ihex::srec::{SReaderError, SRecord, SType, SWriterError};
use ihex::ReaderError;

fn main() {
    let record = SRecord::from_record_string("S1050000AABB95").unwrap();
    let data = SRecord {
        kind: SType::S1,
        address: 0,
        value: vec![0xAA, 0xBB],
    };
    assert_eq!(record, data);
    assert_eq!(record.to_record_string().unwrap(), "S1050000AABB95");

    let refused = "S1050000AABB96".parse::<SRecord>().unwrap_err();
    assert_eq!(
        refused,
        SReaderError(ReaderError::ChecksumMismatch(0x95, 0x96))
    );
    // A line of Intel HEX is not an S-record.
    let refused = ":00000001FF".parse::<SRecord>().unwrap_err();
    assert_eq!(refused.to_string(), "missing start code 'S'");

    // The checksum does not cover the digit of the type: with a 2 in its place, BB goes to AA.
    let other = "S2050000AABB95".parse::<SRecord>().unwrap();
    assert_eq!((other.address, &other.value[..]), (0xAA, &[0xBB][..]));

    // An S1 has an address of 2 bytes.
    let far = SRecord {
        address: 0x1_0000,
        ..data
    };
    assert_eq!(far.to_record_string(), Err(SWriterError::AddressTooWide));
}

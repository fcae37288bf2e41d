//! A program that uses every name of the crate ihex 3.0.0, built against the crate and against the
//! Rust face: what one takes, the other takes. `ContainsInvalidCharacters` carries a number in the face
//! alone; the pattern here takes both forms.
macro_rules! uses {
    ($name:ident, $from:ident, $at_hand:expr) => {
        mod $name {
            use std::collections::HashSet;
            use std::error::Error;
            use std::fmt::{Debug, Display};
            use std::hash::Hash;
            use std::iter::FusedIterator;
            use std::str::FromStr;

            use $from::*;

            fn plain<T: Debug + Clone + PartialEq + Eq + Hash + Send + Sync>(_: &T) {}
            fn error<T: Error + Display + Copy + Send + Sync + 'static>(_: &T) {}
            fn fused<'a, T>(_: &T)
            where
                T: FusedIterator<Item = Result<Record, ReaderError>> + Send + Sync + 'a,
            {
            }

            /// Matches without a last arm: no variant is missing, and none is added.
            fn name(record: &Record) -> u8 {
                match record {
                    Record::Data {
                        offset: _,
                        value: _,
                    } => types::DATA,
                    Record::EndOfFile => types::END_OF_FILE,
                    Record::ExtendedSegmentAddress(_) => types::EXTENDED_SEGMENT_ADDRESS,
                    Record::StartSegmentAddress { cs: _, ip: _ } => types::START_SEGMENT_ADDRESS,
                    Record::ExtendedLinearAddress(_) => types::EXTENDED_LINEAR_ADDRESS,
                    Record::StartLinearAddress(_) => types::START_LINEAR_ADDRESS,
                }
            }

            fn refusal(error: ReaderError) -> Vec<u8> {
                match error {
                    ReaderError::MissingStartCode
                    | ReaderError::RecordTooShort
                    | ReaderError::RecordTooLong
                    | ReaderError::RecordNotEvenLength
                    | ReaderError::ContainsInvalidCharacters { .. }
                    | ReaderError::PayloadLengthMismatch
                    | ReaderError::InvalidLengthForType => vec![],
                    ReaderError::ChecksumMismatch(computed, stated) => vec![computed, stated],
                    ReaderError::UnsupportedRecordType(kind) => vec![kind],
                }
            }

            fn unwritten(error: WriterError) -> Option<usize> {
                match error {
                    WriterError::DataExceedsMaximumLength(n) => Some(n),
                    WriterError::MultipleEndOfFileRecords(n) => Some(n),
                    WriterError::MissingEndOfFileRecord | WriterError::SynthesisFailed => None,
                }
            }

            fn one_of_each() -> [Record; 6] {
                let value: Vec<u8> =
                    vec![checksum(&[1u8, 2][..]), checksum(vec![3u8]), checksum("4")];
                let offset: u16 = 0x10;
                [
                    Record::Data { offset, value },
                    Record::ExtendedSegmentAddress(1u16),
                    Record::StartSegmentAddress { cs: 1u16, ip: 2u16 },
                    Record::ExtendedLinearAddress(1u16),
                    Record::StartLinearAddress(1u32),
                    Record::EndOfFile,
                ]
            }

            fn names_of_records() -> Result<(), Box<dyn Error>> {
                let records = one_of_each();
                for record in &records {
                    plain(record);
                    let line: String = record.to_record_string()?;
                    assert_eq!(&Record::from_record_string(&line)?, record);
                    assert_eq!(&Record::from_str(&line)?, record);
                    assert_eq!(&line.parse::<Record>()?, record);
                    assert_eq!(record.record_type(), name(record));
                }
                let text: String = create_object_file_representation(&records)?;
                let read: Result<Vec<Record>, ReaderError> = Reader::new(&text).collect();
                assert_eq!(read?, records);
                let distinct: HashSet<Record> = records.iter().cloned().collect();
                assert_eq!(distinct.len(), 6);
                Ok(())
            }

            fn names_of_options_and_errors() {
                let options = ReaderOptions {
                    stop_after_first_error: false,
                    ..Default::default()
                };
                plain(&options);
                let copy = options;
                assert_eq!(copy, options);
                fused(&Reader::new_with_options(":", options));
                let wrong = Record::from_record_string(":00000001FE").unwrap_err();
                error(&wrong);
                plain(&wrong);
                assert_eq!(refusal(wrong), [0xFF, 0xFE]);
                let missing = create_object_file_representation(&[]).unwrap_err();
                error(&missing);
                plain(&missing);
                assert_eq!(unwritten(missing), None);
            }

            #[test]
            fn every_name() -> Result<(), Box<dyn Error>> {
                if $at_hand {
                    names_of_records()?;
                    names_of_options_and_errors();
                }
                Ok(())
            }
        }
    };
}

uses!(
    of_crate,
    original,
    oracle::subjects::the_crate::at_hand("shapes")
);
uses!(of_face, ihex, true);

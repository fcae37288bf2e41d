/// What a line of Intel HEX says.
#[derive(PartialEq, Eq, Debug, Clone, Hash)]
pub enum Record {
    /// Bytes and where they lie.
    Data {
        /// The address of the first byte, behind the base that an extended address record sets.
        offset: u16,
        /// The bytes, at most 255.
        value: Vec<u8>,
    },

    /// The end of the object.
    EndOfFile,

    /// The base of what follows is 16 times this number.
    ExtendedSegmentAddress(u16),

    /// Where a program starts, as CS and IP.
    StartSegmentAddress {
        /// The register CS.
        cs: u16,
        /// The register IP.
        ip: u16,
    },

    /// The base of what follows is 65,536 times this number.
    ExtendedLinearAddress(u16),

    /// Where a program starts, as EIP.
    StartLinearAddress(u32),
}

impl Record {
    /// The record's type, one of [`types`].
    pub fn record_type(&self) -> u8 {
        match self {
            Record::Data { .. } => types::DATA,
            Record::EndOfFile => types::END_OF_FILE,
            Record::ExtendedSegmentAddress(..) => types::EXTENDED_SEGMENT_ADDRESS,
            Record::StartSegmentAddress { .. } => types::START_SEGMENT_ADDRESS,
            Record::ExtendedLinearAddress(..) => types::EXTENDED_LINEAR_ADDRESS,
            Record::StartLinearAddress(..) => types::START_LINEAR_ADDRESS,
        }
    }
}

/// The types of records, as a line states them.
pub mod types {
    /// The type of a data record.
    pub const DATA: u8 = 0x00;
    /// The type of an end record.
    pub const END_OF_FILE: u8 = 0x01;
    /// The type of an extended segment address record.
    pub const EXTENDED_SEGMENT_ADDRESS: u8 = 0x02;
    /// The type of a start segment address record.
    pub const START_SEGMENT_ADDRESS: u8 = 0x03;
    /// The type of an extended linear address record.
    pub const EXTENDED_LINEAR_ADDRESS: u8 = 0x04;
    /// The type of a start linear address record.
    pub const START_LINEAR_ADDRESS: u8 = 0x05;
}

//! Bytes as digits, and the lines that state them.

/// The digits of the bytes, two each.
pub fn digits(bytes: &[u8], lower: bool) -> Vec<u8> {
    let table: &[u8; 16] = if lower {
        b"0123456789abcdef"
    } else {
        b"0123456789ABCDEF"
    };
    let both = |&byte: &u8| [table[usize::from(byte / 16)], table[usize::from(byte % 16)]];
    bytes.iter().flat_map(both).collect()
}

/// The same as a string, in capitals.
pub fn hex(bytes: &[u8]) -> String {
    digits(bytes, false).into_iter().map(char::from).collect()
}

/// The line that states these bytes and their checksum.
pub fn spelt(bytes: &[u8]) -> Vec<u8> {
    let sum = bytes.iter().fold(0u8, |sum, &byte| sum.wrapping_add(byte));
    let mut line = vec![b':'];
    line.extend(digits(bytes, false));
    line.extend(digits(&[sum.wrapping_neg()], false));
    line
}

/// The S-record with this digit of its type that states these bytes, from the count on, and their checksum.
pub fn sspelt(digit: u8, bytes: &[u8]) -> Vec<u8> {
    let sum = bytes.iter().fold(0u8, |sum, &byte| sum.wrapping_add(byte));
    let mut line = vec![b'S', digit];
    line.extend(digits(bytes, false));
    line.extend(digits(&[!sum], false));
    line
}

/// The line of a record with this type, address and payload.
pub fn line_of(kind: u8, address: u16, payload: &[u8]) -> Vec<u8> {
    let [high, low] = address.to_be_bytes();
    let mut bytes = vec![payload.len() as u8, high, low, kind];
    bytes.extend_from_slice(payload);
    spelt(&bytes)
}

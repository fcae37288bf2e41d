//! Marks as a list, with a 0 or a 1 for each place, and the same packed into a row, one bit a place.

/// Numbers of places about the ends of a byte of marks, and of a page.
pub const WINDOWS: [usize; 10] = [0, 1, 7, 8, 9, 15, 16, 17, 65_535, 65_536];

/// How many bytes the row of so many places has.
pub fn packed_length(places: usize) -> usize {
    (places + 7) / 8
}

/// The row of a list: place p is bit p modulo 8 of byte p / 8, lowest bit first. Unused bits are 0.
pub fn packed(marks: &[u8]) -> Vec<u8> {
    let byte = |eight: &[u8]| eight.iter().rev().fold(0, |byte, &mark| 2 * byte + mark);
    marks.chunks(8).map(byte).collect()
}

/// The mark that a row has for a place, and 0 outside the row.
fn mark_at(row: &[u8], place: usize) -> u8 {
    row.get(place / 8).map_or(0, |byte| byte >> (place % 8) & 1)
}

/// The list of so many places that a row packs.
pub fn unpacked(row: &[u8], places: usize) -> Vec<u8> {
    (0..places).map(|place| mark_at(row, place)).collect()
}

/// The set bits after the last place, in that place's byte, each by the place that it would have.
pub fn unused(row: &[u8], places: usize) -> impl DoubleEndedIterator<Item = usize> + '_ {
    let after = places..8 * packed_length(places);
    after.filter(|&place| mark_at(row, place) == 1)
}

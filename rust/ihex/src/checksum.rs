/// The Intel HEX checksum of `data`: the sum of its bytes, negated, modulo 256.
///
/// ```
/// assert_eq!(ihex::checksum([0x00, 0x00, 0x00, 0x01]), 0xFF);
/// ```
pub fn checksum<T>(data: T) -> u8
where
    T: AsRef<[u8]>,
{
    ihex_sys::checksum(data.as_ref())
}

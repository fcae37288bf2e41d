//! The checksum: the crate's against the port's and the face's.

use crate::comparisons::lent::Lent;
use crate::comparisons::run::{by_chance, Kind, Plan};
use crate::inputs::sums::{bytes, SumCase};
use crate::subjects::port::Port;

/// What is wrong with the checksums of the port and of the face.
fn port(port: &dyn Port, case: &SumCase) -> Option<String> {
    let bytes = Lent::holding(&case.0);
    let is = (port.checksum(bytes.bytes()), ihex::checksum(&case.0));
    let should = original::checksum(&case.0);
    if is != (should, should) {
        return Some(format!("port and face {is:02X?}, crate {should:02X}"));
    }
    bytes.unlike("bytes", &case.0)
}

/// What is compared with the port.
pub fn of_port<'a>(port: &'a dyn Port, plan: Plan) -> Vec<Kind<'a>> {
    let check = move |case: &SumCase| self::port(port, case);
    vec![by_chance("checksums", plan, 20, bytes, check)]
}

//! Checksums that are wrong.

use crate::subjects::port::{Port, Real};
use crate::wrong::named::Wrong;

/// A checksum that is another.
struct Sum(fn(&[u8]) -> u8);

impl Port for Sum {
    fn checksum(&self, bytes: &[u8]) -> u8 {
        self.0(bytes)
    }
}

/// Every wrong checksum.
pub fn all() -> Vec<Wrong> {
    vec![(
        "does not negate the sum",
        Box::new(Sum(|bytes| Real.checksum(bytes).wrapping_neg())),
    )]
}

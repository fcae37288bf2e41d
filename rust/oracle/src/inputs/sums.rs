//! Bytes for the checksum.

use crate::inputs::chance::Chance;
use crate::inputs::shrink::{readable, smaller_text, Case};

#[derive(Clone)]
pub struct SumCase(pub Vec<u8>);

impl Case for SumCase {
    fn smaller(&self) -> Vec<Self> {
        smaller_text(&self.0).into_iter().map(SumCase).collect()
    }

    fn size(&self) -> usize {
        self.0.len()
    }

    fn show(&self) -> String {
        format!("bytes {}", readable(&self.0))
    }
}

/// Up to 599 bytes.
pub fn bytes(chance: &mut Chance) -> SumCase {
    let n = chance.under(600);
    SumCase(chance.bytes(n))
}

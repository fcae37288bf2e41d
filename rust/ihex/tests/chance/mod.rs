//! Bytes by chance, which tests share.

/// Bytes that look random.
pub struct Chance(pub u64);

impl Chance {
    pub fn byte(&mut self) -> u8 {
        self.0 = self.0.wrapping_mul(6_364_136_223_846_793_005);
        self.0 = self.0.wrapping_add(1_442_695_040_888_963_407);
        (self.0 >> 56) as u8
    }

    /// A row of so many bytes, at times with long runs and long gaps.
    pub fn row(&mut self, len: usize) -> Vec<u8> {
        let plain = self.byte() % 2 == 0;
        let mut byte = || match self.byte() {
            any if plain => any,
            0..=99 => 0,
            100..=199 => 0xFF,
            any => any,
        };
        (0..len).map(|_| byte()).collect()
    }
}

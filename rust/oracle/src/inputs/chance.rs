//! Numbers that look random and repeat with their seed (SplitMix64).

pub struct Chance(u64);

impl Chance {
    pub fn new(seed: u64) -> Self {
        Chance(seed)
    }

    pub fn number(&mut self) -> u64 {
        self.0 = self.0.wrapping_add(0x9E37_79B9_7F4A_7C15);
        let x = (self.0 ^ (self.0 >> 30)).wrapping_mul(0xBF58_476D_1CE4_E5B9);
        let x = (x ^ (x >> 27)).wrapping_mul(0x94D0_49BB_1331_11EB);
        x ^ (x >> 31)
    }

    /// A number under `n`, which is not 0.
    pub fn under(&mut self, n: usize) -> usize {
        (self.number() % n as u64) as usize
    }

    /// A number from `low` to `high`.
    pub fn from_to(&mut self, low: usize, high: usize) -> usize {
        low + self.under(high - low + 1)
    }

    /// True once in `n` times.
    pub fn once_in(&mut self, n: usize) -> bool {
        self.under(n) == 0
    }

    /// A number around `n`, or at an end of all numbers.
    pub fn around(&mut self, n: usize) -> usize {
        match self.under(12) {
            0 => usize::MAX,
            1 => usize::MAX - self.under(300),
            2 => 0,
            _ => (n + self.under(4)).saturating_sub(2),
        }
    }

    pub fn byte(&mut self) -> u8 {
        self.number() as u8
    }

    pub fn bytes(&mut self, n: usize) -> Vec<u8> {
        (0..n).map(|_| self.byte()).collect()
    }

    pub fn one_of<T: Copy>(&mut self, choices: &[T]) -> T {
        choices[self.under(choices.len())]
    }
}

//! What is lent to the port: buffers and numbers with guards around them.

const GUARD: usize = 32;

/// How many bytes the noise goes on before it begins again.
const PERIOD: usize = 251;

const fn noise(i: usize) -> u8 {
    (i % PERIOD * 167 / 3) as u8 ^ 0x5A
}

const fn period() -> [u8; PERIOD] {
    let mut bytes = [0; PERIOD];
    let mut i = 0;
    while i < PERIOD {
        bytes[i] = noise(i);
        i += 1;
    }
    bytes
}

static NOISE: [u8; PERIOD] = period();

/// A lent buffer, filled with noise, between guard bytes.
pub struct Lent {
    bytes: Vec<u8>,
}

impl Lent {
    pub fn new(len: usize) -> Self {
        let whole = len + 2 * GUARD;
        let mut bytes = NOISE.repeat(whole / PERIOD + 1);
        bytes.truncate(whole);
        Lent { bytes }
    }

    /// A buffer that holds these bytes.
    pub fn holding(bytes: &[u8]) -> Self {
        let mut lent = Lent::new(bytes.len());
        lent.slice().copy_from_slice(bytes);
        lent
    }

    pub fn slice(&mut self) -> &mut [u8] {
        let end = self.bytes.len() - GUARD;
        &mut self.bytes[GUARD..end]
    }

    pub fn bytes(&self) -> &[u8] {
        &self.bytes[GUARD..self.bytes.len() - GUARD]
    }

    /// Whether the guards around it are as they were.
    pub fn is_guarded(&self) -> bool {
        let end = self.bytes.len() - GUARD;
        let kept = |i: usize| self.bytes[i] == noise(i);
        (0..GUARD).all(kept) && (end..end + GUARD).all(kept)
    }

    /// What is wrong with it, if it should hold these bytes.
    pub fn unlike(&self, name: &str, expected: &[u8]) -> Option<String> {
        if !self.is_guarded() {
            return Some(format!("bytes around the {name} were written"));
        }
        first_unlike(name, self.bytes(), expected)
    }
}

/// The first byte that is not as it should be, if there is one. Both have the same length.
pub fn first_unlike(name: &str, bytes: &[u8], expected: &[u8]) -> Option<String> {
    if bytes == expected {
        return None;
    }
    let at = (0..expected.len()).find(|&i| bytes.get(i) != expected.get(i))?;
    let (is, should) = (bytes[at], expected[at]);
    Some(format!(
        "{name}: byte {at} is {is:02X}, should be {should:02X}"
    ))
}

const MARK: u64 = 0xA5A5_5A5A_0F0F_F0F0;

/// Three lent numbers between guards.
pub struct Numbers {
    pub all: [u64; 7],
}

impl Default for Numbers {
    fn default() -> Self {
        Numbers { all: [MARK; 7] }
    }
}

impl Numbers {
    pub fn lend(&mut self) -> (&mut u64, &mut u64, &mut u64) {
        let [_, a, _, b, _, c, _] = &mut self.all;
        (a, b, c)
    }

    pub fn values(&self) -> [u64; 3] {
        [self.all[1], self.all[3], self.all[5]]
    }

    pub fn is_guarded(&self) -> bool {
        (0..7).step_by(2).all(|i| self.all[i] == MARK)
    }
}

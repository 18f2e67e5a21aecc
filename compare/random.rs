//! Random numbers for the comparisons (xorshift64*), the same in every run.
#[derive(Clone)]
pub struct Random(u64);

impl Random {
    pub fn new(seed: u64) -> Self {
        Random(seed.wrapping_mul(2).wrapping_add(1))
    }

    pub fn next(&mut self) -> u64 {
        self.0 ^= self.0 >> 12;
        self.0 ^= self.0 << 25;
        self.0 ^= self.0 >> 27;
        self.0.wrapping_mul(0x2545_F491_4F6C_DD1D)
    }

    /// A number below n.
    pub fn below(&mut self, n: u64) -> u64 {
        self.next() % n
    }

    pub fn byte(&mut self) -> u8 {
        (self.next() >> 56) as u8
    }

    /// A number of 1 to 64 bits, each bit length as likely.
    pub fn number(&mut self) -> u64 {
        self.next() >> self.below(64)
    }

    /// One of the values.
    pub fn one<T: Copy>(&mut self, values: &[T]) -> T {
        values[self.below(values.len() as u64) as usize]
    }

    pub fn fill(&mut self, bytes: &mut [u8]) {
        for b in bytes {
            *b = self.byte();
        }
    }

    /// A place: mostly inside of or just past `len`, sometimes near 2^64, 2^32 or anywhere.
    pub fn place(&mut self, len: u64) -> u64 {
        match self.below(8) {
            0 => u64::MAX - self.below(12),
            1 => (1 << 32) - 6 + self.below(12),
            2 => self.next() >> self.below(64),
            _ => self.below(len + 10),
        }
    }

    /// A width: mostly 2, 4 or 8, sometimes any byte.
    pub fn width(&mut self) -> u8 {
        match self.below(5) {
            0 => self.next() as u8,
            n => [2, 4, 8, 8][n as usize - 1],
        }
    }
}

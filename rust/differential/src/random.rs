//! Random numbers from a fixed seed, so that every run tries the same cases.

/// Marsaglia's xorshift with 64 bits of state.
pub struct Random(u64);

impl Random {
    pub fn new(seed: u64) -> Self {
        Random(seed.wrapping_mul(0x9E37_79B9_7F4A_7C15) | 1)
    }

    pub fn number(&mut self) -> u64 {
        self.0 ^= self.0 << 13;
        self.0 ^= self.0 >> 7;
        self.0 ^= self.0 << 17;
        self.0.wrapping_mul(0x2545_F491_4F6C_DD1D)
    }

    /// At least 0 and below `end`.
    pub fn below(&mut self, end: usize) -> usize {
        ((self.number() >> 32) as usize * end) >> 32
    }

    pub fn between(&mut self, least: usize, most: usize) -> usize {
        least + self.below(most - least + 1)
    }

    pub fn byte(&mut self) -> u8 {
        (self.number() >> 56) as u8
    }

    /// True once in `times`.
    pub fn once_in(&mut self, times: usize) -> bool {
        self.below(times) == 0
    }

    pub fn pick<T: Copy>(&mut self, from: &[T]) -> T {
        from[self.below(from.len())]
    }

    pub fn bytes(&mut self, count: usize) -> Vec<u8> {
        (0..count).map(|_| self.byte()).collect()
    }

    /// A number of any length in bits, of either sign.
    pub fn integer(&mut self) -> i64 {
        let bits = self.below(65) as u32;
        let number = if bits == 0 { 0 } else { self.number() >> (64 - bits) };
        let edge = self.pick(&[0, 0, 0, 1, -1]);
        let signed = if self.once_in(2) { number as i64 } else { (number as i64).wrapping_neg() };
        signed.wrapping_add(edge)
    }

    /// Small numbers often, and each length in bits as often as any other.
    pub fn length(&mut self, most: usize) -> usize {
        let bits = self.below(usize::BITS as usize - most.leading_zeros() as usize + 1);
        self.below((1 << bits).min(most) + 1)
    }
}

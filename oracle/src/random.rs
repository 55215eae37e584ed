//! Where made-up inputs come from: xorshift, 64 bits, shifts 13, 7 and 17. The same seed gives the same
//! list on every machine.

pub struct Random(u64);

impl Random {
    pub fn new(seed: u64) -> Self {
        // The state must not be 0, and small seeds are to differ from the first number on.
        let mut random = Random(seed.wrapping_mul(0x9e37_79b9_7f4a_7c15) | 1);
        for _ in 0..8 {
            random.next();
        }
        random
    }

    fn next(&mut self) -> u64 {
        self.0 ^= self.0 << 13;
        self.0 ^= self.0 >> 7;
        self.0 ^= self.0 << 17;
        self.0
    }

    pub fn word(&mut self) -> u32 {
        (self.next() >> 32) as u32
    }

    /// A whole number from 0 to `n` - 1.
    pub fn below(&mut self, n: usize) -> usize {
        ((u64::from(self.word()) * n as u64) >> 32) as usize
    }

    /// A whole number from `-n` to `n`.
    pub fn around(&mut self, n: usize) -> i32 {
        self.below(2 * n + 1) as i32 - n as i32
    }

    /// A number from -1 to 1, in steps of 2^-20.
    pub fn unit(&mut self) -> f32 {
        self.around(1 << 20) as f32 / (1 << 20) as f32
    }

    pub fn sample(&mut self) -> i16 {
        self.word() as i16
    }

    pub fn pick<'a, T>(&mut self, from: &'a [T]) -> &'a T {
        &from[self.below(from.len())]
    }
}

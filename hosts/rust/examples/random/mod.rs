//! Marsaglia's xorshift, so that a run can be repeated.

pub struct Random(pub u64);

impl Random {
    pub fn below(&mut self, end: u8) -> u8 {
        self.0 ^= self.0 << 13;
        self.0 ^= self.0 >> 7;
        self.0 ^= self.0 << 17;
        (self.0 % u64::from(end)) as u8
    }
}

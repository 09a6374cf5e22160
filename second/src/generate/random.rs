//! Random numbers from a fixed seed.

/// splitmix64: short, and the same on every machine.
pub struct Random(pub u64);

impl Random {
    /// Any 64 bits.
    pub fn any(&mut self) -> u64 {
        self.0 = self.0.wrapping_add(0x9e37_79b9_7f4a_7c15);
        let mut z = self.0;
        z = (z ^ (z >> 30)).wrapping_mul(0xbf58_476d_1ce4_e5b9);
        z = (z ^ (z >> 27)).wrapping_mul(0x94d0_49bb_1331_11eb);
        z ^ (z >> 31)
    }

    /// From `least` to `greatest`, both taken in, less than 2^63 apart. The tiny lean of the remainder
    /// does not matter.
    pub fn between(&mut self, least: i64, greatest: i64) -> i64 {
        least + (self.any() % (greatest - least + 1) as u64) as i64
    }

    pub fn pick<T: Copy>(&mut self, from: &[T]) -> T {
        from[self.between(0, from.len() as i64 - 1) as usize]
    }

    pub fn one_in(&mut self, chances: i64) -> bool {
        self.between(1, chances) == 1
    }

    /// -1 or 1.
    pub fn sign(&mut self) -> i64 {
        self.pick(&[-1, 1])
    }
}

//! splitmix64 (Steele, Lea and Flood, 2014): the same numbers in every run.

pub struct Random(pub u64);

impl Random {
    pub fn next(&mut self) -> u64 {
        self.0 = self.0.wrapping_add(0x9e37_79b9_7f4a_7c15);
        let z = (self.0 ^ (self.0 >> 30)).wrapping_mul(0xbf58_476d_1ce4_e5b9);
        let z = (z ^ (z >> 27)).wrapping_mul(0x94d0_49bb_1331_11eb);
        z ^ (z >> 31)
    }

    pub fn bits(&mut self) -> u32 {
        (self.next() >> 32) as u32
    }

    pub fn below(&mut self, end: u64) -> u64 {
        self.next() % end
    }

    /// From -limit to limit, both reached.
    pub fn within(&mut self, limit: i32) -> i32 {
        (self.below(2 * limit as u64 + 1) as i64 - i64::from(limit)) as i32
    }

    /// From low to high, both reached.
    pub fn between(&mut self, low: i64, high: i64) -> i64 {
        low + self.below((high - low) as u64 + 1) as i64
    }

    /// A whole number of any length with any count of zeros at its end, or one beside it:
    /// rounding to nearest meets ties, and neighbours of ties.
    pub fn whole(&mut self) -> u32 {
        let short = self.below(32);
        let number = (self.bits() >> short) & (u32::MAX << self.below(32 - short));
        number.wrapping_add(self.below(3) as u32).wrapping_sub(1)
    }

    pub fn bytes(&mut self, len: usize) -> Vec<u8> {
        (0..len).map(|_| self.next() as u8).collect()
    }
}

/// One of several; they stand before the random numbers so that some may come from there.
pub fn pick<T: Copy>(of: &[T], random: &mut Random) -> T {
    of[random.below(of.len() as u64) as usize]
}

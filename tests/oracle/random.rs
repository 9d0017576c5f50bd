//! Numbers that look random and are the same in every run: Steele, Lea and Flood's splitmix64.

pub struct Random(u64);

impl Random {
    pub fn new(seed: u64) -> Self {
        Random(seed)
    }

    pub fn word(&mut self) -> u64 {
        self.0 = self.0.wrapping_add(0x9E37_79B9_7F4A_7C15);
        let mut z = self.0;
        z = (z ^ (z >> 30)).wrapping_mul(0xBF58_476D_1CE4_E5B9);
        z = (z ^ (z >> 27)).wrapping_mul(0x94D0_49BB_1331_11EB);
        z ^ (z >> 31)
    }

    pub fn below(&mut self, n: u64) -> u64 {
        self.word() % n
    }

    /// Any binary32 pattern.
    pub fn pattern(&mut self) -> u32 {
        (self.word() >> 32) as u32
    }

    /// A value from -1 up to 1.
    pub fn unit(&mut self) -> f32 {
        (self.word() >> 40) as f32 / (1u64 << 23) as f32 - 1.0
    }

    /// A value whose magnitude is between 2^-low and 2^high.
    pub fn mixed(&mut self, low: u64, high: u64) -> f32 {
        let exponent = self.below(low + high) as i32 - low as i32;
        self.unit() * 2f32.powi(exponent)
    }
}

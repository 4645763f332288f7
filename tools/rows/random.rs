// SplitMix64 with a fixed seed, so that every run writes the same rows.
pub struct Random(u64);

impl Random {
    pub fn new(seed: u64) -> Self {
        Random(seed)
    }

    pub fn next(&mut self) -> u64 {
        self.0 = self.0.wrapping_add(0x9e37_79b9_7f4a_7c15);
        let mut z = self.0;
        z = (z ^ (z >> 30)).wrapping_mul(0xbf58_476d_1ce4_e5b9);
        z = (z ^ (z >> 27)).wrapping_mul(0x94d0_49bb_1331_11eb);
        z ^ (z >> 31)
    }

    /// A number from `low` up to `high`, both included.
    pub fn between(&mut self, low: i64, high: i64) -> i64 {
        low + (self.next() % (high - low + 1) as u64) as i64
    }

    /// An odd number of exactly `digits` binary digits.
    pub fn odd(&mut self, digits: u32) -> u64 {
        self.next() >> (64 - digits) | 1 << (digits - 1) | 1
    }

    /// A finite double of 53 digits with an exponent from `low` to `high` and any sign.
    pub fn normal(&mut self, low: i64, high: i64) -> f64 {
        let sign = self.next() & (1 << 63);
        let field = ((self.between(low, high) + 1023) as u64) << 52;
        f64::from_bits(sign | field | self.next() >> 12)
    }

    /// A subnormal double of any number of digits and any sign.
    pub fn subnormal(&mut self) -> f64 {
        let digits = self.between(1, 52) as u32;
        let sign = self.next() & (1 << 63);
        f64::from_bits(sign | (self.next() >> (64 - digits)).max(1))
    }
}

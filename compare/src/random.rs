//! Random numbers (splitmix64). The seed is fixed, or taken from `COMPARE_SEED`.

pub struct Random(u64);

impl Random {
    pub fn fixed(seed: u64) -> Random {
        Random(seed)
    }

    #[cfg(feature = "library")]
    pub fn new() -> Random {
        let seed = std::env::var("COMPARE_SEED");
        Random(seed.map_or(1, |seed| seed.parse().expect("COMPARE_SEED is no u64")))
    }

    pub fn bits(&mut self) -> u64 {
        self.0 = self.0.wrapping_add(0x9e37_79b9_7f4a_7c15);
        let z = (self.0 ^ (self.0 >> 30)).wrapping_mul(0xbf58_476d_1ce4_e5b9);
        let z = (z ^ (z >> 27)).wrapping_mul(0x94d0_49bb_1331_11eb);
        z ^ (z >> 31)
    }

    /// A number from 0 up to, but without, `n`.
    pub fn below(&mut self, n: u64) -> u64 {
        self.bits() % n
    }

    /// A number from `least` to `greatest`.
    pub fn within(&mut self, least: i128, greatest: i128) -> i128 {
        least + (self.bits() as i128) % (greatest - least + 1)
    }

    /// A number from 0 up to, but without, 1.
    pub fn unit(&mut self) -> f64 {
        (self.bits() >> 11) as f64 / (1u64 << 53) as f64
    }

    pub fn pick<T: Copy>(&mut self, list: &[T]) -> T {
        list[self.below(list.len() as u64) as usize]
    }
}

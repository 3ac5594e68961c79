//! A small seeded source of numbers (xorshift with a multiplication), so that every case can be
//! made again from its seed and number.

pub struct Rng(u64);

impl Rng {
    /// Two neighbouring seeds or cases give unlike streams of numbers.
    pub fn new(seed: u64, case: u64) -> Rng {
        let mixed = scatter(scatter(seed).wrapping_add(case));
        Rng(mixed | 1)
    }

    pub fn number(&mut self) -> u64 {
        self.0 ^= self.0 >> 12;
        self.0 ^= self.0 << 25;
        self.0 ^= self.0 >> 27;
        self.0.wrapping_mul(0x2545_F491_4F6C_DD1D) >> 11
    }

    /// A number in low..=high.
    pub fn between(&mut self, low: u64, high: u64) -> u64 {
        assert!(low <= high);
        low + self.number() % (high - low + 1)
    }

    /// True once in `many` on average.
    pub fn one_in(&mut self, many: u64) -> bool {
        self.between(1, many) == 1
    }

    pub fn pick<T: Copy>(&mut self, from: &[T]) -> T {
        from[self.between(0, from.len() as u64 - 1) as usize]
    }
}

fn scatter(number: u64) -> u64 {
    let mut mixed = number.wrapping_add(0x9E37_79B9_7F4A_7C15);
    mixed = (mixed ^ (mixed >> 30)).wrapping_mul(0xBF58_476D_1CE4_E5B9);
    mixed = (mixed ^ (mixed >> 27)).wrapping_mul(0x94D0_49BB_1331_11EB);
    mixed ^ (mixed >> 31)
}

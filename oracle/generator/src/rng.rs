//! A small generator of pseudo-random numbers (splitmix64): the same seed, the same numbers.

pub struct Rng {
    state: u64,
}

impl Rng {
    /// Starts from several numbers, so that each class, seed and index has its own sequence.
    pub fn new(parts: &[u64]) -> Rng {
        let mut rng = Rng { state: 0x5eed };
        for part in parts {
            rng.state ^= *part;
            rng.state = rng.number();
        }
        rng
    }

    /// Starts from bytes.
    pub fn from_bytes(bytes: &[u8]) -> Rng {
        let mut rng = Rng::new(&[bytes.len() as u64]);
        for byte in bytes {
            rng.state ^= u64::from(*byte);
            rng.state = rng.number();
        }
        rng
    }

    pub fn number(&mut self) -> u64 {
        self.state = self.state.wrapping_add(0x9e37_79b9_7f4a_7c15);
        let mut mixed = self.state;
        mixed = (mixed ^ (mixed >> 30)).wrapping_mul(0xbf58_476d_1ce4_e5b9);
        mixed = (mixed ^ (mixed >> 27)).wrapping_mul(0x94d0_49bb_1331_11eb);
        mixed ^ (mixed >> 31)
    }

    /// A number below `limit`, which is not 0.
    pub fn below(&mut self, limit: usize) -> usize {
        (self.number() % limit as u64) as usize
    }

    /// A number from `low` to `high`, both included.
    pub fn between(&mut self, low: usize, high: usize) -> usize {
        low + self.below(high - low + 1)
    }

    pub fn chance(&mut self, percent: usize) -> bool {
        self.below(100) < percent
    }

    pub fn one_in(&mut self, cases: usize) -> bool {
        self.below(cases) == 0
    }

    /// One of the items, of which there is at least one.
    pub fn pick<'a, T>(&mut self, items: &'a [T]) -> &'a T {
        &items[self.below(items.len())]
    }

    pub fn shuffle<T>(&mut self, items: &mut [T]) {
        for last in (1..items.len()).rev() {
            items.swap(last, self.below(last + 1));
        }
    }
}

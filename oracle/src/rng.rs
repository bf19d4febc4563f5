//! A small seeded generator (splitmix64): the same seed gives the same calls everywhere.

pub struct Rng(u64);

impl Rng {
    /// The generator of a seed.
    pub fn new(seed: u64) -> Self {
        Rng(seed)
    }

    /// The generator of one call: its entry, depth and index under a seed.
    pub fn of_call(seed: u64, name: &str, depth: i32, index: u64) -> Self {
        let mut mixed = Rng(seed ^ (depth as u64) << 32);
        for byte in name.bytes() {
            mixed.0 ^= mixed.next() ^ byte as u64;
        }
        mixed.0 ^= index.wrapping_mul(0xd134_2543_de82_ef95);
        Rng(mixed.next())
    }

    /// The next 64 bits.
    #[allow(clippy::should_implement_trait)]
    pub fn next(&mut self) -> u64 {
        self.0 = self.0.wrapping_add(0x9e37_79b9_7f4a_7c15);
        let mut z = self.0;
        z = (z ^ (z >> 30)).wrapping_mul(0xbf58_476d_1ce4_e5b9);
        z = (z ^ (z >> 27)).wrapping_mul(0x94d0_49bb_1331_11eb);
        z ^ (z >> 31)
    }

    /// A number from low to high, both included.
    pub fn range(&mut self, low: i64, high: i64) -> i64 {
        let span = (high as i128 - low as i128 + 1).max(1) as u128;
        (low as i128 + (self.next() as u128 % span) as i128) as i64
    }

    /// A size or place from low to high, both included.
    pub fn place(&mut self, low: usize, high: usize) -> usize {
        self.range(low as i64, high as i64) as usize
    }

    /// True in so many of a hundred cases.
    pub fn chance(&mut self, percent: u64) -> bool {
        self.next() % 100 < percent
    }

    /// One of a list.
    pub fn pick<T: Copy>(&mut self, list: &[T]) -> T {
        list[self.next() as usize % list.len()]
    }
}

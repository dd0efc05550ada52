//! A seeded generator of numbers, so that every case can be repeated from its seed and its number.

/// The generator's state.
pub struct Chance {
    state: u64,
}

impl Chance {
    /// The generator of one case.
    pub fn of_case(seed: u64, case: u64) -> Chance {
        let mut first = Chance { state: seed };
        let mixed = first.long() ^ case.wrapping_mul(0xD134_2543_DE82_EF95);
        Chance { state: mixed }
    }

    /// Any 64-bit number: a counter with a large odd step, its bits mixed by two rounds of shift and product.
    pub fn long(&mut self) -> u64 {
        self.state = self.state.wrapping_add(0x9E37_79B9_7F4A_7C15);
        let once = (self.state ^ (self.state >> 30)).wrapping_mul(0xBF58_476D_1CE4_E5B9);
        let twice = (once ^ (once >> 27)).wrapping_mul(0x94D0_49BB_1331_11EB);
        twice ^ (twice >> 31)
    }

    /// A number below a bound of at least 1.
    pub fn below(&mut self, bound: usize) -> usize {
        (self.long() % bound as u64) as usize
    }

    /// A number from one to another, both included.
    pub fn between(&mut self, least: usize, most: usize) -> usize {
        least + self.below(most - least + 1)
    }

    /// Yes, once in so many times.
    pub fn one_in(&mut self, times: usize) -> bool {
        self.below(times) == 0
    }

    /// One of some things.
    pub fn one_of<T: Copy>(&mut self, things: &[T]) -> T {
        things[self.below(things.len())]
    }

    /// Any 32-bit number.
    pub fn word(&mut self) -> u32 {
        self.long() as u32
    }

    /// Some words that mean nothing.
    pub fn words(&mut self, count: usize) -> Vec<u32> {
        (0..count).map(|_| self.word()).collect()
    }

    /// Some bytes that mean nothing.
    pub fn bytes(&mut self, count: usize) -> Vec<u8> {
        (0..count).map(|_| self.long() as u8).collect()
    }
}

//! Repeatable random numbers: SplitMix64, which needs no table and takes any seed.

pub struct Random {
    state: u64,
}

impl Random {
    pub fn new(seed: u64) -> Random {
        Random { state: seed }
    }

    /// The generator of one case of a run: cases may be tried in any order, on any thread, and each alone.
    pub fn of_case(seed: u64, number: u64) -> Random {
        let mut first = Random::new(seed);
        Random::new(first.number() ^ Random::new(number).number())
    }

    /// Any number of 64 bits.
    pub fn number(&mut self) -> u64 {
        self.state = self.state.wrapping_add(0x9e37_79b9_7f4a_7c15);
        let mut z = self.state;
        z = (z ^ (z >> 30)).wrapping_mul(0xbf58_476d_1ce4_e5b9);
        z = (z ^ (z >> 27)).wrapping_mul(0x94d0_49bb_1331_11eb);
        z ^ (z >> 31)
    }

    /// From `low` to `high`, both ends possible.
    pub fn within(&mut self, low: i64, high: i64) -> i64 {
        let span = (high - low) as u64 + 1;
        low + (self.number() % span) as i64
    }

    /// Once in `n` times.
    pub fn once_in(&mut self, n: u64) -> bool {
        self.number().is_multiple_of(n)
    }

    pub fn pick<T: Copy>(&mut self, from: &[T]) -> T {
        from[self.index(from.len())]
    }

    pub fn index(&mut self, length: usize) -> usize {
        (self.number() % length as u64) as usize
    }

    pub fn pick_mut<'a, T>(&mut self, one: &'a mut T, other: &'a mut T) -> &'a mut T {
        if self.once_in(2) {
            one
        } else {
            other
        }
    }
}

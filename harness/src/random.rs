//! A small seeded generator: the same seed gives the same numbers on every machine.

/// The steps of splitmix64.
pub struct Random {
    state: u64,
}

impl Random {
    pub fn new(seed: u64) -> Random {
        Random { state: seed }
    }

    /// A generator for one of many things made from one seed, so that each can be made again alone.
    pub fn nth(seed: u64, index: u64) -> Random {
        Random::new(mix(seed ^ mix(index)))
    }

    pub fn number(&mut self) -> u64 {
        self.state = self.state.wrapping_add(0x9e37_79b9_7f4a_7c15);
        mix(self.state)
    }

    /// A number below `limit`, which is at least 1.
    pub fn below(&mut self, limit: u64) -> u64 {
        self.number() % limit
    }

    /// A place in something `length` long.
    pub fn place(&mut self, length: usize) -> usize {
        self.below(length as u64) as usize
    }

    /// A number from `low` to `high`, both included.
    pub fn from_to(&mut self, low: u64, high: u64) -> u64 {
        low + self.below(high - low + 1)
    }

    pub fn percent(&mut self, chance: u64) -> bool {
        self.below(100) < chance
    }

    pub fn pick<T: Copy>(&mut self, choices: &[T]) -> T {
        choices[self.place(choices.len())]
    }

    /// The limit itself, its neighbours, or something far beyond it.
    pub fn near(&mut self, limit: u64) -> u64 {
        match self.below(6) {
            0 => limit.saturating_sub(1),
            1 | 2 => limit,
            3 => limit.saturating_add(1),
            4 => self.huge(),
            _ => self.below(limit.saturating_add(3).max(1)),
        }
    }

    /// Numbers at which arithmetic or a conversion could go wrong.
    pub fn huge(&mut self) -> u64 {
        let any = self.number();
        self.pick(&[
            u64::MAX,
            u64::MAX - 1,
            1 << 63,
            (1 << 63) - 1,
            1 << 32,
            (1 << 32) - 1,
            (1 << 32) + 1,
            1 << 61,
            1 << 60,
            any,
            any | 1 << 63,
        ])
    }
}

/// Spreads a number over all 64 bits.
pub fn mix(number: u64) -> u64 {
    let number = (number ^ (number >> 30)).wrapping_mul(0xbf58_476d_1ce4_e5b9);
    let number = (number ^ (number >> 27)).wrapping_mul(0x94d0_49bb_1331_11eb);
    number ^ (number >> 31)
}

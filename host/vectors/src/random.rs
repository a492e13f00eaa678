//! Numbers that look random, and are the same for the same seed.

/// A generator: xorshift with 64 bits of state.
pub struct Random {
    state: u64,
}

impl Random {
    /// A generator for this seed. Every seed is fine; the state is never 0.
    pub fn from_seed(seed: u64) -> Random {
        let mut random = Random {
            state: seed.wrapping_mul(0x9E37_79B9_7F4A_7C15) | 1,
        };
        for _ in 0..8 {
            random.any();
        }
        random
    }

    /// Any number of 64 bits except 0.
    pub fn any(&mut self) -> u64 {
        self.state ^= self.state << 13;
        self.state ^= self.state >> 7;
        self.state ^= self.state << 17;
        self.state
    }

    /// A number from 0 up to, but without, `limit`.
    pub fn below(&mut self, limit: usize) -> usize {
        (self.any() >> 16) as usize % limit
    }

    /// A number from `least` to `most`, both included.
    pub fn between(&mut self, least: usize, most: usize) -> usize {
        least + self.below(most - least + 1)
    }

    /// A number that is mostly below `limit`; now and then it is the limit, or
    /// any number past it.
    pub fn around(&mut self, limit: usize) -> u64 {
        let past = [0, 1, 255, 65_535, 65_536, u64::from(u32::MAX)];
        match self.below(24) {
            0 => self.any(),
            1 => u64::MAX,
            2 => limit as u64 + *self.one_of(&past),
            3 => limit as u64,
            4 => limit.saturating_sub(1) as u64,
            _ if limit == 0 => 0,
            _ => self.below(limit) as u64,
        }
    }

    /// True once in so many times.
    pub fn once_in(&mut self, times: usize) -> bool {
        self.below(times) == 0
    }

    /// Any byte.
    pub fn byte(&mut self) -> u8 {
        self.below(256) as u8
    }

    /// One of these.
    pub fn one_of<'items, T>(&mut self, items: &'items [T]) -> &'items T {
        &items[self.below(items.len())]
    }

    /// A string over these bytes, of a length from `least` to `most`.
    pub fn string(&mut self, bytes: &[u8], least: usize, most: usize) -> Vec<u8> {
        let length = self.between(least, most);
        (0..length).map(|_| *self.one_of(bytes)).collect()
    }
}

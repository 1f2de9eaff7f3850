//! A small generator, so that a seed gives the same inputs everywhere.

pub struct Rng(u64);

impl Rng {
    pub fn new(seed: u64) -> Self {
        Self(seed)
    }

    /// The next word (splitmix64).
    pub fn word(&mut self) -> u64 {
        self.0 = self.0.wrapping_add(0x9e37_79b9_7f4a_7c15);
        let mut z = self.0;
        z = (z ^ (z >> 30)).wrapping_mul(0xbf58_476d_1ce4_e5b9);
        z = (z ^ (z >> 27)).wrapping_mul(0x94d0_49bb_1331_11eb);
        z ^ (z >> 31)
    }

    /// A number below `n`, which is not 0. The bias of the remainder does not matter here.
    pub fn below(&mut self, n: u64) -> u64 {
        self.word() % n
    }

    /// True once in `n` times.
    pub fn one_in(&mut self, n: u64) -> bool {
        self.below(n) == 0
    }

    /// A number from 0 to `most`, every magnitude about as likely as any other.
    pub fn magnitude(&mut self, most: u64) -> u64 {
        let bits = self.below(u64::from(u64::BITS - most.leading_zeros()) + 1);
        let value = self.word() & ((1u128 << bits) - 1) as u64;
        if value > most { value - most } else { value }
    }

    pub fn choose<T: Copy>(&mut self, list: &[T]) -> T {
        list[self.below(list.len() as u64) as usize]
    }

    /// One below, at or above one of `limits`, from 0 to `most`.
    pub fn near(&mut self, limits: &[u64], most: u64) -> u64 {
        let limit = self.choose(limits);
        let value = match self.below(3) {
            0 => limit.saturating_sub(1),
            1 => limit,
            _ => limit.saturating_add(1),
        };
        value.min(most)
    }
}

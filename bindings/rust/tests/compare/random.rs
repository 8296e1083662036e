//! A small generator of numbers with fixed seeds: every run compares the same cases.
use crate::plain::family::Combination;

/// The item limits that the runs take: the ends, the edges of a combination's words, the pocket tester's.
pub const LIMITS: [u32; 8] = [1, 2, 31, 32, 33, 64, 511, 512];

/// These limits in turn.
pub fn limit_of(turn: usize) -> u32 {
    LIMITS[turn % LIMITS.len()]
}

pub struct Random(u64);

impl Random {
    pub fn new(seed: u64) -> Random {
        Random(seed.wrapping_mul(0x9E37_79B9_7F4A_7C15) | 1)
    }

    /// The next number (xorshift).
    pub fn next(&mut self) -> u64 {
        self.0 ^= self.0 << 13;
        self.0 ^= self.0 >> 7;
        self.0 ^= self.0 << 17;
        self.0.wrapping_mul(0x2545_F491_4F6C_DD1D) >> 11
    }

    /// A number below n.
    pub fn below(&mut self, n: usize) -> usize {
        (self.next() % n.max(1) as u64) as usize
    }

    /// Once in n times.
    pub fn once_in(&mut self, n: usize) -> bool {
        self.below(n) == 0
    }

    pub fn pick<T: Clone>(&mut self, all: &[T]) -> T {
        all[self.below(all.len())].clone()
    }

    pub fn word(&mut self) -> u32 {
        self.next() as u32
    }

    /// Words of any value, zero at times.
    pub fn junk(&mut self, len: usize) -> Vec<u32> {
        (0..len).map(|_| if self.once_in(4) { 0 } else { self.word() }).collect()
    }

    /// A number about n: one less, n itself, or some more.
    pub fn about(&mut self, n: usize) -> usize {
        match self.below(5) {
            0 => n.saturating_sub(1),
            1 => n.saturating_sub(1 + self.below(n.max(1))),
            2 => n + 1 + self.below(9),
            _ => n,
        }
    }

    /// A set of items out of a pool.
    pub fn combination(&mut self, pool: &[u32]) -> Combination {
        pool.iter().copied().filter(|_| self.once_in(2)).collect()
    }

    /// A list of weights, 512 as a rule: of 0 and 1, of small numbers, of any, or of the smallest and the largest.
    pub fn weights(&mut self) -> Vec<u32> {
        let len = if self.once_in(6) { self.pick(&[0, 1, 511, 513, 514, 1024]) } else { 512 };
        let kind = self.below(4);
        let one = |rng: &mut Random| match kind {
            0 => rng.below(2) as u32,
            1 => rng.below(1000) as u32,
            2 => rng.word(),
            _ => rng.pick(&[0, 1, u32::MAX - 1, u32::MAX]),
        };
        (0..len).map(|_| one(self)).collect()
    }

    /// So many different items up to the limit, or all of them; the ends of the range are likely.
    pub fn pool(&mut self, len: usize, limit: u32) -> Vec<u32> {
        let mut items = Combination::new();
        while items.len() < len.min(limit as usize) {
            let any = 1 + self.below(limit as usize) as u32;
            let near = limit.min(1 + self.below(2 * len) as u32);
            items.insert(self.pick(&[any, near, near, 1, limit]));
        }
        items.into_iter().collect()
    }

    /// The same for a file from another store, whose limit is this one, one more, or the largest.
    pub fn foreign_pool(&mut self, len: usize, limit: u32) -> Vec<u32> {
        let other = self.pick(&[limit, 512.min(limit + 1), 512]);
        self.pool(len, other)
    }
}

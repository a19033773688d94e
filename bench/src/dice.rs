//! Numbers that look thrown and are the same at every run (xorshift, 64 bits).

pub struct Dice(u64);

impl Dice {
    pub fn new(seed: u64) -> Dice {
        assert!(seed != 0, "xorshift stays at 0");
        Dice(seed)
    }

    pub fn number(&mut self) -> u64 {
        self.0 ^= self.0 << 13;
        self.0 ^= self.0 >> 7;
        self.0 ^= self.0 << 17;
        self.0
    }

    /// From `low` to `high`, both included.
    pub fn between(&mut self, low: i64, high: i64) -> i64 {
        low + (self.number() % (high - low + 1) as u64) as i64
    }

    pub fn index(&mut self, count: usize) -> usize {
        (self.number() % count as u64) as usize
    }

    pub fn one_of<T: Copy>(&mut self, some: &[T]) -> T {
        some[self.index(some.len())]
    }

    pub fn byte(&mut self) -> u8 {
        self.number() as u8
    }
}

//! Pseudo-random numbers (splitmix64): the same seed gives the same numbers everywhere.

use warzhigo::Inherent;

pub struct Random(u64);

impl Random {
    pub fn new(seed: u64) -> Random {
        Random(seed)
    }

    pub fn bits(&mut self) -> u64 {
        self.0 = self.0.wrapping_add(0x9e3779b97f4a7c15);
        let mut z = self.0;
        z = (z ^ z >> 30).wrapping_mul(0xbf58476d1ce4e5b9);
        z = (z ^ z >> 27).wrapping_mul(0x94d049bb133111eb);
        z ^ z >> 31
    }

    /// A number below the limit, or 0 where the limit is 0.
    pub fn below(&mut self, limit: u32) -> u32 {
        (((self.bits() >> 32) * limit as u64) >> 32) as u32
    }

    /// Yes in so many of 100 cases.
    pub fn chance(&mut self, percent: u32) -> bool {
        self.below(100) < percent
    }

    pub fn pick<T: Copy>(&mut self, items: &[T]) -> T {
        items[self.below(items.len() as u32) as usize]
    }

    /// An item, if there is one.
    pub fn any<T: Copy>(&mut self, items: &[T]) -> Option<T> {
        (!items.is_empty()).then(|| self.pick(items))
    }

    /// Whether an attribute is inherent, as often as not.
    pub fn inherent(&mut self) -> Inherent {
        if self.chance(50) { Inherent::Yes } else { Inherent::No }
    }

    /// A number of 32 bits that is often the largest, or stands at a boundary.
    pub fn word(&mut self) -> u32 {
        match self.below(4) {
            0 => u32::MAX,
            1 => 1 << self.below(32),
            _ => self.bits() as u32,
        }
    }
}

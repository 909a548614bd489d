//! Random numbers from a fixed seed (splitmix64).

use std::ops::RangeInclusive;

/// A source of random numbers.
pub struct Random {
    state: u64,
}

impl Random {
    /// A source whose numbers depend on the seed only.
    pub fn new(seed: u64) -> Random {
        Random { state: seed }
    }

    /// The next 64 random bits.
    fn bits(&mut self) -> u64 {
        self.state = self.state.wrapping_add(0x9e37_79b9_7f4a_7c15);
        let mixed = (self.state ^ (self.state >> 30)).wrapping_mul(0xbf58_476d_1ce4_e5b9);
        let mixed = (mixed ^ (mixed >> 27)).wrapping_mul(0x94d0_49bb_1331_11eb);
        mixed ^ (mixed >> 31)
    }

    /// A random number from a range, which must not be empty.
    pub fn within(&mut self, range: RangeInclusive<u16>) -> u16 {
        let (least, greatest) = range.into_inner();
        let size = u64::from(greatest - least) + 1;
        least + (self.bits() % size) as u16
    }

    /// Any 32-bit number.
    pub fn signed(&mut self) -> i32 {
        self.bits() as i32
    }

    /// True once in `times` on average.
    pub fn once_in(&mut self, times: u16) -> bool {
        self.within(1..=times) == 1
    }

    /// A random index of a list with this many elements, which must not be empty.
    pub fn index(&mut self, length: usize) -> usize {
        (self.bits() % length as u64) as usize
    }
}

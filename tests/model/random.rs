//! Numbers that look random and are fixed by a seed (splitmix64).

use crate::ofib::{Set, WIDTH};

pub struct Random {
    state: u64,
}

impl Random {
    /// Each case has a sequence of its own, so that one case can be made again without the others.
    pub fn for_case(seed: u64, part: u64, number: u64) -> Random {
        let mut random = Random { state: seed };
        for word in [part, number] {
            random.state = random.next() ^ word.wrapping_mul(0xD6E8_FEB8_6659_FD93);
        }
        random
    }

    pub fn next(&mut self) -> u64 {
        self.state = self.state.wrapping_add(0x9E37_79B9_7F4A_7C15);
        let mut z = self.state;
        z = (z ^ (z >> 30)).wrapping_mul(0xBF58_476D_1CE4_E5B9);
        z = (z ^ (z >> 27)).wrapping_mul(0x94D0_49BB_1331_11EB);
        z ^ (z >> 31)
    }

    /// A number below `bound`; 0 for a bound of 0.
    pub fn below(&mut self, bound: usize) -> usize {
        (self.next() % bound.max(1) as u64) as usize
    }

    /// A number from `low` to `high`, both possible.
    pub fn between(&mut self, low: usize, high: usize) -> usize {
        low + self.below(high - low + 1)
    }

    pub fn chance(&mut self, percent: usize) -> bool {
        self.below(100) < percent
    }

    pub fn byte(&mut self) -> u8 {
        self.next() as u8
    }

    pub fn word(&mut self) -> u32 {
        self.next() as u32
    }

    pub fn bytes(&mut self, count: usize) -> Vec<u8> {
        (0..count).map(|_| self.byte()).collect()
    }

    pub fn pick<T: Copy>(&mut self, from: &[T]) -> T {
        from[self.below(from.len())]
    }

    pub fn shuffle<T>(&mut self, items: &mut [T]) {
        for last in (1..items.len()).rev() {
            let other = self.below(last + 1);
            items.swap(last, other);
        }
    }

    /// A router set in which each bit is present with a chance that is itself chosen first.
    pub fn set(&mut self) -> Set {
        match self.below(6) {
            0 | 1 => 0,
            2 => 1 << self.below(WIDTH),
            3 => self.next() & self.next() & self.next(),
            4 => self.next(),
            _ => self.next() | self.next(),
        }
    }
}

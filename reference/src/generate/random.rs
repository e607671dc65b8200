//! A small source of numbers that look random and come back the same from the same seed.

use std::collections::BTreeSet;

/// The state of the source. Each number is mixed from a counter (the method called splitmix64).
#[derive(Clone, Debug)]
pub struct Random {
    counter: u64,
}

impl Random {
    pub fn new(seed: u64) -> Random {
        Random { counter: seed }
    }

    pub fn number(&mut self) -> u64 {
        self.counter = self.counter.wrapping_add(0x9E37_79B9_7F4A_7C15);
        let mixed = self.counter;
        let mixed = (mixed ^ (mixed >> 30)).wrapping_mul(0xBF58_476D_1CE4_E5B9);
        let mixed = (mixed ^ (mixed >> 27)).wrapping_mul(0x94D0_49BB_1331_11EB);
        mixed ^ (mixed >> 31)
    }

    /// A number below the limit, which is above 0.
    pub fn below(&mut self, limit: usize) -> usize {
        (self.number() % limit as u64) as usize
    }

    /// A number from the first to the last, both possible.
    pub fn between(&mut self, first: usize, last: usize) -> usize {
        first + self.below(last - first + 1)
    }

    pub fn byte(&mut self) -> u8 {
        self.number() as u8
    }

    /// So many bytes such as a buffer may hold: all zero, small ones, or any.
    pub fn content(&mut self, length: usize) -> Vec<u8> {
        let most = self.pick(&[0, 1, 3, 255]);
        let numbers = (0..length / 8 + 1).flat_map(|_| self.number().to_le_bytes());
        numbers.take(length).map(|byte| byte & most).collect()
    }

    /// True so many times out of a hundred.
    pub fn percent(&mut self, times: usize) -> bool {
        self.below(100) < times
    }

    /// One of the row, which is not empty.
    pub fn pick<T: Copy>(&mut self, row: &[T]) -> T {
        row[self.below(row.len())]
    }

    /// The set with things put in until there are so many, or until a fair number of tries finds no
    /// more.
    pub fn filled<T: Ord>(
        &mut self,
        mut set: BTreeSet<T>,
        count: usize,
        mut one: impl FnMut(&mut Random) -> T,
    ) -> BTreeSet<T> {
        let mut tries = 0;
        while set.len() < count && tries < 20 * count {
            set.insert(one(self));
            tries += 1;
        }
        set
    }
}

#[cfg(test)]
mod tests {
    use super::*;

    #[test]
    fn the_same_seed_gives_the_same_numbers() {
        let (mut one, mut other) = (Random::new(7), Random::new(7));
        for _ in 0..100 {
            assert_eq!(one.number(), other.number());
        }
    }

    #[test]
    fn every_number_of_a_small_range_comes() {
        let mut random = Random::new(1);
        let mut met = [false; 6];
        for _ in 0..200 {
            met[random.between(2, 5)] = true;
        }
        assert_eq!(met, [false, false, true, true, true, true]);
    }
}

//! Seeded numbers: the same on every run.

use crate::model::field::P;

/// Splitmix64.
pub struct Generator(pub u64);

impl Generator {
    pub fn number(&mut self) -> u64 {
        self.0 = self.0.wrapping_add(0x9e37_79b9_7f4a_7c15);
        let mut z = self.0;
        z = (z ^ (z >> 30)).wrapping_mul(0xbf58_476d_1ce4_e5b9);
        z = (z ^ (z >> 27)).wrapping_mul(0x94d0_49bb_1331_11eb);
        z ^ (z >> 31)
    }

    pub fn below(&mut self, bound: usize) -> usize {
        (self.number() % bound as u64) as usize
    }

    /// Once in so many times.
    pub fn once_in(&mut self, times: usize) -> bool {
        self.below(times) == 0
    }

    pub fn pick<T: Clone>(&mut self, list: &[T]) -> T {
        list[self.below(list.len())].clone()
    }

    /// A word, at times one at an edge.
    pub fn word(&mut self) -> u64 {
        if self.once_in(8) {
            self.pick(&[0, 1, 2, u32::MAX as u64, 1 << 32, (1 << 32) + 1, 1 << 63, P / 2, P - 2, P - 1])
        } else {
            self.number() % P
        }
    }

    pub fn words(&mut self, count: usize) -> Vec<u64> {
        (0..count).map(|_| self.word()).collect()
    }

    pub fn non_zero_word(&mut self) -> u64 {
        1 + self.number() % (P - 1)
    }

    /// A number that is not a word.
    pub fn no_word(&mut self) -> u64 {
        let beyond = u64::MAX - P;
        self.pick(&[P, P, P + 1, u64::MAX, u64::MAX - 1, P + self.0 % beyond])
    }

    /// Any numbers, half of them not words.
    pub fn junk(&mut self, count: usize) -> Vec<u64> {
        (0..count).map(|_| if self.once_in(2) { self.no_word() } else { self.word() }).collect()
    }

    /// Any bytes, at times those that padding is made of.
    pub fn bytes(&mut self, count: usize) -> Vec<u8> {
        (0..count).map(|_| if self.once_in(8) { self.pick(&[0, 0, 1, 255]) } else { self.number() as u8 }).collect()
    }

    /// Some of the numbers 0 to bound - 1, in any order.
    pub fn some_below(&mut self, count: usize, bound: usize) -> Vec<usize> {
        let mut rest: Vec<usize> = (0..bound).collect();
        (0..count).map(|_| rest.swap_remove(self.below(rest.len()))).collect()
    }
}

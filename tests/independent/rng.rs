//! A small generator (splitmix64): equal seeds give equal runs.

use crate::field::P;

pub struct Rng {
    state: u64,
}

impl Rng {
    pub fn new(seed: u64) -> Rng {
        Rng { state: seed }
    }

    pub fn next(&mut self) -> u64 {
        self.state = self.state.wrapping_add(0x9e3779b97f4a7c15);
        let mut mixed = self.state;
        mixed = (mixed ^ (mixed >> 30)).wrapping_mul(0xbf58476d1ce4e5b9);
        mixed = (mixed ^ (mixed >> 27)).wrapping_mul(0x94d049bb133111eb);
        mixed ^ (mixed >> 31)
    }

    pub fn word(&mut self) -> u32 {
        (self.next() >> 32) as u32
    }

    /// A number below the bound. The bound is small next to 2^64, so the
    /// remainder is even enough for tests.
    pub fn below(&mut self, bound: usize) -> usize {
        (self.next() % bound as u64) as usize
    }

    /// A number from the first to the second, both included.
    pub fn between(&mut self, least: usize, most: usize) -> usize {
        least + self.below(most - least + 1)
    }

    /// True once in so many times.
    pub fn one_in(&mut self, times: usize) -> bool {
        self.below(times) == 0
    }

    pub fn pick<T: Copy>(&mut self, choices: &[T]) -> T {
        choices[self.below(choices.len())]
    }

    /// A choice, each as often as its weight says.
    pub fn weighted<T: Copy>(&mut self, choices: &[(usize, T)]) -> T {
        let mut rest = self.below(choices.iter().map(|(weight, _)| weight).sum());
        for &(weight, choice) in choices {
            if rest < weight {
                return choice;
            }
            rest -= weight;
        }
        unreachable!("the rest is below the sum of the weights")
    }

    /// A field number.
    pub fn element(&mut self) -> u32 {
        self.below(P as usize) as u32
    }

    pub fn elements(&mut self, count: usize) -> Vec<u32> {
        (0..count).map(|_| self.element()).collect()
    }

    pub fn fill(&mut self, bytes: &mut [u8]) {
        for byte in bytes {
            *byte = (self.next() >> 56) as u8;
        }
    }

    pub fn bytes(&mut self, count: usize) -> Vec<u8> {
        let mut bytes = vec![0; count];
        self.fill(&mut bytes);
        bytes
    }

    pub fn digest(&mut self) -> [u8; 32] {
        let mut digest = [0; 32];
        self.fill(&mut digest);
        digest
    }
}

#[cfg(test)]
mod tests {
    use super::*;

    #[test]
    fn equal_seeds_repeat_and_others_do_not() {
        let (mut one, mut same, mut other) = (Rng::new(5), Rng::new(5), Rng::new(6));
        let words: Vec<u32> = (0..20).map(|_| one.word()).collect();
        assert!(words.iter().all(|&word| word == same.word()));
        assert!(words.iter().any(|&word| word != other.word()));
    }

    #[test]
    fn choices_keep_to_their_bounds_and_weights() {
        let mut rng = Rng::new(7);
        let mut seen = [0; 4];
        for _ in 0..1000 {
            assert!((3..=5).contains(&rng.between(3, 5)));
            assert_eq!(rng.between(9, 9), 9);
            assert!([1, 2].contains(&rng.pick(&[1, 2])));
            seen[rng.weighted(&[(1, 0), (0, 1), (8, 2), (1, 3)])] += 1;
        }
        assert!(seen[0] > 0 && seen[1] == 0 && seen[3] > 0);
        assert!(seen[2] > 700 && seen[2] < 900);
    }
}

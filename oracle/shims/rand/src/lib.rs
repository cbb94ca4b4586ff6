//! Stand-in for the registry crate `rand`, with no more than docs/src uses, and
//! one seeded generator so that every draw can be repeated.

/// A source of random numbers.
pub trait Rng {
    fn next_u64(&mut self) -> u64;

    /// A number below `bound`. The bounds in use are far below 2^32, so the
    /// bias of the remainder does not matter.
    fn below(&mut self, bound: usize) -> usize {
        (self.next_u64() % bound as u64) as usize
    }
}

pub mod seq {
    use super::Rng;

    pub trait SliceRandom {
        /// Puts the elements into a random order.
        fn shuffle<R: Rng + ?Sized>(&mut self, rng: &mut R);
    }

    impl<T> SliceRandom for [T] {
        fn shuffle<R: Rng + ?Sized>(&mut self, rng: &mut R) {
            for last in (1..self.len()).rev() {
                self.swap(last, rng.below(last + 1));
            }
        }
    }
}

/// SplitMix64: the same seed gives the same numbers on every machine.
#[derive(Clone, Debug)]
pub struct SeededRng {
    state: u64,
}

impl SeededRng {
    pub fn new(seed: u64) -> Self {
        Self { state: seed }
    }
}

impl Rng for SeededRng {
    fn next_u64(&mut self) -> u64 {
        self.state = self.state.wrapping_add(0x9E37_79B9_7F4A_7C15);
        let mut mixed = self.state;
        mixed = (mixed ^ (mixed >> 30)).wrapping_mul(0xBF58_476D_1CE4_E5B9);
        mixed = (mixed ^ (mixed >> 27)).wrapping_mul(0x94D0_49BB_1331_11EB);
        mixed ^ (mixed >> 31)
    }
}

#[cfg(test)]
mod tests {
    use super::seq::SliceRandom;
    use super::{Rng, SeededRng};

    /// The published first outputs of SplitMix64 for the seed 1234567.
    #[test]
    fn numbers_are_those_of_splitmix64() {
        let mut rng = SeededRng::new(1_234_567);
        assert_eq!(rng.next_u64(), 6_457_827_717_110_365_317);
        assert_eq!(rng.next_u64(), 3_203_168_211_198_807_973);
    }

    #[test]
    fn a_shuffle_keeps_every_element() {
        let mut numbers: Vec<u8> = (0..50).collect();
        numbers.shuffle(&mut SeededRng::new(1));
        assert_ne!(numbers, (0..50).collect::<Vec<u8>>());
        numbers.sort_unstable();
        assert_eq!(numbers, (0..50).collect::<Vec<u8>>());
    }
}

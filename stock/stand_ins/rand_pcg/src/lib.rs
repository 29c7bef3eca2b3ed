//! The generator PCG XSH RR 64/32: the published `rand_pcg`, as far as the crates call it.
//!
//! M. E. O'Neill: PCG: A Family of Simple Fast Space-Efficient Statistically Good Algorithms for Random Number
//! Generation. HMC-CS-2014-0905, and <https://www.pcg-random.org>.

use kit_std::alloc::AllocError;
use rand_core::{Rng, SeedableRng};

const MULTIPLIER: u64 = 6364136223846793005;

/// The generator by the name that describes it.
#[derive(Debug, PartialEq, Eq)]
pub struct Lcg64Xsh32 {
    state: u64,
    /// Odd; it tells one stream from another.
    increment: u64,
}

/// The generator by its usual name.
pub type Pcg32 = Lcg64Xsh32;

impl Lcg64Xsh32 {
    /// The generator that begins at a state of a stream, as `pcg32_srandom_r` of the reference begins it.
    pub fn new(state: u64, stream: u64) -> Self {
        Lcg64Xsh32::begun(state, (stream << 1) | 1)
    }

    fn begun(state: u64, increment: u64) -> Self {
        let mut made = Lcg64Xsh32 { state: state.wrapping_add(increment), increment };
        made.step();
        made
    }

    #[inline]
    fn step(&mut self) {
        self.state = self.state.wrapping_mul(MULTIPLIER).wrapping_add(self.increment);
    }

    /// Passes over `count` words, in as many steps as `count` has binary digits (F. B. Brown: Random Number Generation
    /// with Arbitrary Stride, 1994).
    pub fn advance(&mut self, mut count: u64) {
        let (mut multiplier, mut increment) = (MULTIPLIER, self.increment);
        while count > 0 {
            if count & 1 == 1 {
                self.state = self.state.wrapping_mul(multiplier).wrapping_add(increment);
            }
            increment = increment.wrapping_mul(multiplier.wrapping_add(1));
            multiplier = multiplier.wrapping_mul(multiplier);
            count >>= 1;
        }
    }

    /// A copy, for which there is always memory.
    #[expect(clippy::should_implement_trait, reason = "the kit's copy is a call that may fail")]
    pub fn clone(&self) -> Result<Self, AllocError> {
        Ok(Lcg64Xsh32 { state: self.state, increment: self.increment })
    }
}

impl Rng for Lcg64Xsh32 {
    #[inline]
    fn next_u32(&mut self) -> u32 {
        let state = self.state;
        self.step();
        ((((state >> 18) ^ state) >> 27) as u32).rotate_right((state >> 59) as u32)
    }
}

impl SeedableRng for Lcg64Xsh32 {
    type Seed = [u8; 16];

    /// The state, and then the increment, whose lowest bit is set.
    fn from_seed(seed: [u8; 16]) -> Self {
        let both = u128::from_le_bytes(seed);
        Lcg64Xsh32::begun(both as u64, (both >> 64) as u64 | 1)
    }
}

#[cfg(test)]
mod tests {
    use super::*;

    /// The six words of round 1 that the reference's demo prints (pcg32-demo of pcg-c-basic 0.9, its expected output;
    /// <https://www.pcg-random.org/using-pcg-c-basic.html>).
    const DEMO: [u32; 6] = [0xa15c02b7, 0x7b47f409, 0xba1d3330, 0x83d2f293, 0xbfa4784b, 0xcbed606e];

    #[test]
    fn words_are_those_of_the_references_demo() {
        let mut generator = Pcg32::new(42, 54);
        assert_eq!(DEMO.map(|_| generator.next_u32()), DEMO);
    }

    #[test]
    fn advancing_passes_over_words() {
        for count in [0, 1, 2, 3, 5, 64, 1000] {
            let (mut one, mut other) = (Pcg32::new(7, 11), Pcg32::new(7, 11));
            one.advance(count);
            for _ in 0..count {
                other.next_u32();
            }
            assert_eq!(one, other);
        }
    }

    #[test]
    fn advancing_goes_round() {
        let mut generator = Pcg32::new(42, 54);
        generator.advance(3);
        generator.advance(3u64.wrapping_neg());
        assert_eq!(generator, Pcg32::new(42, 54));
    }

    /// Of 128 bits the lower half is the state, and the upper one the increment.
    #[test]
    fn bytes_begin_it() {
        let mut seed = [0; 16];
        seed[..8].copy_from_slice(&42u64.to_le_bytes());
        seed[8..].copy_from_slice(&(54u64 << 1).to_le_bytes());
        assert_eq!(Pcg32::from_seed(seed), Pcg32::new(42, 54));
    }
}

//! Generators of random words, and how a number begins one: the published `rand_core`, as far as the crates call it.

/// A generator of words.
pub trait Rng {
    /// The next word.
    fn next_u32(&mut self) -> u32;
}

/// A generator that begins at a seed.
pub trait SeedableRng: Sized {
    /// The bytes that begin a generator.
    type Seed: Default + AsMut<[u8]>;

    /// The generator that begins at these bytes.
    fn from_seed(seed: Self::Seed) -> Self;

    /// The generator whose bytes come from a number, as the published crate makes them: words of PCG XSH RR 64/32 over
    /// that number, four bytes each, the lowest first.
    fn seed_from_u64(mut state: u64) -> Self {
        const MULTIPLIER: u64 = 6364136223846793005;
        const INCREMENT: u64 = 11634580027462260723;

        let mut seed = Self::Seed::default();
        for chunk in seed.as_mut().chunks_mut(4) {
            state = state.wrapping_mul(MULTIPLIER).wrapping_add(INCREMENT);
            let word = ((((state >> 18) ^ state) >> 27) as u32).rotate_right((state >> 59) as u32);
            chunk.copy_from_slice(&word.to_le_bytes()[..chunk.len()]);
        }
        Self::from_seed(seed)
    }
}

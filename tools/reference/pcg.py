"""PCG32 (XSH RR 64/32), as the Rust crate rand_pcg has it under the name Lcg64Xsh32, seeded from a
number as rand_core's `seed_from_u64` does: a second PCG32, which advances before it gives a word,
fills the 16 bytes of the seed."""

MULTIPLIER = 6364136223846793005
SEED_INCREMENT = 0xA176_54E4_6FBE_17F3
MASK = (1 << 64) - 1


def output(state):
    """The word that a state gives: shifted, cut to 32 bits, and turned right by the highest 5 bits."""
    word = ((state >> 18) ^ state) >> 27 & 0xFFFF_FFFF
    turn = state >> 59
    return (word >> turn | word << (32 - turn)) & 0xFFFF_FFFF


def seed_from_u64(number):
    """The 16 bytes of the seed: four words, each in little-endian order."""
    seed = b""
    for _ in range(4):
        number = (number * MULTIPLIER + SEED_INCREMENT) & MASK
        seed += output(number).to_bytes(4, "little")
    return seed


class Generator:
    """A state and an odd increment."""

    def __init__(self, seed):
        """From 16 bytes: the state, then the increment, each in little-endian order."""
        state, stream = (int.from_bytes(seed[at:at + 8], "little") for at in (0, 8))
        self.increment = stream | 1
        self.state = ((state + self.increment) * MULTIPLIER + self.increment) & MASK

    def next_u32(self):
        state = self.state
        self.state = (state * MULTIPLIER + self.increment) & MASK
        return output(state)

    def pass_over(self, count):
        """As many words as `count` are given to nobody: the step is squared for each bit of it."""
        multiplier, increment = MULTIPLIER, self.increment
        while count:
            if count & 1:
                self.state = (self.state * multiplier + increment) & MASK
            increment = (multiplier + 1) * increment & MASK
            multiplier = multiplier * multiplier & MASK
            count >>= 1

    def remainders(self, divisor, count):
        """The next words' remainders by a number. It is `next_u32` written again, for speed."""
        state, increment, found = self.state, self.increment, []
        for _ in range(count):
            word = (state >> 18 ^ state) >> 27 & 0xFFFF_FFFF
            turn = state >> 59
            found.append(((word >> turn | word << 32 - turn) & 0xFFFF_FFFF) % divisor)
            state = (state * MULTIPLIER + increment) & MASK
        self.state = state
        return found

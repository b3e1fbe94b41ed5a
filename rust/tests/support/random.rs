//! Numbers at random from one seed, so that every run makes the same calls.

use std::env;

const SEED_VARIABLE: &str = "CAHERMISK_SEED";
const SEED: u64 = 0x5EED_CA4E_2026_0001;

/// The seed of this run: the one asked for, or the fixed one.
pub fn seed() -> u64 {
    asked_seed().unwrap_or(SEED)
}

/// The seed that `CAHERMISK_SEED` asks for, decimal or with 0x in front.
pub fn asked_seed() -> Option<u64> {
    let text = env::var(SEED_VARIABLE).ok()?;
    let parsed = match text.strip_prefix("0x") {
        Some(digits) => u64::from_str_radix(digits, 16),
        None => text.parse(),
    };
    Some(parsed.unwrap_or_else(|_| panic!("{SEED_VARIABLE}={text} is no 64-bit number")))
}

/// SplitMix64.
pub struct Random(u64);

impl Random {
    /// Each subject has its own row of numbers, whatever order the tests run in.
    pub fn new(subject: &str) -> Random {
        Random::seeded(subject, seed())
    }

    /// The same from another seed.
    pub fn seeded(subject: &str, seed: u64) -> Random {
        let mut state = seed;
        for byte in subject.bytes() {
            state = state.wrapping_mul(0x100_0000_01B3) ^ u64::from(byte);
        }
        Random(state)
    }

    pub fn bits(&mut self) -> u64 {
        self.0 = self.0.wrapping_add(0x9E37_79B9_7F4A_7C15);
        let mut z = self.0;
        z = (z ^ (z >> 30)).wrapping_mul(0xBF58_476D_1CE4_E5B9);
        z = (z ^ (z >> 27)).wrapping_mul(0x94D0_49BB_1331_11EB);
        z ^ (z >> 31)
    }

    /// A number from 0 to `limit` - 1.
    pub fn below(&mut self, limit: usize) -> usize {
        (self.bits() % limit as u64) as usize
    }

    /// True once in `times`.
    pub fn once_in(&mut self, times: usize) -> bool {
        self.below(times) == 0
    }

    pub fn pick<T: Copy>(&mut self, from: &[T]) -> T {
        from[self.below(from.len())]
    }
}

//! A small repeatable generator (splitmix64), so that every run sees the same inputs.

use std::env;

/// The seed used unless [`SEED_VARIABLE`] gives another.
pub const SEED: u64 = 0x1900_1800_0001_0860;

/// The environment variable that changes the seed, in decimal or, after 0x, hexadecimal.
pub const SEED_VARIABLE: &str = "SISALCOVE_SEED";

/// The seed of this run, or what is wrong with the variable.
pub fn seed() -> Result<u64, String> {
    let text = match env::var(SEED_VARIABLE) {
        Ok(text) => text,
        Err(env::VarError::NotPresent) => return Ok(SEED),
        Err(wrong) => return Err(format!("{SEED_VARIABLE}: {wrong}")),
    };
    let number = match text.strip_prefix("0x") {
        Some(digits) => u64::from_str_radix(digits, 16),
        None => text.parse(),
    };
    number.map_err(|wrong| format!("{SEED_VARIABLE}={text}: {wrong}"))
}

/// The generator.
#[derive(Clone, Debug)]
pub struct Random {
    state: u64,
}

impl Random {
    /// A generator of its own for each part of each comparison, so that the inputs do not depend
    /// on how many threads share the work.
    pub fn new(seed: u64, part: u64) -> Random {
        let mut random = Random {
            state: seed ^ part.wrapping_mul(0xD1B5_4A32_D192_ED03),
        };
        random.next();
        random
    }

    /// The next 64 bits.
    #[inline]
    #[allow(clippy::should_implement_trait)] // an endless source needs no iterator's Option
    pub fn next(&mut self) -> u64 {
        self.state = self.state.wrapping_add(0x9E37_79B9_7F4A_7C15);
        let mut word = self.state;
        word = (word ^ word >> 30).wrapping_mul(0xBF58_476D_1CE4_E5B9);
        word = (word ^ word >> 27).wrapping_mul(0x94D0_49BB_1331_11EB);
        word ^ word >> 31
    }

    /// A number below `limit`; 0 if there is none.
    #[inline]
    pub fn below(&mut self, limit: usize) -> usize {
        ((u128::from(self.next()) * limit as u128) >> 64) as usize
    }

    /// True once in `times`.
    #[inline]
    pub fn one_in(&mut self, times: usize) -> bool {
        self.below(times) == 0
    }

    /// Either, evenly.
    #[inline]
    pub fn coin(&mut self) -> bool {
        self.next() >> 63 == 1
    }

    /// Any byte.
    #[inline]
    pub fn byte(&mut self) -> u8 {
        (self.next() >> 56) as u8
    }

    /// Any bytes.
    pub fn fill(&mut self, bytes: &mut [u8]) {
        for part in bytes.chunks_mut(8) {
            let word = self.next().to_le_bytes();
            part.copy_from_slice(&word[..part.len()]);
        }
    }

    /// One of these; the first if there is only that.
    #[inline]
    pub fn choose<'a, T>(&mut self, these: &'a [T]) -> Option<&'a T> {
        these.get(self.below(these.len()))
    }
}

#[cfg(test)]
mod tests {
    use super::*;

    #[test]
    fn the_same_seed_gives_the_same_numbers_and_parts_differ() {
        let numbers = |seed, part| {
            let mut random = Random::new(seed, part);
            [random.next(), random.next(), random.next()]
        };
        assert_eq!(numbers(1, 1), numbers(1, 1));
        assert_ne!(numbers(1, 1), numbers(1, 2));
        assert_ne!(numbers(1, 1), numbers(2, 1));
    }

    #[test]
    fn below_reaches_every_number_and_no_other() {
        let mut random = Random::new(SEED, 0);
        let mut seen = [0u32; 7];
        for _ in 0..7_000 {
            seen[random.below(7)] += 1;
        }
        assert!(seen.iter().all(|&times| times > 800));
        assert_eq!(random.below(0), 0);
    }
}

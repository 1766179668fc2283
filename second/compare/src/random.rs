//! A small generator of random numbers (splitmix64), so that a run can be repeated.

/// The environment variable with the seed of a run.
pub const VARIABLE: &str = "MASTSTEP_SEED";

const DEFAULT_SEED: u64 = 98_157;

pub struct Random {
    state: u64,
}

impl Random {
    /// Starts with the seed of the environment, or the default one, and prints it.
    pub fn from_environment() -> Random {
        let seed = match std::env::var(VARIABLE) {
            Ok(text) => text
                .parse()
                .unwrap_or_else(|_| panic!("{VARIABLE} is not a number below 2^64: {text}")),
            Err(_) => DEFAULT_SEED,
        };
        println!("random numbers from {VARIABLE}={seed}");
        Random::new(seed)
    }

    pub fn new(seed: u64) -> Random {
        Random { state: seed }
    }

    /// A number of 64 random bits.
    pub fn any_number(&mut self) -> u64 {
        self.state = self.state.wrapping_add(0x9E37_79B9_7F4A_7C15);
        let mut mixed = self.state;
        mixed = (mixed ^ (mixed >> 30)).wrapping_mul(0xBF58_476D_1CE4_E5B9);
        mixed = (mixed ^ (mixed >> 27)).wrapping_mul(0x94D0_49BB_1331_11EB);
        mixed ^ (mixed >> 31)
    }

    /// A number from 0 up to, but without, the limit. That small numbers are a little
    /// likelier does not matter here.
    pub fn below(&mut self, limit: u64) -> u64 {
        self.any_number() % limit
    }

    /// True once in so many times.
    pub fn once_in(&mut self, times: u64) -> bool {
        self.below(times) == 0
    }

    pub fn pick<T: Copy>(&mut self, choices: &[T]) -> T {
        choices[self.below(choices.len() as u64) as usize]
    }
}

#[cfg(test)]
mod tests {
    use super::*;

    #[test]
    fn the_published_first_numbers_of_splitmix64() {
        let mut random = Random::new(1_234_567);
        assert_eq!(random.any_number(), 6_457_827_717_110_365_317);
        assert_eq!(random.any_number(), 3_203_168_211_198_807_973);
    }
}

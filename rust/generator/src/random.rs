//! The numbers drawn: xoshiro256** started by splitmix64, both by Blackman
//! and Vigna and in the public domain.

/// One step of splitmix64: moves the state on and gives a number.
pub fn splitmix64(state: &mut u64) -> u64 {
    *state = state.wrapping_add(0x9E37_79B9_7F4A_7C15);
    let mut mixed = *state;
    mixed = (mixed ^ (mixed >> 30)).wrapping_mul(0xBF58_476D_1CE4_E5B9);
    mixed = (mixed ^ (mixed >> 27)).wrapping_mul(0x94D0_49BB_1331_11EB);
    mixed ^ (mixed >> 31)
}

/// A source of numbers that a seed determines.
#[derive(Clone, Debug)]
pub struct Random {
    state: [u64; 4],
}

impl Random {
    /// The numbers of a seed.
    pub fn from_seed(seed: u64) -> Random {
        let mut start = seed;
        Random {
            state: std::array::from_fn(|_| splitmix64(&mut start)),
        }
    }

    /// The numbers of one case under a seed, so that a case can be run alone.
    pub fn for_case(seed: u64, case: u64) -> Random {
        let mut start = seed;
        let own = splitmix64(&mut start) ^ case.wrapping_mul(0xD134_2543_DE82_EF95);
        Random::from_seed(own)
    }

    /// The next number of xoshiro256**.
    pub fn draw(&mut self) -> u64 {
        let [s0, s1, s2, s3] = &mut self.state;
        let result = s1.wrapping_mul(5).rotate_left(7).wrapping_mul(9);
        let shifted = *s1 << 17;
        *s2 ^= *s0;
        *s3 ^= *s1;
        *s1 ^= *s2;
        *s0 ^= *s3;
        *s2 ^= shifted;
        *s3 = s3.rotate_left(45);
        result
    }

    /// A number below the limit, which is not 0.
    pub fn below(&mut self, limit: usize) -> usize {
        ((u128::from(self.draw()) * limit as u128) >> 64) as usize
    }

    /// A number from low to high, both ends included.
    pub fn between(&mut self, low: usize, high: usize) -> usize {
        low + self.below(high - low + 1)
    }

    /// True once in so many times.
    pub fn one_in(&mut self, times: usize) -> bool {
        self.below(times) == 0
    }

    /// True half of the time.
    pub fn flag(&mut self) -> bool {
        self.draw() >> 63 == 1
    }

    /// Any byte.
    pub fn byte(&mut self) -> u8 {
        (self.draw() >> 56) as u8
    }

    /// Any word of 16 bits.
    pub fn word(&mut self) -> u16 {
        (self.draw() >> 48) as u16
    }

    /// One of the choices, of which there is at least one.
    pub fn pick<T: Copy>(&mut self, choices: &[T]) -> T {
        choices[self.below(choices.len())]
    }

    /// So many bytes.
    pub fn bytes(&mut self, count: usize) -> Vec<u8> {
        let mut bytes = vec![0; count];
        for part in bytes.chunks_mut(8) {
            part.copy_from_slice(&self.draw().to_be_bytes()[..part.len()]);
        }
        bytes
    }
}

#[cfg(test)]
mod tests {
    use super::*;

    #[test]
    fn splitmix64_gives_its_known_numbers() {
        let mut state = 1_234_567;
        let drawn: [u64; 3] = std::array::from_fn(|_| splitmix64(&mut state));
        let known = [
            6_457_827_717_110_365_317,
            3_203_168_211_198_807_973,
            9_817_491_932_198_370_423,
        ];
        assert_eq!(drawn, known);
    }

    #[test]
    fn xoshiro_gives_its_known_numbers() {
        let mut random = Random {
            state: [1, 2, 3, 4],
        };
        let drawn: [u64; 4] = std::array::from_fn(|_| random.draw());
        assert_eq!(drawn, [11_520, 0, 1_509_978_240, 1_215_971_899_390_074_240]);
    }

    #[test]
    fn numbers_stay_in_their_limits() {
        let mut random = Random::from_seed(1);
        let mut seen = [false; 5];
        for _ in 0..1000 {
            seen[random.between(2, 6) - 2] = true;
        }
        assert_eq!(seen, [true; 5]);
        assert_eq!(random.bytes(13).len(), 13);
    }

    #[test]
    fn cases_differ_and_come_again() {
        let first = |seed, case| Random::for_case(seed, case).draw();
        assert_eq!(first(1, 2), first(1, 2));
        assert_ne!(first(1, 2), first(1, 3));
        assert_ne!(first(1, 2), first(2, 2));
    }
}

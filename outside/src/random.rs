//! A seeded generator of numbers: xorshift, so that a run can be repeated.

pub struct Random(u64);

impl Random {
    pub fn new(seed: u64) -> Random {
        // A state of 0 would stay 0; small seeds are spread over all bits.
        let mut random = Random(seed.wrapping_mul(0x9E37_79B9_7F4A_7C15) | 1);
        for _ in 0..8 {
            random.number();
        }
        random
    }

    pub fn number(&mut self) -> u64 {
        self.0 ^= self.0 >> 12;
        self.0 ^= self.0 << 25;
        self.0 ^= self.0 >> 27;
        self.0.wrapping_mul(0x2545_F491_4F6C_DD1D)
    }

    /// A number below the limit, which isn't 0.
    pub fn below(&mut self, limit: usize) -> usize {
        (((self.number() >> 32) * limit as u64) >> 32) as usize
    }

    pub fn byte(&mut self) -> u8 {
        (self.number() >> 56) as u8
    }

    /// True once in so many times.
    pub fn once_in(&mut self, times: usize) -> bool {
        self.below(times) == 0
    }

    pub fn pick<'a, T>(&mut self, from: &'a [T]) -> &'a T {
        &from[self.below(from.len())]
    }
}

#[cfg(test)]
mod tests {
    use super::*;

    #[test]
    fn a_seed_repeats_and_limits_hold() {
        let (mut one, mut two) = (Random::new(5), Random::new(5));
        let mut seen = [false; 7];
        for _ in 0..1000 {
            let number = one.below(7);
            assert_eq!(number, two.below(7));
            seen[number] = true;
        }
        assert_eq!(seen, [true; 7]);
        assert_ne!(Random::new(1).number(), Random::new(2).number());
    }
}

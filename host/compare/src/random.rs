//! Numbers by chance, from a seed: splitmix64. The same seed gives the same numbers on any machine, so a run can be had again from its seed.

pub struct Random(u64);

impl Random {
    pub fn new(seed: u64) -> Random {
        Random(seed)
    }

    /// The generator of one round, so that a round can be had again without those before it.
    pub fn of_round(seed: u64, round: u64) -> Random {
        let mut first = Random::new(seed);
        Random::new(first.next() ^ round.wrapping_mul(0xD6E8_FEB8_6659_FD93))
    }

    pub fn next(&mut self) -> u64 {
        self.0 = self.0.wrapping_add(0x9E37_79B9_7F4A_7C15);
        let mut z = self.0;
        z = (z ^ z >> 30).wrapping_mul(0xBF58_476D_1CE4_E5B9);
        z = (z ^ z >> 27).wrapping_mul(0x94D0_49BB_1331_11EB);
        z ^ z >> 31
    }

    /// A number below the bound, which is not 0.
    pub fn below(&mut self, bound: u32) -> u32 {
        (((self.next() >> 32) * u64::from(bound)) >> 32) as u32
    }

    /// A number from `low` to `high`, both included.
    pub fn between(&mut self, low: u32, high: u32) -> u32 {
        low + self.below(high - low + 1)
    }

    /// True once in so many times.
    pub fn one_in(&mut self, times: u32) -> bool {
        self.below(times) == 0
    }

    pub fn word(&mut self) -> u16 {
        self.next() as u16
    }

    pub fn pick<'a, T>(&mut self, from: &'a [T]) -> &'a T {
        &from[self.below(from.len() as u32) as usize]
    }

    pub fn shuffle<T>(&mut self, list: &mut [T]) {
        for n in (1..list.len()).rev() {
            list.swap(n, self.below(n as u32 + 1) as usize);
        }
    }

    /// Fills words by chance, four from each number.
    pub fn fill(&mut self, words: &mut [u16]) {
        for four in words.chunks_mut(4) {
            let number = self.next();
            for (n, word) in four.iter_mut().enumerate() {
                *word = (number >> (16 * n)) as u16;
            }
        }
    }
}

#[cfg(test)]
mod tests {
    use super::Random;

    /// The published first numbers of splitmix64 for this seed.
    #[test]
    fn is_splitmix64() {
        let mut random = Random::new(1_234_567);
        let first: Vec<u64> = (0..3).map(|_| random.next()).collect();
        assert_eq!(first, [6_457_827_717_110_365_317, 3_203_168_211_198_807_973, 9_817_491_932_198_370_423]);
    }

    #[test]
    fn below_its_bound_and_up_to_it() {
        let mut random = Random::new(7);
        let met: std::collections::BTreeSet<u32> = (0..1_000).map(|_| random.between(3, 9)).collect();
        assert_eq!(met, (3..=9).collect());
    }
}

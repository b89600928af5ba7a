//! Random numbers.

/// A deterministic generator (splitmix64).
pub struct Random {
    state: u64,
}

impl Random {
    /// The numbers of one seed and one index among its successions.
    pub fn new(seed: u64, index: u64) -> Random {
        let mut random = Random { state: seed };
        let start = random.next();
        Random {
            state: start ^ index.wrapping_mul(0xD6E8_FEB8_6659_FD93),
        }
    }

    pub fn next(&mut self) -> u64 {
        self.state = self.state.wrapping_add(0x9E37_79B9_7F4A_7C15);
        let mut mixed = self.state;
        mixed = (mixed ^ mixed >> 30).wrapping_mul(0xBF58_476D_1CE4_E5B9);
        mixed = (mixed ^ mixed >> 27).wrapping_mul(0x94D0_49BB_1331_11EB);
        mixed ^ mixed >> 31
    }

    pub fn word(&mut self) -> u32 {
        (self.next() >> 32) as u32
    }

    /// A number below the bound.
    pub fn below(&mut self, bound: u32) -> u32 {
        ((u64::from(self.word()) * u64::from(bound)) >> 32) as u32
    }

    /// A number of the range, both ends included.
    pub fn between(&mut self, least: u32, greatest: u32) -> u32 {
        least + self.below(greatest - least + 1)
    }

    pub fn percent(&mut self, chance: u32) -> bool {
        self.below(100) < chance
    }

    pub fn one_of(&mut self, choice: &[u32]) -> u32 {
        choice[self.below(choice.len() as u32) as usize]
    }
}

/// Numbers that are just out of some range, or far.
pub const WILD: [u32; 18] = [
    16,
    17,
    31,
    32,
    33,
    34,
    63,
    64,
    99,
    255,
    256,
    259,
    0x1_0000,
    0x1_0003,
    0x8000_0000,
    0x8000_0003,
    u32::MAX - 1,
    u32::MAX,
];

#[cfg(test)]
mod tests {
    use super::*;

    #[test]
    fn numbers_below_a_bound() {
        let mut random = Random::new(1, 0);
        let mut seen = [0; 5];
        for _ in 0..1000 {
            seen[random.below(5) as usize] += 1;
        }
        assert!(seen.iter().all(|count| *count > 100));
    }
}

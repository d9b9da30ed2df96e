//! Seeded pseudo-random numbers (the step of splitmix64).

/// A stream of numbers; the same seed, stream and index give the same numbers.
pub struct Random {
    state: u64,
}

impl Random {
    /// The numbers for item `index` of `stream` under `seed`.
    pub fn new(seed: u64, stream: u64, index: u64) -> Random {
        let mut random = Random { state: seed };
        random.state = random.bits() ^ stream.wrapping_mul(0xD1B5_4A32_D192_ED03);
        random.state = random.bits() ^ index.wrapping_mul(0x8CB9_2BA7_2F3D_8DD7);
        random
    }

    /// The next 64 bits.
    pub fn bits(&mut self) -> u64 {
        self.state = self.state.wrapping_add(0x9E37_79B9_7F4A_7C15);
        let mut mixed = self.state;
        mixed = (mixed ^ (mixed >> 30)).wrapping_mul(0xBF58_476D_1CE4_E5B9);
        mixed = (mixed ^ (mixed >> 27)).wrapping_mul(0x94D0_49BB_1331_11EB);
        mixed ^ (mixed >> 31)
    }

    /// A number from `low` to `high`, both possible.
    pub fn between(&mut self, low: usize, high: usize) -> usize {
        low + (self.bits() % (high - low + 1) as u64) as usize
    }

    /// True `times` times in a hundred.
    pub fn percent(&mut self, times: usize) -> bool {
        self.between(0, 99) < times
    }

    /// One of the choices.
    pub fn pick<T: Clone>(&mut self, choices: &[T]) -> T {
        choices[self.between(0, choices.len() - 1)].clone()
    }

    /// An index, in proportion to the weights.
    pub fn weighted(&mut self, weights: &[usize]) -> usize {
        let mut left = self.between(0, weights.iter().sum::<usize>() - 1);
        for (index, weight) in weights.iter().enumerate() {
            if left < *weight {
                return index;
            }
            left -= weight;
        }
        weights.len() - 1
    }

    /// One octet.
    pub fn octet(&mut self) -> u8 {
        self.bits() as u8
    }

    /// `number` octets.
    pub fn octets(&mut self, number: usize) -> Vec<u8> {
        (0..number).map(|_| self.octet()).collect()
    }
}

//! A small deterministic generator (SplitMix64), so that a printed seed repeats a run.

pub struct Random {
    state: u64,
}

impl Random {
    pub fn new(seed: u64) -> Random {
        Random { state: seed }
    }

    /// Takes the seed from HWMP_SEED (decimal) if it is set, otherwise the given one, and prints
    /// it.
    pub fn announced(purpose: &str, seed: u64) -> Random {
        let seed = match std::env::var("HWMP_SEED") {
            Ok(text) => text.parse().expect("HWMP_SEED is a decimal number"),
            Err(_) => seed,
        };
        println!("{purpose}: seed {seed}");
        Random::new(seed)
    }

    pub fn number(&mut self) -> u64 {
        self.state = self.state.wrapping_add(0x9E37_79B9_7F4A_7C15);
        let mixed = (self.state ^ (self.state >> 30)).wrapping_mul(0xBF58_476D_1CE4_E5B9);
        let mixed = (mixed ^ (mixed >> 27)).wrapping_mul(0x94D0_49BB_1331_11EB);
        mixed ^ (mixed >> 31)
    }

    /// Returns a number below `bound`. The bias of the remainder does not matter here.
    pub fn below(&mut self, bound: usize) -> usize {
        (self.number() % bound as u64) as usize
    }

    pub fn one_in(&mut self, count: usize) -> bool {
        self.below(count) == 0
    }

    pub fn octet(&mut self) -> u8 {
        self.number() as u8
    }

    pub fn octets<const N: usize>(&mut self) -> [u8; N] {
        std::array::from_fn(|_| self.octet())
    }

    pub fn pick<T: Copy>(&mut self, choices: &[T]) -> T {
        choices[self.below(choices.len())]
    }
}

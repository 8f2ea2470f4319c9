//! Random numbers from a seed, the same on every machine and in every run.

/// The state of the generator: a counter whose values are scrambled on the way out.
pub struct Dice {
    state: u64,
}

impl Dice {
    /// The dice of case number `case` under a seed, so that a case can be thrown again by itself.
    pub fn of(seed: u64, case: u64) -> Dice {
        let mut dice = Dice { state: seed };
        let start = dice.throw() ^ case.wrapping_mul(0x9E6C_63D0_876A_3F6B);
        Dice { state: start }
    }

    pub fn throw(&mut self) -> u64 {
        self.state = self.state.wrapping_add(0x9E37_79B9_7F4A_7C15);
        let mut mixed = self.state;
        mixed = (mixed ^ (mixed >> 30)).wrapping_mul(0xBF58_476D_1CE4_E5B9);
        mixed = (mixed ^ (mixed >> 27)).wrapping_mul(0x94D0_49BB_1331_11EB);
        mixed ^ (mixed >> 31)
    }

    /// A number below `bound`, which is not 0.
    pub fn below(&mut self, bound: usize) -> usize {
        (self.throw() % bound as u64) as usize
    }

    /// A number from `least` to `most`, both counted.
    pub fn between(&mut self, least: usize, most: usize) -> usize {
        least + self.below(most - least + 1)
    }

    pub fn one_in(&mut self, chances: usize) -> bool {
        self.below(chances) == 0
    }

    pub fn pick<T: Copy>(&mut self, row: &[T]) -> T {
        row[self.below(row.len())]
    }

    pub fn byte(&mut self) -> u8 {
        self.throw() as u8
    }
}

//! Random choices that a seed fixes.

/// A splitmix64 generator.
pub struct Chance {
    state: u64,
}

impl Chance {
    pub fn for_case(seed: u64, index: u64) -> Chance {
        let mut of_seed = Chance { state: seed };
        Chance { state: of_seed.next() ^ index.wrapping_mul(0xD1B5_4A32_D192_ED03) }
    }

    /// For the edit of this number. Its choices have nothing to do with those of the case that it stands behind.
    pub fn for_edit(seed: u64, number: u64) -> Chance {
        Chance::for_case(!seed, number)
    }

    /// For the sequence of calls on stores of this number, likewise.
    pub fn for_sequence(seed: u64, number: u64) -> Chance {
        Chance::for_case(seed ^ 0x6A09_E667_F3BC_C908, number)
    }

    /// For the sequence of a map's calls of this number, likewise.
    pub fn for_map_sequence(seed: u64, number: u64) -> Chance {
        Chance::for_case(seed ^ 0xBB67_AE85_84CA_A73B, number)
    }

    /// For the sequence of splits of this number, likewise.
    pub fn for_split_sequence(seed: u64, number: u64) -> Chance {
        Chance::for_case(seed ^ 0x3C6E_F372_FE94_F82B, number)
    }

    /// For the case of this number that reads several days, likewise.
    pub fn for_month(seed: u64, number: u64) -> Chance {
        Chance::for_case(seed ^ 0xA54F_F53A_5F1D_36F1, number)
    }

    pub fn next(&mut self) -> u64 {
        self.state = self.state.wrapping_add(0x9E37_79B9_7F4A_7C15);
        let mut mixed = self.state;
        mixed = (mixed ^ (mixed >> 30)).wrapping_mul(0xBF58_476D_1CE4_E5B9);
        mixed = (mixed ^ (mixed >> 27)).wrapping_mul(0x94D0_49BB_1331_11EB);
        mixed ^ (mixed >> 31)
    }

    /// A number from 0 to below the bound, which isn't 0.
    pub fn below(&mut self, bound: usize) -> usize {
        (self.next() % bound as u64) as usize
    }

    /// A number from low to high, both included.
    pub fn between(&mut self, low: usize, high: usize) -> usize {
        low + self.below(high - low + 1)
    }

    pub fn one_in(&mut self, times: usize) -> bool {
        self.below(times) == 0
    }

    pub fn pick<T: Copy>(&mut self, choices: &[T]) -> T {
        choices[self.below(choices.len())]
    }

    /// Puts things into any order.
    pub fn shuffle<T>(&mut self, things: &mut [T]) {
        for last in (1..things.len()).rev() {
            let place = self.below(last + 1);
            things.swap(place, last);
        }
    }

    /// A place among so many, the first and the last more often than the others.
    pub fn place_among(&mut self, count: usize) -> usize {
        match self.below(4) {
            0 => 0,
            1 => count - 1,
            _ => self.below(count),
        }
    }

    /// A length from low to high: often one of the two, else rather short.
    pub fn length(&mut self, low: usize, high: usize) -> usize {
        match self.below(12) {
            0 => low,
            1 => high,
            2 => self.between(low, high),
            _ => self.between(low, high.min(low + 8)),
        }
    }
}

//! Pseudo-random numbers that are the same on every run.

/// The generator SplitMix64.
pub struct Random {
    state: u64,
}

impl Random {
    pub fn with_seed(seed: u64) -> Self {
        Self { state: seed }
    }

    /// The next 64 bits.
    pub fn bits(&mut self) -> u64 {
        self.state = self.state.wrapping_add(0x9e37_79b9_7f4a_7c15);
        let mixed = (self.state ^ (self.state >> 30)).wrapping_mul(0xbf58_476d_1ce4_e5b9);
        let mixed = (mixed ^ (mixed >> 27)).wrapping_mul(0x94d0_49bb_1331_11eb);
        mixed ^ (mixed >> 31)
    }

    /// A number below `end`, which is not zero.
    pub fn below(&mut self, end: u64) -> u64 {
        self.bits() % end
    }

    /// One of the choices, of which there is at least one.
    pub fn one_of<T: Copy>(&mut self, choices: &[T]) -> T {
        choices[self.below(choices.len() as u64) as usize]
    }

    /// `count` of the choices, or all of them if there are fewer, in any order.
    pub fn some_of<T>(&mut self, mut choices: Vec<T>, count: usize) -> Vec<T> {
        let count = count.min(choices.len());
        for place in 0..count {
            let from = place as u64 + self.below((choices.len() - place) as u64);
            choices.swap(place, from as usize);
        }
        choices.truncate(count);
        choices
    }
}

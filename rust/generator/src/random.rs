// SPDX-License-Identifier: Apache-2.0 OR MIT
//! Random numbers that are the same for the same seed, everywhere.

/// SplitMix64, with a habit of making faults that depends on the seed.
pub struct Random {
    state: u64,
    habit: Habit,
}

/// How often a choice goes wrong.
enum Habit {
    Never,
    /// Once, after so many occasions.
    Once(usize),
    /// At every occasion, with the chance that is told there.
    Often,
}

/// About the number of occasions that a file gives.
const OCCASIONS: usize = 24;

impl Random {
    pub fn new(seed: u64) -> Random {
        let mut random = Random {
            state: seed,
            habit: Habit::Never,
        };
        random.habit = match random.below(10) {
            0..=2 => Habit::Never,
            3..=7 => Habit::Once(random.below(OCCASIONS)),
            _ => Habit::Often,
        };
        random
    }

    pub fn bits(&mut self) -> u64 {
        self.state = self.state.wrapping_add(0x9E37_79B9_7F4A_7C15);
        let mut mixed = self.state;
        mixed = (mixed ^ (mixed >> 30)).wrapping_mul(0xBF58_476D_1CE4_E5B9);
        mixed = (mixed ^ (mixed >> 27)).wrapping_mul(0x94D0_49BB_1331_11EB);
        mixed ^ (mixed >> 31)
    }

    /// A number from 0 to `limit` - 1; 0 if `limit` is 0.
    pub fn below(&mut self, limit: usize) -> usize {
        (self.bits() >> 1) as usize % limit.max(1)
    }

    /// True in so many of 100 cases.
    pub fn percent(&mut self, chance: usize) -> bool {
        self.below(100) < chance
    }

    /// An occasion for a fault: true if it is to be made.
    pub fn fault(&mut self, chance: usize) -> bool {
        match &mut self.habit {
            Habit::Never => false,
            Habit::Once(0) => {
                self.habit = Habit::Never;
                true
            }
            Habit::Once(before) => {
                *before -= 1;
                false
            }
            Habit::Often => self.percent(chance),
        }
    }

    pub fn pick<T: Copy>(&mut self, choices: &[T]) -> T {
        choices[self.below(choices.len())]
    }

    pub fn shuffle<T>(&mut self, items: &mut [T]) {
        for end in (1..items.len()).rev() {
            items.swap(end, self.below(end + 1));
        }
    }
}

//! A small seeded generator (splitmix64), so that every stream can be had again.

pub struct Random {
    state: u64,
}

const STEP: u64 = 0x9E37_79B9_7F4A_7C15;
const FIRST_FACTOR: u64 = 0xBF58_476D_1CE4_E5B9;
const SECOND_FACTOR: u64 = 0x94D0_49BB_1331_11EB;
const FIRST_SHIFT: u32 = 30;
const SECOND_SHIFT: u32 = 27;
const LAST_SHIFT: u32 = 31;

impl Random {
    pub fn new(seed: u64) -> Random {
        Random { state: seed }
    }

    pub fn next_word(&mut self) -> u64 {
        self.state = self.state.wrapping_add(STEP);
        let mut mixed = self.state;
        mixed = (mixed ^ (mixed >> FIRST_SHIFT)).wrapping_mul(FIRST_FACTOR);
        mixed = (mixed ^ (mixed >> SECOND_SHIFT)).wrapping_mul(SECOND_FACTOR);
        mixed ^ (mixed >> LAST_SHIFT)
    }

    /// A number from 0 up to but not including the bound.
    pub fn below(&mut self, bound: usize) -> usize {
        (self.next_word() % bound as u64) as usize
    }

    /// A number from the lowest to the highest, both included.
    pub fn between(&mut self, lowest: usize, highest: usize) -> usize {
        lowest + self.below(highest - lowest + 1)
    }

    /// True once in so many calls.
    pub fn once_in(&mut self, calls: usize) -> bool {
        self.below(calls) == 0
    }

    pub fn coin(&mut self) -> bool {
        self.once_in(2)
    }

    pub fn byte(&mut self) -> u8 {
        self.next_word() as u8
    }

    pub fn pick<T: Copy>(&mut self, choices: &[T]) -> T {
        choices[self.below(choices.len())]
    }

    /// One of several choices, each as often as its weight says.
    pub fn weighted<T: Clone>(&mut self, choices: &[(usize, T)]) -> T {
        let mut rest = self.below(choices.iter().map(|(weight, _)| weight).sum());
        for (weight, choice) in choices {
            if rest < *weight {
                return choice.clone();
            }
            rest -= weight;
        }
        unreachable!("a number below the sum of the weights falls to a choice")
    }

    pub fn shuffle<T>(&mut self, items: &mut [T]) {
        for last in (1..items.len()).rev() {
            items.swap(last, self.below(last + 1));
        }
    }

    pub fn bytes(&mut self, length: usize) -> Vec<u8> {
        (0..length).map(|_| self.byte()).collect()
    }
}

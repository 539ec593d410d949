//! Random tests that can be made again: a small generator of numbers from a seed, and makers of rules, subjects and calls on top of it.

pub mod batches;
pub mod calls;
pub mod cards;
pub mod checks;
pub mod damage;
pub mod explanations;
pub mod fast;
pub mod lookups;
pub mod rules;
pub mod scans;
pub mod shared;
pub mod sound;
pub mod subjects;

use crate::independent::{ALL_FLAGS, FLAG_D};

/// Any of the flag settings; the depot profile, under which many rules are refused, is set in a fifth of them.
pub fn flags(rng: &mut Rng) -> u32 {
    (rng.number() as u32 & ALL_FLAGS & !FLAG_D) | if rng.percent(20) { FLAG_D } else { 0 }
}

/// SplitMix64: the same seed gives the same numbers on every machine.
pub struct Rng(u64);

impl Rng {
    /// The generator of one case: cases of one seed do not depend on each other.
    pub fn new(seed: u64, case: u64) -> Rng {
        let mut rng = Rng(seed.wrapping_mul(0x9E37_79B9_7F4A_7C15) ^ case.wrapping_mul(0xD134_2543_DE82_EF95));
        rng.number();
        rng
    }

    pub fn number(&mut self) -> u64 {
        self.0 = self.0.wrapping_add(0x9E37_79B9_7F4A_7C15);
        let mut mixed = self.0;
        mixed = (mixed ^ (mixed >> 30)).wrapping_mul(0xBF58_476D_1CE4_E5B9);
        mixed = (mixed ^ (mixed >> 27)).wrapping_mul(0x94D0_49BB_1331_11EB);
        mixed ^ (mixed >> 31)
    }

    /// A number below the bound, which is above 0.
    pub fn below(&mut self, bound: usize) -> usize {
        (self.number() % bound as u64) as usize
    }

    /// A number from low to high, both included.
    pub fn between(&mut self, low: usize, high: usize) -> usize {
        low + self.below(high - low + 1)
    }

    /// True in so many of a hundred cases.
    pub fn percent(&mut self, chance: usize) -> bool {
        self.below(100) < chance
    }

    pub fn byte(&mut self) -> u8 {
        self.below(256) as u8
    }

    pub fn pick<'a, T>(&mut self, from: &'a [T]) -> &'a T {
        &from[self.below(from.len())]
    }

    /// An index by weight.
    pub fn weighted(&mut self, weights: &[usize]) -> usize {
        let mut left = self.below(weights.iter().sum());
        weights
            .iter()
            .position(|&weight| {
                if left < weight {
                    true
                } else {
                    left -= weight;
                    false
                }
            })
            .expect("the weights' sum is the bound")
    }
}

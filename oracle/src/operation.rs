//! What a layer says about each of its operations.

use std::panic;

use crate::random::Random;

/// One operation that is compared. All operands and results are u64 numbers.
pub struct Operation {
    /// Its name in a question, four characters.
    pub word: &'static str,
    /// How many numbers a question holds.
    pub operands: usize,
    /// How many numbers an answer holds.
    pub results: usize,
    /// Makes the operands of all questions: the edges, then draws up to the count.
    pub generator: fn(usize, &mut Random) -> Vec<Vec<u64>>,
    /// Computes the results by the published Rust, which may panic.
    pub by_rust: fn(&[u64]) -> Vec<u64>,
}

impl Operation {
    /// The operands of each question. An operation has its own draws, whatever else is asked.
    pub fn questions(&self, count: usize, seed: u64) -> Vec<Vec<u64>> {
        (self.generator)(count, &mut Random::new(seed, self.word))
    }

    /// The results, or nothing if the published Rust panics.
    pub fn answer(&self, operands: &[u64]) -> Option<Vec<u64>> {
        panic::catch_unwind(|| (self.by_rust)(operands)).ok()
    }
}

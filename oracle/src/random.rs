//! Draws that depend on nothing but the seed and the operation's word.

/// The generator splitmix64.
pub struct Random(u64);

impl Random {
    pub fn new(seed: u64, word: &str) -> Self {
        let mix = |state: u64, byte| state.rotate_left(16) ^ u64::from(byte);
        Random(word.bytes().fold(seed, mix))
    }

    pub fn next(&mut self) -> u64 {
        self.0 = self.0.wrapping_add(0x9e37_79b9_7f4a_7c15);
        let z = (self.0 ^ (self.0 >> 30)).wrapping_mul(0xbf58_476d_1ce4_e5b9);
        let z = (z ^ (z >> 27)).wrapping_mul(0x94d0_49bb_1331_11eb);
        z ^ (z >> 31)
    }

    /// A number below the bound.
    pub fn below(&mut self, bound: usize) -> usize {
        (self.next() % bound as u64) as usize
    }
}

//! What the calls are timed on: so many inputs by turns, each made from its number.

use std::hint::black_box;

pub const COUNT: u64 = 1024;

/// 2^64 - 2^32 + 1.
const P: u64 = 0xffff_ffff_0000_0001;

/// Another input at each call, of so many that a processor cannot learn the branches that each of them takes.
pub struct Inputs<T> {
    all: Vec<T>,
    next: usize,
}

impl<T> Inputs<T> {
    pub fn new(make: impl Fn(u64) -> T) -> Self {
        let all = (0..COUNT).map(make).collect();
        Inputs { all, next: 0 }
    }

    pub fn next(&mut self) -> &T {
        self.next = (self.next + 1) % self.all.len();
        black_box(&self.all[self.next])
    }
}

pub fn randomness(seed: u64) -> [u8; 32] {
    let byte = |i: u64| seed.wrapping_mul(6364136223846793005).wrapping_add(i * i) >> (i % 8);
    std::array::from_fn(|i| byte(i as u64) as u8)
}

/// Numbers below p that fill all 64 bits, another list for each seed.
pub fn numbers<const N: usize>(seed: u64) -> [u64; N] {
    let mut x = seed;
    std::array::from_fn(|_| {
        x = x
            .wrapping_mul(6364136223846793005)
            .wrapping_add(1442695040888963407);
        (x ^ x >> 29) % P
    })
}

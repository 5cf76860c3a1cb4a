//! Stands for rand: names without a generator behind them, so that published code drawing random elements compiles, untouched.

use std::ops::RangeInclusive;

pub trait Rng {}

pub trait RngExt: Rng {
    fn random_range(&mut self, range: RangeInclusive<u64>) -> u64;
}

impl<R: Rng + ?Sized> RngExt for R {
    fn random_range(&mut self, _: RangeInclusive<u64>) -> u64 {
        unreachable!("no type implements Rng")
    }
}

pub mod distr {
    use super::Rng;

    pub struct StandardUniform;

    pub trait Distribution<T> {
        fn sample<R: Rng + ?Sized>(&self, rng: &mut R) -> T;
    }
}

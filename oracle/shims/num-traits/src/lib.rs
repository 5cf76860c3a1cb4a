//! Stands for num-traits 0.2.19: Debian's crate, and two traits that it lacks; published code gives all their values.

pub use debian::{One, Zero};

pub trait ConstZero: Zero {
    const ZERO: Self;
}

pub trait ConstOne: One {
    const ONE: Self;
}

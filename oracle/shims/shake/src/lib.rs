//! Stands for the crate shake: the same hash under the name it has in Debian's sha3; its callers are untouched.

pub use sha3::Shake256;

//! Questions, and their answers by the published Rust, so that another program's answers can be compared.

pub mod field;
pub mod kem;
pub mod lanes;
pub mod operation;
pub mod random;
pub mod ring;

use operation::Operation;

/// A layer's name and its operations. A new layer is a new row.
pub const LAYERS: &[(&str, &[Operation])] = &[
    ("field", field::OPERATIONS),
    ("ring", ring::OPERATIONS),
    ("lanes", lanes::OPERATIONS),
    ("kem", kem::OPERATIONS),
];

/// The operation of a word, in whatever layer.
pub fn operation(word: &str) -> Option<&'static Operation> {
    let mut all = LAYERS.iter().flat_map(|(_, operations)| *operations);
    all.find(|operation| operation.word == word)
}

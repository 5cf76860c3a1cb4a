//! Stands for `error.rs`, cut to the one enum that `b_field_element.rs` names; only its parsing of numbers uses it.

use std::num::ParseIntError;

#[derive(Debug, Clone, Eq, PartialEq)]
pub enum ParseBFieldElementError {
    ParseIntError(ParseIntError),
    NotCanonical(i128),
    InvalidNumBytes(usize),
}

//! The table of docs/SCHEME.md, "When a call says no", written once more: shapes of arguments, refusals, which of them is given.

use crate::lent::Lent;

pub const P: u64 = 0xffff_ffff_0000_0001;

/// As the header lays it out; zeros where the call is done.
#[derive(Clone, Copy, Debug, PartialEq)]
#[repr(C)]
pub struct Refusal {
    pub number: u64,
    pub argument: u64,
    pub place: u64,
}

const fn refusal(number: u64, argument: u64, place: u64) -> Refusal {
    Refusal {
        number,
        argument,
        place,
    }
}

pub const DONE: Refusal = refusal(0, 0, 0);
pub const DIFFERS: Refusal = refusal(3, 0, 0);
pub const OF_ZERO: Refusal = refusal(4, 1, 0);
pub const NO_JOB: Refusal = refusal(5, 0, 0);

/// What an argument must be.
#[derive(Clone, Copy)]
pub enum Shape {
    /// Any number: an exponent, what `new` takes, or the place for a number that is given.
    Any,
    /// A field value: a coefficient with index 0.
    Value,
    /// So many coefficients.
    Coefficients(usize),
    /// So many bytes.
    Bytes(usize),
    /// So many bytes; from the second number on they are coefficients, eight bytes each, the lowest first.
    Packed(usize, usize),
    /// So many bytes, or fewer.
    AtMost(usize),
}

use Shape::*;

impl Shape {
    /// The one allowed length, or the largest.
    pub fn size(&self) -> Option<usize> {
        match *self {
            Any | Value => None,
            Coefficients(size) | Bytes(size) | Packed(size, _) | AtMost(size) => Some(size),
        }
    }

    fn allows(&self, lent: &Lent) -> bool {
        match self {
            AtMost(size) => lent.size() <= Some(*size),
            _ => lent.size() == self.size(),
        }
    }

    /// How many coefficients a lent argument has, whatever its length.
    pub fn places(&self, lent: &Lent) -> usize {
        match *self {
            Any | Bytes(_) | AtMost(_) => 0,
            Value => 1,
            Coefficients(_) => lent.numbers().len(),
            Packed(_, from) => lent.bytes().len().saturating_sub(from) / 8,
        }
    }

    /// Index of the first coefficient that is not canonical.
    fn first_bad(&self, lent: &Lent) -> Option<usize> {
        let lowest_first = |chunk: &[u8]| u64::from_le_bytes(chunk.try_into().unwrap());
        match *self {
            Any | Bytes(_) | AtMost(_) => None,
            Value => (lent.number() >= P).then_some(0),
            Coefficients(_) => lent.numbers().iter().position(|x| *x >= P),
            Packed(_, from) => {
                let mut chunks = lent.bytes()[from..].chunks_exact(8);
                chunks.position(|chunk| lowest_first(chunk) >= P)
            }
        }
    }

    pub fn put(&self, lent: &mut Lent, place: usize, coefficient: u64) {
        match (*self, lent) {
            (Value, Lent::Number(number)) => *number = coefficient,
            (Coefficients(_), Lent::Numbers(slice)) => slice.part_mut()[place] = coefficient,
            (Packed(_, from), Lent::Bytes(slice)) => {
                let start = from + 8 * place;
                slice.part_mut()[start..start + 8].copy_from_slice(&coefficient.to_le_bytes());
            }
            _ => unreachable!("no coefficient"),
        }
    }
}

/// Numbers 1 and 2: all lengths, outputs too, are looked at before any coefficient, and coefficients stand in inputs alone.
pub fn judged(inputs: &[Shape], outputs: &[Shape], lent: &[Lent]) -> Option<Refusal> {
    let mut shapes = inputs.iter().chain(outputs).zip(lent);
    if let Some(k) = shapes.position(|(shape, lent)| !shape.allows(lent)) {
        return Some(refusal(1, k as u64 + 1, 0));
    }
    let mut bad = (1..).zip(inputs.iter().zip(lent));
    bad.find_map(|(k, (shape, lent))| Some(refusal(2, k, shape.first_bad(lent)? as u64)))
}

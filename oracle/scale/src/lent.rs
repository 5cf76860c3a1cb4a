//! What a call is lent: numbers, and slices with a margin on either side.

use oracle::random::Random;

/// So many elements on either side of a slice belong to no call. Odd, so that bytes begin at an odd address.
const MARGIN: usize = 11;

#[derive(Clone, PartialEq)]
pub enum Lent {
    Number(u64),
    Bytes(Slice<u8>),
    Numbers(Slice<u64>),
}

/// A slice between its margins.
#[derive(Clone, PartialEq)]
pub struct Slice<T>(Vec<T>);

/// What a buffer can be filled with.
pub trait Drawn: Copy {
    fn drawn(random: &mut Random) -> Self;
}

impl Drawn for u8 {
    fn drawn(random: &mut Random) -> u8 {
        random.next() as u8
    }
}

impl Drawn for u64 {
    fn drawn(random: &mut Random) -> u64 {
        random.next()
    }
}

pub fn many<T: Drawn>(count: usize, random: &mut Random) -> Vec<T> {
    (0..count).map(|_| T::drawn(random)).collect()
}

impl<T: Drawn> Slice<T> {
    pub fn new(part: &[T], random: &mut Random) -> Self {
        let (before, after) = (many(MARGIN, random), many(MARGIN, random));
        Slice([&before, part, &after].concat())
    }

    pub fn part(&self) -> &[T] {
        &self.0[MARGIN..self.0.len() - MARGIN]
    }

    pub fn part_mut(&mut self) -> &mut [T] {
        let end = self.0.len() - MARGIN;
        &mut self.0[MARGIN..end]
    }

    /// Cut off at its end, or made longer by what is drawn.
    pub fn resize(&mut self, size: usize, random: &mut Random) {
        let mut part = self.part().to_vec();
        part.truncate(size);
        part.extend(many::<T>(size - part.len(), random));
        *self = Slice::new(&part, random);
    }
}

impl Lent {
    pub fn number(&self) -> u64 {
        match self {
            Lent::Number(number) => *number,
            _ => unreachable!("a slice is no number"),
        }
    }

    pub fn bytes(&self) -> &[u8] {
        match self {
            Lent::Bytes(slice) => slice.part(),
            _ => unreachable!("no bytes"),
        }
    }

    pub fn bytes_mut(&mut self) -> &mut [u8] {
        match self {
            Lent::Bytes(slice) => slice.part_mut(),
            _ => unreachable!("no bytes"),
        }
    }

    pub fn numbers(&self) -> &[u64] {
        match self {
            Lent::Numbers(slice) => slice.part(),
            _ => unreachable!("no numbers"),
        }
    }

    /// Of a slice; a number has none.
    pub fn size(&self) -> Option<usize> {
        match self {
            Lent::Number(_) => None,
            Lent::Bytes(slice) => Some(slice.part().len()),
            Lent::Numbers(slice) => Some(slice.part().len()),
        }
    }

    pub fn resize(&mut self, size: usize, random: &mut Random) {
        match self {
            Lent::Number(_) => {}
            Lent::Bytes(slice) => slice.resize(size, random),
            Lent::Numbers(slice) => slice.resize(size, random),
        }
    }
}

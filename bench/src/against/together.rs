//! What one tree does together and the other may do one by one: then one call is timed beside two, or beside four.

use crate::inner::inner;
use crate::inputs::numbers;
use crate::trees::{Row, Tree, Work, anywhere, row, work};

/// Two states in one array, and where lane i of state j stands: in step at 2 i + j + 2, else one state behind the other.
struct Two {
    lanes: [u64; 52],
    place: fn(usize, usize) -> usize,
}

impl Two {
    fn new(place: fn(usize, usize) -> usize) -> Self {
        let (mut lanes, from) = ([0; 52], numbers::<50>(0));
        (0..50).for_each(|k| lanes[place(k % 25, k / 25)] = from[k]);
        Two { lanes, place }
    }

    fn lane(&self, k: usize) -> u64 {
        self.lanes[(self.place)(k % 25, k / 25)]
    }
}

impl PartialEq for Two {
    fn eq(&self, other: &Self) -> bool {
        (0..50).all(|k| self.lane(k) == other.lane(k))
    }
}

fn permute_two(tree: &Tree) -> Option<Work<Two, ()>> {
    let call = inner!(tree, "bench_permute_two", () -> (lanes: [u64; 52]));
    work(Two::new(|i, j| 2 * i + j + 2), move |two| {
        call(&mut two.lanes)
    })
}

fn permute_twice(tree: &Tree) -> Option<Work<Two, ()>> {
    let call = inner!(tree, "bench_permute", () -> (a: [u64; 25]));
    work(Two::new(|i, j| 25 * j + i), move |two| {
        let (states, _) = two.lanes.as_chunks_mut();
        states.iter_mut().for_each(&call)
    })
}

pub fn two_permutations() -> Row {
    row("inner: two permutations in step", 25, (), |tree| {
        let apart = || permute_twice(tree).filter(|_| anywhere("bench_permute_two"));
        permute_two(tree).or_else(apart)
    })
}

fn transform_four(tree: &Tree) -> Option<Work<[u64; 256], ()>> {
    let call = inner!(tree, "bench_ntt_four", () -> (vector: [u64; 256]));
    work(numbers(0), move |vector| call(vector))
}

fn transform_each(tree: &Tree) -> Option<Work<[u64; 256], ()>> {
    let call = inner!(tree, "bench_ntt", () -> (array: [u64; 64]));
    work(numbers(0), move |vector: &mut [u64; 256]| {
        let (elements, _) = vector.as_chunks_mut();
        elements.iter_mut().for_each(&call)
    })
}

pub fn four_transforms() -> Row {
    row("inner: forward transform of four", 5, (), |tree| {
        let apart = || transform_each(tree).filter(|_| anywhere("bench_ntt_four"));
        transform_four(tree).or_else(apart)
    })
}

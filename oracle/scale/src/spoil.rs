//! Wrong lengths and coefficients that are not canonical, in order and at random.

use oracle::random::Random;

use crate::lent::Lent;
use crate::paper::{P, Shape};

const COEFFICIENTS: [u64; 4] = [P - 1, P, P + 1, u64::MAX];

/// How far beyond an allowed length every length is tried.
const BEYOND: usize = 64;

/// Hands on, one after the other: every length of each argument from 0 to beyond what is allowed; each of four coefficients at every place;
/// lengths next to the allowed ones in every combination, with bad coefficients in any inputs. The first `inputs` shapes are inputs.
pub fn sweep(
    shapes: &[Shape],
    inputs: usize,
    good: &[Lent],
    random: &mut Random,
    mut each: impl FnMut(Vec<Lent>),
) {
    for (k, shape) in shapes.iter().enumerate() {
        let Some(size) = shape.size() else { continue };
        for size in 0..=size + BEYOND {
            let mut lent = good.to_vec();
            lent[k].resize(size, random);
            each(lent);
        }
    }
    for (k, shape) in shapes[..inputs].iter().enumerate() {
        for place in 0..shape.places(&good[k]) {
            for coefficient in COEFFICIENTS {
                let mut lent = good.to_vec();
                shape.put(&mut lent[k], place, coefficient);
                each(lent);
            }
        }
    }
    for lent in combinations(shapes, inputs, good, random) {
        each(lent);
    }
}

fn combinations(
    shapes: &[Shape],
    inputs: usize,
    good: &[Lent],
    random: &mut Random,
) -> Vec<Vec<Lent>> {
    let mut all = vec![good.to_vec()];
    for (k, shape) in shapes.iter().enumerate() {
        let Some(size) = shape.size() else { continue };
        all = crossed(&all, &[0, size - 1, size, size + 1], |lent, size| {
            lent[k].resize(*size, random)
        });
    }
    for (k, shape) in shapes[..inputs].iter().enumerate() {
        let places = shape.places(&good[k]);
        if places == 0 {
            continue;
        }
        let choices = [None, Some(0), Some(places / 2), Some(places - 1)];
        all = crossed(&all, &choices, |lent, place| {
            if let Some(place) = place.filter(|place| *place < shape.places(&lent[k])) {
                shape.put(&mut lent[k], place, bad(random));
            }
        });
    }
    all
}

/// Each of the lists with each of the choices.
fn crossed<T>(
    all: &[Vec<Lent>],
    choices: &[T],
    mut choose: impl FnMut(&mut Vec<Lent>, &T),
) -> Vec<Vec<Lent>> {
    let mut crossed = Vec::with_capacity(all.len() * choices.len());
    for lent in all {
        for choice in choices {
            let mut lent = lent.clone();
            choose(&mut lent, choice);
            crossed.push(lent);
        }
    }
    crossed
}

/// A third of the slices gets another length, half of the inputs one to three other coefficients.
pub fn spoil(shapes: &[Shape], inputs: usize, lent: &mut [Lent], random: &mut Random) {
    for (shape, lent) in shapes.iter().zip(&mut *lent) {
        if let Some(size) = shape.size().filter(|_| random.below(3) == 0) {
            lent.resize(length(size, random), random);
        }
    }
    for (shape, lent) in shapes[..inputs].iter().zip(lent) {
        let places = shape.places(lent);
        if places > 0 && random.below(2) == 0 {
            for _ in 0..=random.below(3) {
                shape.put(lent, random.below(places), bad(random));
            }
        }
    }
}

fn length(size: usize, random: &mut Random) -> usize {
    match random.below(4) {
        0 => random.below(2 * size + 2),
        1 => [0, size / 2, 2 * size, 8 * size][random.below(4)],
        _ => size + 1 - 2 * random.below(2),
    }
}

/// Mostly not canonical; p - 1 is.
fn bad(random: &mut Random) -> u64 {
    match random.below(5) {
        4 => P + random.next() % (u64::MAX - P),
        edge => COEFFICIENTS[edge],
    }
}

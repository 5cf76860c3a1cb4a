//! The ring: what `lattice.rs` answers on its transforms, ring elements and matrices. A ring element is 64 canonical numbers.

use twenty_first::math::b_field_element::BFieldElement;
use twenty_first::math::lattice::{
    CyclotomicRingElement, ModuleElement, coset_intt_noswap_64, coset_ntt_noswap_64,
};

use crate::operation::Operation;
use crate::random::Random;

/// Everything that is compared: word, sizes of operands and result in ring elements, the published Rust.
#[rustfmt::skip]
pub const OPERATIONS: &[Operation] = &[
    row("ntt ", 1, 1, one,    |x| { let mut a = numbers(x); coset_ntt_noswap_64(&mut a); values(&a) }),
    row("intt", 1, 1, one,    |x| { let mut a = numbers(x); coset_intt_noswap_64(&mut a); values(&a) }),
    row("radd", 2, 1, pair,   |x| element_values(element(&x[..64]) + element(&x[64..]))),
    row("rsub", 2, 1, pair,   |x| element_values(element(&x[..64]) - element(&x[64..]))),
    row("rmul", 2, 1, pair,   |x| element_values(element(&x[..64]) * element(&x[64..]))),
    row("hada", 2, 1, pair,   |x| element_values(CyclotomicRingElement::hadamard(element(&x[..64]), element(&x[64..])))),
    row("mcol", 20, 4, column, |x| module_values(ModuleElement::<4>::multiply_hadamard::<4, 16, 1, 4, 4, 4>(module(&x[..1024]), module(&x[1024..])))),
    row("rmat", 20, 4, matrix, |x| module_values(ModuleElement::<4>::multiply_hadamard::<1, 4, 4, 16, 4, 4>(module(&x[..256]), module(&x[256..])))),
    row("rcol", 8, 1, single, |x| module_values(ModuleElement::<1>::multiply_hadamard::<1, 4, 1, 4, 4, 1>(module(&x[..256]), module(&x[256..])))),
];

const fn row(
    word: &'static str,
    operands: usize,
    results: usize,
    generator: fn(usize, &mut Random) -> Vec<Vec<u64>>,
    by_rust: fn(&[u64]) -> Vec<u64>,
) -> Operation {
    Operation {
        word,
        operands: 64 * operands,
        results: 64 * results,
        generator,
        by_rust,
    }
}

fn numbers(x: &[u64]) -> [BFieldElement; 64] {
    std::array::from_fn(|i| BFieldElement::new(x[i]))
}

fn values(elements: &[BFieldElement]) -> Vec<u64> {
    elements.iter().map(|element| element.value()).collect()
}

fn element(x: &[u64]) -> CyclotomicRingElement {
    numbers(x).into()
}

fn element_values(element: CyclotomicRingElement) -> Vec<u64> {
    values(&<[BFieldElement; 64]>::from(element))
}

/// The fields are private; serde with bincode gives the coefficients in order, eight little-endian bytes each.
fn module<const N: usize>(x: &[u64]) -> ModuleElement<N> {
    let bytes: Vec<u8> = x.iter().flat_map(|number| number.to_le_bytes()).collect();
    bincode::deserialize(&bytes).unwrap()
}

fn module_values<const N: usize>(module: ModuleElement<N>) -> Vec<u64> {
    let bytes = bincode::serialize(&module).unwrap();
    let number = |bytes: &[u8]| u64::from_le_bytes(bytes.try_into().unwrap());
    bytes.chunks(8).map(number).collect()
}

fn one(count: usize, random: &mut Random) -> Vec<Vec<u64>> {
    edges_then_draws(&[1], count, random)
}

fn pair(count: usize, random: &mut Random) -> Vec<Vec<u64>> {
    edges_then_draws(&[1, 1], count, random)
}

fn column(count: usize, random: &mut Random) -> Vec<Vec<u64>> {
    edges_then_draws(&[16, 4], count, random)
}

fn matrix(count: usize, random: &mut Random) -> Vec<Vec<u64>> {
    edges_then_draws(&[4, 16], count, random)
}

fn single(count: usize, random: &mut Random) -> Vec<Vec<u64>> {
    edges_then_draws(&[4, 4], count, random)
}

const P: u64 = BFieldElement::P;

/// How the numbers of an operand are laid out.
enum Pattern {
    /// The same number everywhere.
    Constant(u64),
    /// Two numbers in turn.
    Alternating(u64, u64),
    /// A number at one place, counted from the front or from the back, and 0 elsewhere.
    OneHot(usize, u64),
    OneHotFromBack(usize, u64),
}

use Pattern::*;

/// Always asked, each in all operands of a question.
const EDGES: &[Pattern] = &[
    Constant(0),
    Constant(P - 1),
    Alternating(0, P - 1),
    Alternating(P - 1, 1),
    OneHot(0, P - 1),
    OneHotFromBack(0, 1),
];

impl Pattern {
    fn at(&self, place: usize, size: usize) -> u64 {
        match *self {
            Constant(number) => number,
            Alternating(even, odd) => [even, odd][place % 2],
            OneHot(hot, number) if place == hot => number,
            OneHotFromBack(hot, number) if place + hot + 1 == size => number,
            _ => 0,
        }
    }

    fn operand(&self, size: usize) -> Vec<u64> {
        (0..size).map(|place| self.at(place, size)).collect()
    }
}

/// Half of the operands are spread evenly, the others are laid out by a pattern of drawn numbers.
fn draw(size: usize, random: &mut Random) -> Vec<u64> {
    match random.below(8) {
        0 => Constant(number(random)).operand(size),
        1 => Alternating(number(random), number(random)).operand(size),
        2 => OneHot(random.below(size), number(random)).operand(size),
        3 => (0..size).map(|_| [0, 1, P - 1][random.below(3)]).collect(),
        _ => (0..size).map(|_| number(random)).collect(),
    }
}

fn number(random: &mut Random) -> u64 {
    random.next() % P
}

/// Each edge in all operands, even beyond the count; then draws up to the count. Sizes are in ring elements.
fn edges_then_draws(sizes: &[usize], count: usize, random: &mut Random) -> Vec<Vec<u64>> {
    let sizes: Vec<usize> = sizes.iter().map(|size| 64 * size).collect();
    let edge = |edge: &Pattern| sizes.iter().flat_map(|size| edge.operand(*size)).collect();
    let mut questions: Vec<Vec<u64>> = EDGES.iter().map(edge).collect();
    while questions.len() < count {
        questions.push(sizes.iter().flat_map(|size| draw(*size, random)).collect());
    }
    questions
}

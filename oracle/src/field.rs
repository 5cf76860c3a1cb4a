//! The field: what `b_field_element.rs` answers.

use twenty_first::math::b_field_element::BFieldElement;

use crate::operation::Operation;
use crate::random::Random;

/// Everything that is compared: word, number of operands, generator, the published Rust.
#[rustfmt::skip]
pub const OPERATIONS: &[Operation] = &[
    row("new ", 1, words,    |x| canonical(element(x[0]))),
    row("val ", 1, elements, |x| canonical(element(x[0]))),
    row("add ", 2, pairs,    |x| canonical(element(x[0]) + element(x[1]))),
    row("sub ", 2, pairs,    |x| canonical(element(x[0]) - element(x[1]))),
    row("mul ", 2, pairs,    |x| canonical(element(x[0]) * element(x[1]))),
    row("neg ", 1, elements, |x| canonical(-element(x[0]))),
    row("inv ", 1, elements, |x| canonical(element(x[0]).inverse())),
    row("pow ", 2, powers,   |x| canonical(element(x[0]).mod_pow(x[1]))),
];

const fn row(
    word: &'static str,
    operands: usize,
    generator: fn(usize, &mut Random) -> Vec<Vec<u64>>,
    by_rust: fn(&[u64]) -> Vec<u64>,
) -> Operation {
    Operation {
        word,
        operands,
        results: 1,
        generator,
        by_rust,
    }
}

fn element(number: u64) -> BFieldElement {
    BFieldElement::new(number)
}

fn canonical(element: BFieldElement) -> Vec<u64> {
    vec![element.value()]
}

const P: u64 = BFieldElement::P;

/// The numbers an operand may be, and those of them that are always asked.
struct Kind {
    bound: Option<u64>,
    edges: &'static [u64],
}

/// Any number, for `new` to reduce.
const WORD: Kind = Kind {
    bound: None,
    edges: EDGES,
};

/// A canonical number.
const ELEMENT: Kind = Kind {
    bound: Some(P),
    edges: EDGES,
};

/// Any number, as an exponent.
const EXPONENT: Kind = Kind {
    bound: None,
    edges: &[0, 1, 2, 63, 64, P - 2, P - 1, P, u64::MAX],
};

const EDGES: &[u64] = &[
    0,
    1,
    2,
    (1 << 32) - 2,
    (1 << 32) - 1,
    1 << 32,
    (1 << 32) + 1,
    1 << 63,
    (P - 1) / 2,
    (P - 1) / 2 + 1,
    P - 2,
    P - 1,
    P,
    P + 1,
    u64::MAX,
];

fn words(count: usize, random: &mut Random) -> Vec<Vec<u64>> {
    grid_then_draws(&[WORD], count, random)
}

fn elements(count: usize, random: &mut Random) -> Vec<Vec<u64>> {
    grid_then_draws(&[ELEMENT], count, random)
}

fn pairs(count: usize, random: &mut Random) -> Vec<Vec<u64>> {
    grid_then_draws(&[ELEMENT, ELEMENT], count, random)
}

fn powers(count: usize, random: &mut Random) -> Vec<Vec<u64>> {
    grid_then_draws(&[ELEMENT, EXPONENT], count, random)
}

/// Every combination of edges, even beyond the count; then draws up to the count.
fn grid_then_draws(kinds: &[Kind], count: usize, random: &mut Random) -> Vec<Vec<u64>> {
    let mut questions = vec![vec![]];
    for kind in kinds {
        questions = questions.iter().flat_map(|row| kind.after(row)).collect();
    }
    while questions.len() < count {
        questions.push(kinds.iter().map(|kind| kind.draw(random)).collect());
    }
    questions
}

impl Kind {
    fn allows(&self, number: u64) -> bool {
        self.bound.is_none_or(|bound| number < bound)
    }

    /// The row with each edge in turn as one more operand.
    fn after(&self, row: &[u64]) -> Vec<Vec<u64>> {
        let edges = self.edges.iter().filter(|edge| self.allows(**edge));
        edges.map(|edge| [row, &[*edge]].concat()).collect()
    }

    /// Half of the draws are spread evenly, a quarter lies near an edge, a quarter has any length in bits.
    fn draw(&self, random: &mut Random) -> u64 {
        let number = match random.below(4) {
            0 => self.near_edge(random),
            1 => random.next() >> random.below(64),
            _ => random.next(),
        };
        self.bound.map_or(number, |bound| number % bound)
    }

    fn near_edge(&self, random: &mut Random) -> u64 {
        let edge = self.edges[random.below(self.edges.len())];
        edge.wrapping_add(random.next() % 256).wrapping_sub(128)
    }
}

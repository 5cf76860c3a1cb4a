//! Samplers and message lanes: what `lattice.rs` answers. Bytes are packed eight to a number, the first byte the highest.

use twenty_first::math::b_field_element::BFieldElement;
use twenty_first::math::lattice::CyclotomicRingElement;
use twenty_first::math::lattice::embed_msg;
use twenty_first::math::lattice::extract_msg;
use twenty_first::math::lattice::sample_short_bfield_element;

use crate::operation::Operation;
use crate::random::Random;

/// Everything that is compared: word, number of operands, number of results, generator, the published Rust.
#[rustfmt::skip]
pub const OPERATIONS: &[Operation] = &[
    row("shrt",  1,  1, shorts,     |x| vec![sample_short_bfield_element(&bytes(x)).value()]),
    row("sshr", 64, 64, elements,   |x| coefficients(CyclotomicRingElement::sample_short(&bytes::<512>(x)))),
    row("suni", 72, 64, uniforms,   |x| coefficients(CyclotomicRingElement::sample_uniform(&bytes::<576>(x)))),
    row("embd",  4, 64, payloads,   |x| coefficients(embed_msg(bytes(x)))),
    row("extr", 64,  4, embeddings, |x| packed(&extract_msg(element(x)))),
];

const fn row(
    word: &'static str,
    operands: usize,
    results: usize,
    generator: fn(usize, &mut Random) -> Vec<Vec<u64>>,
    by_rust: fn(&[u64]) -> Vec<u64>,
) -> Operation {
    Operation {
        word,
        operands,
        results,
        generator,
        by_rust,
    }
}

const P: u64 = BFieldElement::P;

fn bytes<const N: usize>(numbers: &[u64]) -> [u8; N] {
    let bytes: Vec<u8> = numbers.iter().flat_map(|n| n.to_be_bytes()).collect();
    bytes.try_into().unwrap()
}

fn packed(bytes: &[u8]) -> Vec<u64> {
    let eight = |chunk: &[u8]| u64::from_be_bytes(chunk.try_into().unwrap());
    bytes.chunks(8).map(eight).collect()
}

fn element(numbers: &[u64]) -> CyclotomicRingElement {
    let coefficients: Vec<_> = numbers.iter().map(|n| BFieldElement::new(*n)).collect();
    let coefficients: [BFieldElement; 64] = coefficients.try_into().unwrap();
    coefficients.into()
}

fn coefficients(element: CyclotomicRingElement) -> Vec<u64> {
    let coefficients: [BFieldElement; 64] = element.into();
    coefficients.iter().map(BFieldElement::value).collect()
}

/// Every byte at every place of eight, among zeros; four and eight times 0xff.
fn short_edges() -> Vec<u64> {
    let places = (0..8).flat_map(|place| (0..256).map(move |byte| byte << (8 * place)));
    let others = [u64::MAX, u64::MAX << 32, u64::MAX >> 32];
    places.chain(others).collect()
}

fn shorts(count: usize, random: &mut Random) -> Vec<Vec<u64>> {
    let edges = short_edges().into_iter().map(|bytes| vec![bytes]);
    edges_then_draws(edges.collect(), count, || vec![eight_bytes(random)])
}

fn elements(count: usize, random: &mut Random) -> Vec<Vec<u64>> {
    let edges = lines(&short_edges(), 64);
    edges_then_draws(edges, count, || many(64, || eight_bytes(random)))
}

/// Nine bytes that stand for a number near a multiple of p, as far as nine bytes reach.
fn uniform_edges() -> Vec<[u8; 9]> {
    let top = 1i128 << 72;
    let multiples = (0..=256).map(|k| k * i128::from(P));
    let near = multiples.chain([top]).flat_map(|m| (-2..=2).map(move |d| m + d));
    let nine = |n: i128| n.to_be_bytes()[7..].try_into().unwrap();
    near.filter(|n| (0..top).contains(n)).map(nine).collect()
}

fn uniforms(count: usize, random: &mut Random) -> Vec<Vec<u64>> {
    let edges = uniform_edges();
    let drawn = lines(&edges, 64).into_iter().map(|line| packed(&line.concat()));
    edges_then_draws(drawn.collect(), count, || many(72, || eight_bytes(random)))
}

/// Every byte, 32 to a payload; payloads of one byte.
fn payloads(count: usize, random: &mut Random) -> Vec<Vec<u64>> {
    let every: Vec<u8> = (0..=255).collect();
    let same = [0x00, 0x10, 0x55, 0xaa, 0xff].map(|byte| vec![byte; 32]);
    let edges = lines(&every, 32).into_iter().chain(same).map(|line| packed(&line));
    edges_then_draws(edges.collect(), count, || many(4, || eight_bytes(random)))
}

/// Values with chunks at the thresholds; every value of every chunk, where the count has room for all; any value.
fn embeddings(count: usize, random: &mut Random) -> Vec<Vec<u64>> {
    const CHUNKS: [u64; 9] = [0, 1, 16383, 16384, 16385, 49151, 49152, 49153, 65535];
    let turned = placed([1, 65535, 49152, 65534]);
    let chunks = CHUNKS.iter().flat_map(|low| CHUNKS.map(|high| placed([*low, high, *low, high])));
    let values: Vec<u64> = chunks.chain([turned, 0, P - 1]).filter(|v| *v < P).collect();
    let mut edges = lines(&values, 64);
    let every: Vec<u64> = (0..4).flat_map(|place| every_chunk(place, random)).collect();
    if edges.len() + every.len() / 64 <= count {
        edges.extend(lines(&every, 64));
    }
    edges_then_draws(edges, count, || many(64, || random.next() % P))
}

/// Each value of one chunk, among other chunks as they are drawn.
fn every_chunk(place: usize, random: &mut Random) -> Vec<u64> {
    let with = |chunk: u64| {
        let mut chunks = [0; 4].map(|_| random.next() % 65536);
        chunks[place] = chunk;
        // canonical, as p begins with 32 ones
        let other = if place == 3 { 2 } else { 3 };
        chunks[other] %= 65535;
        placed(chunks)
    };
    (0..65536).map(with).collect()
}

fn placed(chunks: [u64; 4]) -> u64 {
    chunks.iter().rev().fold(0, |value, chunk| value << 16 | chunk)
}

/// Half of the draws are spread evenly, a quarter has bytes 0x00 and 0xff only, a quarter few bits.
fn eight_bytes(random: &mut Random) -> u64 {
    match random.below(4) {
        0 => u64::from_be_bytes([0; 8].map(|_| if random.below(2) == 0 { 0 } else { 255 })),
        1 => random.next() & random.next() & random.next(),
        _ => random.next(),
    }
}

fn many(count: usize, mut draw: impl FnMut() -> u64) -> Vec<u64> {
    (0..count).map(|_| draw()).collect()
}

/// So many to a line; the last line is filled up from the first.
fn lines<T: Copy>(all: &[T], width: usize) -> Vec<Vec<T>> {
    let filled = all.len().div_ceil(width) * width;
    let all: Vec<T> = all.iter().cycle().take(filled).copied().collect();
    all.chunks(width).map(|line| line.to_vec()).collect()
}

/// All edges, even beyond the count; then draws up to the count.
fn edges_then_draws(
    edges: Vec<Vec<u64>>,
    count: usize,
    mut draw: impl FnMut() -> Vec<u64>,
) -> Vec<Vec<u64>> {
    let mut questions = edges;
    while questions.len() < count {
        questions.push(draw());
    }
    questions
}

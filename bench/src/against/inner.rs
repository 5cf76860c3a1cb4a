//! What crate bench exports, but for keys and packets: inner functions, which check nothing. Numbers are kept below p here.

use crate::inputs::{COUNT, Inputs, numbers, randomness};
use crate::together::{four_transforms, two_permutations};
use crate::trees::{Row, row, work};

/// A function of one tree on arrays, inputs first.
macro_rules! inner {
    ($tree:ident, $name:expr, ($($input:ident: $from:ty),*) -> ($($buffer:ident: $to:ty),*) $($result:ty)?) => {{
        let function: unsafe extern "C" fn($(*const $from,)* $(*mut $to,)*) $(-> $result)? = $tree.find($name)?;
        move |$($input: &$from,)* $($buffer: &mut $to,)*| unsafe { function($($input,)* $($buffer,)*) }
    }};
}
pub(crate) use inner;

/// In place, so that each answer is the next input.
fn in_place<const N: usize>(what: &'static str, name: &'static str, calls: usize) -> Row {
    row(what, calls, (), move |tree| {
        let call = inner!(tree, name, () -> (array: [u64; N]));
        work(numbers::<N>(0), move |array| call(array))
    })
}

/// Longer than a public call takes.
fn long_hash() -> Row {
    row("inner: SHA3-256 of 100,000 bytes", 1, (), |tree| {
        let call: unsafe extern "C" fn(*const u8, usize, *mut u8) = tree.find("bench_sha3_256")?;
        let message: Vec<u8> = (0..3125).flat_map(randomness).collect();
        work([0; 32], move |out| unsafe {
            call(message.as_ptr(), message.len(), out.as_mut_ptr())
        })
    })
}

fn products() -> [Row; 4] {
    let ring = row("inner: ring product", 20, (), |tree| {
        let call =
            inner!(tree, "bench_multiply", (lhs: [u64; 64], rhs: [u64; 64]) -> (out: [u64; 64]));
        let (mut lhs, rhs) = (Inputs::new(numbers), numbers(COUNT));
        work([0; 64], move |out| call(lhs.next(), &rhs, out))
    });
    let column = row("inner: matrix times column", 20, (), |tree| {
        let call = inner!(tree, "bench_matrix_times_column", (lhs: [u64; 1024], rhs: [u64; 256]) -> (out: [u64; 256]));
        let (square, mut columns) = (numbers(COUNT), Inputs::new(numbers));
        work([0; 256], move |out| call(&square, columns.next(), out))
    });
    let matrix = row("inner: row times matrix", 20, (), |tree| {
        let call = inner!(tree, "bench_row_times_matrix", (lhs: [u64; 256], rhs: [u64; 1024]) -> (out: [u64; 256]));
        let (mut rows, square) = (Inputs::new(numbers), numbers(COUNT));
        work([0; 256], move |out| call(rows.next(), &square, out))
    });
    let short = row("inner: row times column", 20, (), |tree| {
        let call = inner!(tree, "bench_row_times_column", (lhs: [u64; 256], rhs: [u64; 256]) -> (out: [u64; 64]));
        let (mut rows, column) = (Inputs::new(numbers), numbers(COUNT));
        work([0; 64], move |out| call(rows.next(), &column, out))
    });
    [ring, column, matrix, short]
}

fn derivation() -> Row {
    row("inner: matrix derivation", 1, (), |tree| {
        let call = inner!(tree, "bench_derive_matrix", (seed: [u8; 32]) -> (g: [u64; 1024]));
        let mut seeds = Inputs::new(randomness);
        work([0; 1024], move |g| call(seeds.next(), g))
    })
}

pub fn rows() -> Vec<Row> {
    let mut rows = vec![
        in_place::<25>("inner: permutation", "bench_permute", 50),
        two_permutations(),
        long_hash(),
        in_place::<64>("inner: forward transform", "bench_ntt", 20),
        in_place::<64>("inner: inverse transform", "bench_intt", 20),
        four_transforms(),
    ];
    rows.extend(products());
    rows.push(derivation());
    rows
}

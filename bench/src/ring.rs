//! Both transforms, ring multiply, the matrix products and the matrix's derivation beside the published Rust.

use std::hint::black_box;

use twenty_first::math::b_field_element::BFieldElement;
use twenty_first::math::lattice::{CyclotomicRingElement, ModuleElement};
use twenty_first::math::lattice::{coset_intt_noswap_64, coset_ntt_noswap_64};

use crate::hash::rust_shake256;
use crate::inputs::{COUNT, Inputs, numbers, randomness};
use crate::timing::{compare, side};

unsafe extern "C" {
    fn bench_ntt(array: *mut u64);
    fn bench_intt(array: *mut u64);
    fn bench_multiply(lhs: *const u64, rhs: *const u64, out: *mut u64);
    fn bench_matrix_times_column(lhs: *const u64, rhs: *const u64, out: *mut u64);
    fn bench_row_times_matrix(lhs: *const u64, rhs: *const u64, out: *mut u64);
    fn bench_row_times_column(lhs: *const u64, rhs: *const u64, out: *mut u64);
    fn bench_derive_matrix(seed: *const u8, g: *mut u64);
}

// Each of these takes coefficients below p.
fn ntt(array: &mut [u64; 64]) {
    unsafe { bench_ntt(array.as_mut_ptr()) }
}

fn intt(array: &mut [u64; 64]) {
    unsafe { bench_intt(array.as_mut_ptr()) }
}

fn multiply(lhs: &[u64; 64], rhs: &[u64; 64], out: &mut [u64; 64]) {
    unsafe { bench_multiply(lhs.as_ptr(), rhs.as_ptr(), out.as_mut_ptr()) }
}

fn matrix_times_column(lhs: &[u64; 1024], rhs: &[u64; 256], out: &mut [u64; 256]) {
    unsafe { bench_matrix_times_column(lhs.as_ptr(), rhs.as_ptr(), out.as_mut_ptr()) }
}

fn row_times_matrix(lhs: &[u64; 256], rhs: &[u64; 1024], out: &mut [u64; 256]) {
    unsafe { bench_row_times_matrix(lhs.as_ptr(), rhs.as_ptr(), out.as_mut_ptr()) }
}

fn row_times_column(lhs: &[u64; 256], rhs: &[u64; 256], out: &mut [u64; 64]) {
    unsafe { bench_row_times_column(lhs.as_ptr(), rhs.as_ptr(), out.as_mut_ptr()) }
}

fn derive_matrix(seed: &[u8; 32], g: &mut [u64; 1024]) {
    unsafe { bench_derive_matrix(seed.as_ptr(), g.as_mut_ptr()) }
}

fn rust_matrix_times_column(lhs: &ModuleElement<16>, rhs: &ModuleElement<4>) -> ModuleElement<4> {
    ModuleElement::<4>::multiply_hadamard::<4, 16, 1, 4, 4, 4>(*lhs, *rhs)
}

fn rust_row_times_matrix(lhs: &ModuleElement<4>, rhs: &ModuleElement<16>) -> ModuleElement<4> {
    ModuleElement::<4>::multiply_hadamard::<1, 4, 4, 16, 4, 4>(*lhs, *rhs)
}

fn rust_row_times_column(lhs: &ModuleElement<4>, rhs: &ModuleElement<4>) -> ModuleElement<1> {
    ModuleElement::<1>::multiply_hadamard::<1, 4, 1, 4, 4, 1>(*lhs, *rhs)
}

/// The published `derive_public_matrix`, which is private: the same two calls.
fn rust_derive_matrix(seed: &[u8; 32]) -> ModuleElement<16> {
    let mut randomness = [0; 9216];
    rust_shake256(seed, &mut randomness);
    ModuleElement::<16>::sample_uniform(&randomness)
}

fn values(array: [BFieldElement; 64]) -> [u64; 64] {
    array.map(|e| e.value())
}

fn element(x: &[u64; 64]) -> CyclotomicRingElement {
    x.map(BFieldElement::new).into()
}

/// The fields are private; bincode gives and takes the coefficients in order, eight little-endian bytes each.
fn module<const N: usize>(x: &[u64]) -> ModuleElement<N> {
    bincode::deserialize(&bytes(x)).unwrap()
}

fn bytes(x: &[u64]) -> Vec<u8> {
    x.iter().flat_map(|number| number.to_le_bytes()).collect()
}

fn same<const N: usize>(ours: &[u64], theirs: ModuleElement<N>) {
    assert_eq!(bytes(ours), bincode::serialize(&theirs).unwrap());
}

/// Every answer that is timed below, once beside the Rust's.
fn compare_answers(seed: u64) {
    let (mut x, b): ([u64; 64], [u64; 64]) = (numbers(seed), numbers(COUNT));
    let (v, w): ([u64; 256], [u64; 256]) = (numbers(seed), numbers(COUNT + 1));
    let mut square = numbers(COUNT + 2);
    let rust_square = module(&square);
    let (mut one, mut four) = ([0; 64], [0; 256]);
    multiply(&x, &b, &mut one);
    assert_eq!(one, values((element(&x) * element(&b)).into()));
    matrix_times_column(&square, &v, &mut four);
    same(&four, rust_matrix_times_column(&rust_square, &module(&v)));
    row_times_matrix(&v, &square, &mut four);
    same(&four, rust_row_times_matrix(&module(&v), &rust_square));
    row_times_column(&v, &w, &mut one);
    same(&one, rust_row_times_column(&module(&v), &module(&w)));
    derive_matrix(&randomness(seed), &mut square);
    same(&square, rust_derive_matrix(&randomness(seed)));
    let mut rust_x = x.map(BFieldElement::new);
    ntt(&mut x);
    coset_ntt_noswap_64(&mut rust_x);
    assert_eq!(x, values(rust_x));
    intt(&mut x);
    coset_intt_noswap_64(&mut rust_x);
    assert_eq!((x, x), (values(rust_x), numbers(seed)));
}

fn compare_transforms() {
    let (mut a, mut b) = (numbers(0), numbers(0).map(BFieldElement::new));
    let ours = side(20, || ntt(black_box(&mut a)));
    let theirs = side(20, || coset_ntt_noswap_64(black_box(&mut b)));
    compare("forward transform", "Rust", [ours, theirs]);
    let ours = side(20, || intt(black_box(&mut a)));
    let theirs = side(20, || coset_intt_noswap_64(black_box(&mut b)));
    compare("inverse transform", "Rust", [ours, theirs]);
}

fn compare_multiply() {
    let b = numbers(COUNT);
    let (rust_b, mut out) = (element(&b), [0; 64]);
    let (mut ours, mut theirs) = (
        Inputs::new(numbers),
        Inputs::new(|seed| element(&numbers(seed))),
    );
    let ours = side(20, || {
        multiply(ours.next(), black_box(&b), black_box(&mut out))
    });
    let theirs = side(20, || *theirs.next() * *black_box(&rust_b));
    compare("ring multiply", "Rust", [ours, theirs]);
}

fn compare_matrices() {
    let (square, w) = (numbers(COUNT + 2), numbers(COUNT + 1));
    let (rust_square, rust_w) = (module(&square), module(&w));
    let (mut one, mut four) = ([0; 64], [0; 256]);
    let mut a = Inputs::new(numbers);
    let mut b = Inputs::new(|seed| module(&numbers::<256>(seed)));
    let ours = side(20, || {
        matrix_times_column(black_box(&square), a.next(), black_box(&mut four))
    });
    let theirs = side(20, || {
        rust_matrix_times_column(black_box(&rust_square), b.next())
    });
    compare("matrix times column", "Rust", [ours, theirs]);
    let ours = side(20, || {
        row_times_matrix(a.next(), black_box(&square), black_box(&mut four))
    });
    let theirs = side(20, || {
        rust_row_times_matrix(b.next(), black_box(&rust_square))
    });
    compare("row times matrix", "Rust", [ours, theirs]);
    let ours = side(20, || {
        row_times_column(a.next(), black_box(&w), black_box(&mut one))
    });
    let theirs = side(20, || rust_row_times_column(b.next(), black_box(&rust_w)));
    compare("row times column", "Rust", [ours, theirs]);
}

fn compare_derivation() {
    let (mut seeds, mut rust_seeds) = (Inputs::new(randomness), Inputs::new(randomness));
    let mut g = [0; 1024];
    let ours = side(1, || derive_matrix(seeds.next(), black_box(&mut g)));
    let theirs = side(1, || rust_derive_matrix(rust_seeds.next()));
    compare("matrix derivation", "Rust", [ours, theirs]);
}

pub fn run() {
    (0..COUNT).for_each(compare_answers);
    compare_transforms();
    compare_multiply();
    compare_matrices();
    compare_derivation();
}

//! The public calls of include/galmuriec.h that do work, but for keys and packets: fields, rings, lanes and hashes.

use crate::inputs::{COUNT, Inputs, numbers, randomness};
use crate::trees::{Row, row, work};

/// What a call returns, and what it writes as its refusal.
pub type Answer = (u64, [u64; 3]);
pub const DONE: Answer = (0, [0; 3]);

/// A call of one tree as a function of slices, inputs first; in C a slice is a pointer and a count.
macro_rules! call {
    ($tree:ident, $name:expr, ($($input:ident: $from:ty),*) -> ($($buffer:ident: $to:ty),*)) => {{
        let function: unsafe extern "C" fn(
            $(*const $from, usize,)* $(*mut $to, usize,)* *mut u64,
        ) -> u64 = $tree.find($name)?;
        move |$($input: &[$from],)* $($buffer: &mut [$to],)*| {
            let mut refusal = [0; 3];
            let number = unsafe {
                function(
                    $($input.as_ptr(), $input.len(),)*
                    $($buffer.as_mut_ptr(), $buffer.len(),)*
                    refusal.as_mut_ptr(),
                )
            };
            (number, refusal)
        }
    }};
}
pub(crate) use call;

fn bytes<const N: usize>(seed: u64) -> [u8; N] {
    let numbers: [u64; 72] = numbers(seed);
    std::array::from_fn(|i| numbers[i / 8].to_le_bytes()[i % 8])
}

/// 64 calls in one, since each is too short to be timed alone.
fn field(what: &'static str, name: &'static str) -> Row {
    row(what, 20, DONE, move |tree| {
        let call: unsafe extern "C" fn(u64, u64, *mut u64, *mut u64) -> u64 = tree.find(name)?;
        let (a, mut b) = (numbers::<64>(COUNT), Inputs::new(numbers::<64>));
        work([0; 64], move |out| {
            let (mut number, mut refusal) = DONE;
            for ((a, b), out) in a.iter().zip(b.next()).zip(out) {
                number |= unsafe { call(*a, *b, out, refusal.as_mut_ptr()) };
            }
            (number, refusal)
        })
    })
}

fn inverse() -> Row {
    row("field: 64 inverses", 1, DONE, |tree| {
        let call: unsafe extern "C" fn(u64, *mut u64, *mut u64) -> u64 =
            tree.find("galmuriec_field_inverse")?;
        let mut a = Inputs::new(numbers::<64>);
        work([0; 64], move |out| {
            let (mut number, mut refusal) = DONE;
            for (a, out) in a.next().iter().zip(out) {
                number |= unsafe { call(*a, out, refusal.as_mut_ptr()) };
            }
            (number, refusal)
        })
    })
}

/// In place, so that each answer is the next input.
fn transform(what: &'static str, name: &'static str) -> Row {
    row(what, 20, DONE, move |tree| {
        let call = call!(tree, name, () -> (array: u64));
        work(numbers::<64>(0), move |array| call(array))
    })
}

fn ring(what: &'static str, name: &'static str) -> Row {
    row(what, 20, DONE, move |tree| {
        let call = call!(tree, name, (lhs: u64, rhs: u64) -> (out: u64));
        let (mut lhs, rhs) = (Inputs::new(numbers::<64>), numbers::<64>(COUNT));
        work([0; 64], move |out| call(lhs.next(), &rhs, out))
    })
}

fn matrices() -> [Row; 3] {
    let column = row("matrix times column", 20, DONE, |tree| {
        let call = call!(tree, "galmuriec_matrix_times_column", (lhs: u64, rhs: u64) -> (out: u64));
        let (square, mut columns) = (numbers::<1024>(COUNT), Inputs::new(numbers::<256>));
        work([0; 256], move |out| call(&square, columns.next(), out))
    });
    let matrix = row("row times matrix", 20, DONE, |tree| {
        let call = call!(tree, "galmuriec_row_times_matrix", (lhs: u64, rhs: u64) -> (out: u64));
        let (mut rows, square) = (Inputs::new(numbers::<256>), numbers::<1024>(COUNT));
        work([0; 256], move |out| call(rows.next(), &square, out))
    });
    let short = row("row times column", 20, DONE, |tree| {
        let call = call!(tree, "galmuriec_row_times_column", (lhs: u64, rhs: u64) -> (out: u64));
        let (mut rows, column) = (Inputs::new(numbers::<256>), numbers::<256>(COUNT));
        work([0; 64], move |out| call(rows.next(), &column, out))
    });
    [column, matrix, short]
}

/// From so many bytes or numbers to so many.
fn mapped<A: 'static, B: Copy + Default + PartialEq + 'static, const N: usize, const M: usize>(
    what: &'static str,
    name: &'static str,
    calls: usize,
    input: fn(u64) -> [A; N],
) -> Row {
    row(what, calls, DONE, move |tree| {
        let call = call!(tree, name, (input: A) -> (out: B));
        let mut inputs = Inputs::new(input);
        work([B::default(); M], move |out| call(inputs.next(), out))
    })
}

fn short_number() -> Row {
    row("sampler: a short number", 50, DONE, |tree| {
        let call: unsafe extern "C" fn(*const u8, usize, *mut u64, *mut u64) -> u64 =
            tree.find("galmuriec_sample_short_bfield_element")?;
        let mut drawn = Inputs::new(bytes::<8>);
        work(0, move |out| {
            let (from, mut refusal) = (drawn.next(), [0; 3]);
            let number = unsafe { call(from.as_ptr(), from.len(), out, refusal.as_mut_ptr()) };
            (number, refusal)
        })
    })
}

pub fn rows() -> Vec<Row> {
    let mut rows = vec![
        field("field: 64 products", "galmuriec_field_mul"),
        field("field: 64 powers", "galmuriec_field_mod_pow"),
        inverse(),
        transform("forward transform", "galmuriec_coset_ntt_noswap_64"),
        transform("inverse transform", "galmuriec_coset_intt_noswap_64"),
        ring("ring sum", "galmuriec_ring_add"),
        ring("ring difference", "galmuriec_ring_sub"),
        ring("ring product", "galmuriec_ring_mul"),
    ];
    rows.extend(matrices());
    rows.extend([
        short_number(),
        mapped::<u8, u64, 512, 64>(
            "sampler: a short element",
            "galmuriec_sample_short",
            20,
            bytes,
        ),
        mapped::<u8, u64, 576, 64>(
            "sampler: a uniform element",
            "galmuriec_sample_uniform",
            20,
            bytes,
        ),
        mapped::<u8, u64, 32, 64>("embed", "galmuriec_embed_msg", 20, bytes),
        mapped::<u64, u8, 64, 32>("extract", "galmuriec_extract_msg", 20, numbers),
        mapped::<u8, u8, 32, 32>(
            "SHAKE256, 32 to 32 bytes",
            "galmuriec_shake256",
            50,
            randomness,
        ),
        mapped::<u8, u8, 32, 9216>(
            "SHAKE256, 32 to 9,216 bytes",
            "galmuriec_shake256",
            1,
            randomness,
        ),
        mapped::<u8, u8, 32, 32>("SHA3-256 of 32 bytes", "galmuriec_sha3_256", 50, randomness),
    ]);
    rows
}

//! The permutation beside C, the hashes beside Debian's crate sha3.

use sha3::digest::{Digest, ExtendableOutput, Update};

use crate::timing::{Side, compare, side};

// A Rattle slice is a pointer and a length.
unsafe extern "C" {
    fn bench_permute(a: *mut u64);
    fn bench_permute_two(s: *mut u64);
    fn bench_shake256(message: *const u8, size: usize, output: *mut u8, room: usize);
    fn bench_sha3_256(message: *const u8, size: usize, output: *mut u8);
    fn c_permute(a: *mut u64);
}

fn permute(a: &mut [u64; 25]) {
    unsafe { bench_permute(a.as_mut_ptr()) }
}

/// Lane i of state j, which is 2 or 3, stands at 2 i + j.
fn permute_two(s: &mut [u64; 52]) {
    unsafe { bench_permute_two(s.as_mut_ptr()) }
}

fn permute_in_c(a: &mut [u64; 25]) {
    unsafe { c_permute(a.as_mut_ptr()) }
}

fn shake256(message: &[u8], output: &mut [u8]) {
    let (from, to) = (message.as_ptr(), output.as_mut_ptr());
    unsafe { bench_shake256(from, message.len(), to, output.len()) }
}

fn sha3_256(message: &[u8], output: &mut [u8; 32]) {
    unsafe { bench_sha3_256(message.as_ptr(), message.len(), output.as_mut_ptr()) }
}

pub fn rust_shake256(message: &[u8], output: &mut [u8]) {
    let mut hasher = sha3::Shake256::default();
    hasher.update(message);
    hasher.finalize_xof_into(output);
}

fn rust_sha3_256(message: &[u8], output: &mut [u8; 32]) {
    output.copy_from_slice(&sha3::Sha3_256::digest(message));
}

/// So many permutations of two states in step, and then so many of one.
pub fn floor<'a>(pairs: usize, singles: usize) -> Side<'a> {
    let (mut two, mut one) = ([7; 52], [7; 25]);
    side(1, move || {
        (0..pairs).for_each(|_| permute_two(&mut two));
        (0..singles).for_each(|_| permute(&mut one));
    })
}

fn compare_answers(message: &[u8]) {
    let (mut a, mut b) = ([7; 25], [7; 25]);
    permute(&mut a);
    permute_in_c(&mut b);
    assert_eq!(a, b);
    let mut two = [7; 52];
    permute_two(&mut two);
    assert!((0..50).all(|k| two[k + 2] == a[k / 2]));
    for size in [0, 32, 135, 136, 137, message.len()] {
        let (mut a, mut b) = ([0; 9216], [0; 9216]);
        shake256(&message[..size], &mut a);
        rust_shake256(&message[..size], &mut b);
        assert_eq!(a, b);
        let (mut a, mut b) = ([0; 32], [0; 32]);
        sha3_256(&message[..size], &mut a);
        rust_sha3_256(&message[..size], &mut b);
        assert_eq!(a, b);
    }
}

fn compare_shake256(what: &str, message: &[u8], size: usize, calls: usize) {
    let (mut a, mut b) = (vec![0; size], vec![0; size]);
    let ours = side(calls, || shake256(message, &mut a));
    let theirs = side(calls, || rust_shake256(message, &mut b));
    compare(what, "Rust sha3", [ours, theirs]);
}

fn compare_sha3_256(what: &str, message: &[u8], calls: usize) {
    let (mut a, mut b) = ([0; 32], [0; 32]);
    let ours = side(calls, || sha3_256(message, &mut a));
    let theirs = side(calls, || rust_sha3_256(message, &mut b));
    compare(what, "Rust sha3", [ours, theirs]);
}

pub fn run() {
    let message: Vec<u8> = (0..100_000u32)
        .map(|i| (i.wrapping_mul(i) >> 3) as u8)
        .collect();
    compare_answers(&message);
    let (mut a, mut b) = ([7; 25], [7; 25]);
    let sides = [
        side(50, || permute(&mut a)),
        side(50, || permute_in_c(&mut b)),
    ];
    compare("permutation", "C, clang -O3", sides);
    let (mut two, mut one) = ([7; 52], [7; 25]);
    let sides = [
        side(25, || permute_two(&mut two)),
        side(50, || permute(&mut one)),
    ];
    compare("two permutations in step", "one of ours", sides);
    compare_shake256("SHAKE256, 32 to 9,216 bytes", &message[..32], 9216, 1);
    compare_shake256("SHAKE256, 32 to 32 bytes", &message[..32], 32, 50);
    compare_sha3_256("SHA3-256 of 32 bytes", &message[..32], 50);
    compare_sha3_256("SHA3-256 of 100,000 bytes", &message, 1);
}

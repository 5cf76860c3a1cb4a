//! keygen, enc and dec beside the published Rust and beside the permutation's floor.

use std::hint::black_box;

use twenty_first::math::b_field_element::BFieldElement;
use twenty_first::math::lattice::kem;

use crate::hash::floor;
use crate::inputs::{COUNT, Inputs, randomness};
use crate::timing::{Side, Times, by_turns, row, side};

unsafe extern "C" {
    fn bench_keygen(randomness: *const u8, secret: *mut u8, public: *mut u8);
    fn bench_enc(public: *const u8, randomness: *const u8, shared: *mut u8, ciphertext: *mut u64);
    fn bench_dec(secret: *const u8, ciphertext: *const u64, shared: *mut u8) -> bool;
}

fn keygen(randomness: &[u8; 32]) -> ([u8; 64], [u8; 2080]) {
    let (mut secret, mut public) = ([0; 64], [0; 2080]);
    unsafe {
        bench_keygen(
            randomness.as_ptr(),
            secret.as_mut_ptr(),
            public.as_mut_ptr(),
        )
    };
    (secret, public)
}

/// Of a public key that `keygen` made, so that its coefficients are below p.
fn enc(public: &[u8; 2080], randomness: &[u8; 32]) -> ([u8; 32], [u64; 320]) {
    let (mut shared, mut ciphertext) = ([0; 32], [0; 320]);
    let (into, packet) = (shared.as_mut_ptr(), ciphertext.as_mut_ptr());
    unsafe { bench_enc(public.as_ptr(), randomness.as_ptr(), into, packet) };
    (shared, ciphertext)
}

/// Of coefficients below p.
fn dec(secret: &[u8; 64], ciphertext: &[u64; 320]) -> Option<[u8; 32]> {
    let mut shared = [0; 32];
    let opened = unsafe { bench_dec(secret.as_ptr(), ciphertext.as_ptr(), shared.as_mut_ptr()) };
    opened.then_some(shared)
}

fn values(packet: kem::Ciphertext) -> [u64; 320] {
    <[BFieldElement; 320]>::from(packet).map(|e| e.value())
}

fn rust_packet(ciphertext: [u64; 320]) -> kem::Ciphertext {
    ciphertext.map(BFieldElement::new).into()
}

fn damaged(mut ciphertext: [u64; 320]) -> [u64; 320] {
    ciphertext[0] = if ciphertext[0] == 0 { 1 } else { 0 };
    ciphertext
}

/// Every answer that is timed below, once beside the Rust's.
fn compare_answers(seed: u64) {
    let drawn = randomness(seed);
    let (secret, public) = keygen(&drawn);
    let (shared, ciphertext) = enc(&public, &drawn);
    let (rust_secret, rust_public) = kem::keygen(drawn);
    let (rust_shared, rust_ciphertext) = kem::enc(rust_public, drawn);
    assert_eq!(secret[..], bincode::serialize(&rust_secret).unwrap());
    assert_eq!(public[..], bincode::serialize(&rust_public).unwrap());
    assert_eq!((shared, ciphertext), (rust_shared, values(rust_ciphertext)));
    assert_eq!(dec(&secret, &ciphertext), Some(shared));
    assert_eq!(kem::dec(rust_secret, rust_ciphertext), Some(shared));
    let refused = damaged(ciphertext);
    assert_eq!(dec(&secret, &refused), None);
    assert_eq!(kem::dec(rust_secret, rust_packet(refused)), None);
}

/// What is asked of a call: so much of the Rust, and of the floor of so many permutations of two states in step and of one.
struct Call {
    name: &'static str,
    pairs: usize,
    singles: usize,
    of_rust: f64,
    of_floor: f64,
}

/// G takes 68 permutations and two vectors 31, which go in step with it; of the rest keygen's two small hashes go in step.
const KEYGEN: Call = Call {
    name: "keygen",
    pairs: 32,
    singles: 37,
    of_rust: 0.65,
    of_floor: 1.25,
};
const ENC: Call = Call {
    name: "enc",
    pairs: 31,
    singles: 39,
    of_rust: 0.65,
    of_floor: 1.25,
};
const DEC: Call = Call {
    name: "dec, opened",
    pairs: 62,
    singles: 7,
    of_rust: 0.4,
    of_floor: 1.4,
};
const DEC_REFUSED: Call = Call {
    name: "dec, refused",
    singles: 6,
    ..DEC
};

/// A target as a row, of what was measured.
fn target(call: &str, of: &str, asked: f64, ours: Times, theirs: Times) -> String {
    let (least, median) = (ours.least / theirs.least, ours.median / theirs.median);
    let met = |ratio: f64| if ratio <= asked { "met" } else { "missed" };
    let (a, b) = (met(least), met(median));
    format!("| {call} | {of} | {asked} | {least:.3}, {a} | {median:.3}, {b} |")
}

impl Call {
    /// Ours, the Rust's and the floor's by turns; two rows, and the two targets.
    fn compare(&self, ours: Side, theirs: Side, targets: &mut Vec<String>) {
        let floor = floor(self.pairs, self.singles);
        let [ours, theirs, least] = by_turns([ours, theirs, floor]);
        row(self.name, "Rust", ours, theirs);
        let permutations = format!("{} pairs, {} singles", self.pairs, self.singles);
        row(self.name, &permutations, ours, least);
        targets.push(target(self.name, "Rust", self.of_rust, ours, theirs));
        targets.push(target(self.name, "floor", self.of_floor, ours, least));
    }
}

/// Prints the rows and gives the targets' rows.
pub fn run() -> Vec<String> {
    (0..COUNT).for_each(compare_answers);
    let (secret, public) = keygen(&randomness(COUNT));
    let (rust_secret, rust_public) = kem::keygen(randomness(COUNT));
    let (mut drawn, mut rust_drawn) = (Inputs::new(randomness), Inputs::new(randomness));
    let packet = |seed| enc(&public, &randomness(seed)).1;
    let (mut packets, mut rust_packets) = (
        Inputs::new(packet),
        Inputs::new(|seed| rust_packet(packet(seed))),
    );
    let refused = |seed| damaged(packet(seed));
    let (mut others, mut rust_others) = (
        Inputs::new(refused),
        Inputs::new(|seed| rust_packet(refused(seed))),
    );
    let mut targets = Vec::new();

    let ours = side(1, || keygen(drawn.next()));
    let theirs = side(1, || kem::keygen(*rust_drawn.next()));
    KEYGEN.compare(ours, theirs, &mut targets);
    let ours = side(1, || enc(black_box(&public), drawn.next()));
    let theirs = side(1, || kem::enc(black_box(rust_public), *rust_drawn.next()));
    ENC.compare(ours, theirs, &mut targets);
    let ours = side(1, || dec(black_box(&secret), packets.next()));
    let theirs = side(1, || kem::dec(black_box(rust_secret), *rust_packets.next()));
    DEC.compare(ours, theirs, &mut targets);
    let ours = side(1, || dec(black_box(&secret), others.next()));
    let theirs = side(1, || kem::dec(black_box(rust_secret), *rust_others.next()));
    DEC_REFUSED.compare(ours, theirs, &mut targets);
    targets
}

/// So many calls of one kind, for bench/profile, which divides by as many.
const PROFILED: u64 = 100;

pub fn profiled(name: &str) {
    let (secret, public) = match name {
        "keygen" => ([0; 64], [0; 2080]),
        _ => keygen(&randomness(COUNT)),
    };
    for drawn in (0..PROFILED).map(randomness) {
        match name {
            "keygen" => drop(black_box(keygen(&drawn))),
            "enc" => drop(black_box(enc(&public, &drawn))),
            "dec" => drop(black_box(dec(&secret, &enc(&public, &drawn).1))),
            _ => panic!("keygen, enc or dec"),
        }
    }
}

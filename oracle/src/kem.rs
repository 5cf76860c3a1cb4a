//! Key sealing: what module `kem` of `lattice.rs` answers. Keys are bytes, eight to a number, the first byte the highest, but for the
//! coefficients of a public key and of a packet, which are numbers below p.

use twenty_first::math::b_field_element::BFieldElement;
use twenty_first::math::lattice::coset_ntt_noswap_64;
use twenty_first::math::lattice::kem::{Ciphertext, PublicKey, SecretKey, dec, enc, keygen};

use crate::operation::Operation;
use crate::random::Random;

/// Everything that is compared: word, number of operands, number of results, generator, the published Rust.
#[rustfmt::skip]
pub const OPERATIONS: &[Operation] = &[
    row("kgen",   4, 268, randomness, |x| pair_numbers(keygen(bytes(x)))),
    row("encr", 264, 324, sealings,   |x| packet_numbers(enc(public(&x[..260]), bytes(&x[260..])))),
    row("decr", 328,   4, openings,   |x| packed(&dec(secret(&x[..8]), packet(&x[8..])).expect("refused"))),
];

const fn row(
    word: &'static str,
    operands: usize,
    results: usize,
    generator: fn(usize, &mut Random) -> Vec<Vec<u64>>,
    by_rust: fn(&[u64]) -> Vec<u64>,
) -> Operation {
    Operation {
        word,
        operands,
        results,
        generator,
        by_rust,
    }
}

const P: u64 = BFieldElement::P;

fn bytes<const N: usize>(numbers: &[u64]) -> [u8; N] {
    let bytes: Vec<u8> = numbers.iter().flat_map(|n| n.to_be_bytes()).collect();
    bytes.try_into().unwrap()
}

fn packed(bytes: &[u8]) -> Vec<u64> {
    let eight = |chunk: &[u8]| u64::from_be_bytes(chunk.try_into().unwrap());
    bytes.chunks(8).map(eight).collect()
}

/// The fields are private; serde with bincode gives a seed as its bytes and a coefficient as eight, the lowest first.
fn secret(numbers: &[u64]) -> SecretKey {
    bincode::deserialize(&bytes::<64>(numbers)).unwrap()
}

fn public(numbers: &[u64]) -> PublicKey {
    let seed = numbers[..4].iter().flat_map(|n| n.to_be_bytes());
    let coefficients = numbers[4..].iter().flat_map(|n| n.to_le_bytes());
    let bytes: Vec<u8> = seed.chain(coefficients).collect();
    bincode::deserialize(&bytes).unwrap()
}

fn packet(coefficients: &[u64]) -> Ciphertext {
    let elements: [BFieldElement; 320] =
        std::array::from_fn(|i| BFieldElement::new(coefficients[i]));
    elements.into()
}

fn secret_numbers(secret: &SecretKey) -> Vec<u64> {
    packed(&bincode::serialize(secret).unwrap())
}

fn public_numbers(public: &PublicKey) -> Vec<u64> {
    let bytes = bincode::serialize(public).unwrap();
    let lowest_first = |chunk: &[u8]| u64::from_le_bytes(chunk.try_into().unwrap());
    let mut numbers = packed(&bytes[..32]);
    numbers.extend(bytes[32..].chunks(8).map(lowest_first));
    numbers
}

fn coefficients(packet: Ciphertext) -> Vec<u64> {
    let elements: [BFieldElement; 320] = packet.into();
    elements.iter().map(BFieldElement::value).collect()
}

fn pair_numbers((secret, public): (SecretKey, PublicKey)) -> Vec<u64> {
    [secret_numbers(&secret), public_numbers(&public)].concat()
}

fn packet_numbers((shared, packet): ([u8; 32], Ciphertext)) -> Vec<u64> {
    [packed(&shared), coefficients(packet)].concat()
}

fn four(random: &mut Random) -> Vec<u64> {
    (0..4).map(|_| random.next()).collect()
}

/// All bits zero, all one, one bit in each number; then draws.
fn randomness(count: usize, random: &mut Random) -> Vec<Vec<u64>> {
    let edges = [
        vec![0; 4],
        vec![u64::MAX; 4],
        vec![1, 0, 0, 0],
        vec![0, 0, 0, 1 << 63],
    ];
    let draws = (edges.len()..count).map(|_| four(random));
    edges.iter().cloned().chain(draws).collect()
}

/// Public keys that were made, and any other: zeros, p - 1, coefficients spread evenly.
fn sealings(count: usize, random: &mut Random) -> Vec<Vec<u64>> {
    let sealing = |i: usize| {
        let mut key = public_numbers(&keygen(bytes(&four(random))).1);
        match i % 8 {
            1 => key[4..].fill(0),
            2 => key[4..].fill(P - 1),
            3 => key[4..].fill_with(|| random.next() % P),
            4 => key[..4].fill(0),
            _ => {}
        }
        let randomness = match i % 8 {
            5 => vec![0; 4],
            6 => vec![u64::MAX; 4],
            _ => four(random),
        };
        [key, randomness].concat()
    };
    (0..count.max(8)).map(sealing).collect()
}

/// A key and a packet for it.
struct Delivery<'a> {
    public: PublicKey,
    key: Vec<u64>,
    packet: Vec<u64>,
    random: &'a mut Random,
}

/// Ways to leave a packet alone or to damage it, by turns. All coefficients stay below p.
const WAYS: &[fn(&mut Delivery)] = &[
    |_| {},
    |d| d.flip(0, 320),
    |d| d.flip(256, 320),
    |d| d.add(0, 320, 1),
    |d| d.add(0, 256, P - 1),
    |d| d.add(256, 320, P - 1),
    |d| {
        let place = d.random.below(320);
        d.packet[place] = d.random.next() % P;
    },
    |d| {
        let place = d.random.below(320);
        d.packet[place] = 0;
    },
    |d| d.shift_message(),
    |d| d.shift_mask(),
    |d| d.swap_elements(),
    |d| d.packet.rotate_left(64),
    |d| d.packet.reverse(),
    |d| d.swap_neighbours(),
    |d| {
        // bg of this packet, bga_m of another for the same key
        let other = d.another_packet();
        d.packet[256..].copy_from_slice(&other[256..]);
    },
    |d| {
        // bga_m of this packet, bg of another for the same key
        let other = d.another_packet();
        d.packet[..256].copy_from_slice(&other[..256]);
    },
    |d| d.key = secret_numbers(&keygen(bytes(&four(d.random))).0),
    |d| d.key[..4].clone_from_slice(&four(d.random)),
    |d| d.key[4..].clone_from_slice(&four(d.random)),
    |d| d.key.rotate_left(4),
    |d| {
        let place = d.random.below(8);
        d.key[place] ^= 1 << d.random.below(64);
    },
    |d| d.packet.fill(0),
    |d| d.packet.fill(P - 1),
    |d| d.packet[..256].fill(0),
    |d| d.packet[256..].fill(0),
    |d| d.packet[256..].fill(P - 1),
    |d| d.packet.iter_mut().for_each(|x| *x = (P - *x) % P),
    |d| (0..320).for_each(|i| d.packet[i] = d.random.next() % P),
    |d| {
        d.key.fill(0);
        d.packet.fill(0);
    },
];

impl Delivery<'_> {
    /// One bit anywhere between two places; another if the coefficient would reach p.
    fn flip(&mut self, from: usize, to: usize) {
        loop {
            let place = from + self.random.below(to - from);
            let flipped = self.packet[place] ^ 1 << self.random.below(64);
            if flipped < P {
                self.packet[place] = flipped;
                return;
            }
        }
    }

    fn add(&mut self, from: usize, to: usize, n: u64) {
        let place = from + self.random.below(to - from);
        self.packet[place] = sum(self.packet[place], n);
    }

    /// Eight coefficients of bga_m, so that the payload still extracts.
    fn shift_message(&mut self) {
        let shift = small(8, self.random);
        add_to(&mut self.packet[256..], &shift);
    }

    /// Sixteen coefficients of bg, so that the payload still extracts.
    fn shift_mask(&mut self) {
        let shift = small(16, self.random);
        let start = 64 * self.random.below(4);
        add_to(&mut self.packet[start..start + 64], &shift);
    }

    fn swap_elements(&mut self) {
        let one = self.random.below(5);
        let other = (one + 1 + self.random.below(4)) % 5;
        (0..64).for_each(|i| self.packet.swap(64 * one + i, 64 * other + i));
    }

    fn swap_neighbours(&mut self) {
        let place = self.random.below(319);
        self.packet.swap(place, place + 1);
    }

    fn another_packet(&mut self) -> Vec<u64> {
        coefficients(enc(self.public, bytes(&four(self.random))).1)
    }
}

fn sum(a: u64, b: u64) -> u64 {
    (BFieldElement::new(a) + BFieldElement::new(b)).value()
}

fn add_to(coefficients: &mut [u64], shift: &[u64]) {
    coefficients
        .iter_mut()
        .zip(shift)
        .for_each(|(x, y)| *x = sum(*x, *y));
}

/// A ring element that is zero at all but `width` of the 64 places after the transform, and whose coefficients before it are small in
/// every chunk: the product of all X^width - w but one, over the roots w of X^(64 / width) + 1, which are powers of two.
fn small(width: usize, random: &mut Random) -> Vec<u64> {
    let parts = 64 / width;
    // 2^96 is -1 modulo p
    let odd = 2 * random.below(parts) + 1;
    let root = BFieldElement::new(2).mod_pow((96 / parts * odd) as u64);
    let sign = if random.below(2) == 0 { 1 } else { P - 1 };
    let mut element = [BFieldElement::new(0); 64];
    (0..parts).for_each(|i| {
        element[i * width] = BFieldElement::new(sign) * root.mod_pow((parts - 1 - i) as u64)
    });
    coset_ntt_noswap_64(&mut element);
    element.iter().map(BFieldElement::value).collect()
}

fn openings(count: usize, random: &mut Random) -> Vec<Vec<u64>> {
    let ways = WAYS.iter().cycle().take(count.max(WAYS.len()));
    ways.map(|way| opening(*way, random)).collect()
}

/// Packets as they were sealed, so many.
pub fn honest_openings(count: usize, random: &mut Random) -> Vec<Vec<u64>> {
    (0..count).map(|_| opening(|_| {}, random)).collect()
}

fn opening(way: fn(&mut Delivery), random: &mut Random) -> Vec<u64> {
    let (secret, public) = keygen(bytes(&four(random)));
    let (_, packet) = enc(public, bytes(&four(random)));
    let mut delivery = Delivery {
        public,
        key: secret_numbers(&secret),
        packet: coefficients(packet),
        random,
    };
    way(&mut delivery);
    [delivery.key, delivery.packet].concat()
}

#[cfg(test)]
mod tests {
    use sha3::Shake256;
    use sha3::digest::{ExtendableOutput, Update};
    use twenty_first::math::lattice::{ModuleElement, extract_msg};

    use super::*;

    fn module<const N: usize>(coefficients: &[u64]) -> ModuleElement<N> {
        let bytes: Vec<u8> = coefficients.iter().flat_map(|n| n.to_le_bytes()).collect();
        bincode::deserialize(&bytes).unwrap()
    }

    /// The first half of `dec`, as published: the payload that is read before anything is compared.
    fn payload(key: &[u64], packet: &[u64]) -> [u8; 32] {
        let mut drawn = [0; 4096];
        let mut hasher = Shake256::default();
        hasher.update(&bytes::<32>(&key[..4]));
        hasher.finalize_xof_into(&mut drawn);
        let a = ModuleElement::<4>::sample_short(&drawn[..2048]).ntt();
        let bg = module::<4>(&packet[..256]);
        let bga = ModuleElement::<3>::multiply_hadamard::<1, 4, 1, 4, 4, 1>(bg, a);
        let message = (module::<1>(&packet[256..]) - bga).intt();
        let message = bincode::deserialize(&bincode::serialize(&message).unwrap()).unwrap();
        extract_msg(message)
    }

    /// A shift changes so many coefficients, the right payload is still read, and the packet stays closed.
    fn shifted(shift: fn(&mut Delivery), width: usize) {
        let mut random = Random::new(1, "test");
        for _ in 0..50 {
            let (secret, public) = keygen(bytes(&four(&mut random)));
            let (_, sealed) = enc(public, bytes(&four(&mut random)));
            let sealed = coefficients(sealed);
            let key = secret_numbers(&secret);
            let mut delivery = Delivery {
                public,
                key: key.clone(),
                packet: sealed.clone(),
                random: &mut random,
            };
            shift(&mut delivery);
            let changed = delivery.packet;
            let places = sealed.iter().zip(&changed).filter(|(a, b)| a != b);
            assert_eq!(places.count(), width);
            assert_eq!(payload(&key, &changed), payload(&key, &sealed));
            assert!(dec(secret, packet(&sealed)).is_some());
            assert!(dec(secret, packet(&changed)).is_none());
        }
    }

    #[test]
    fn shifted_messages_still_extract() {
        shifted(|d| d.shift_message(), 8);
    }

    #[test]
    fn shifted_masks_still_extract() {
        shifted(|d| d.shift_mask(), 16);
    }
}

//! Key sealing by the published Rust, its keys and packets as bytes through serde and bincode.

use twenty_first::math::lattice::kem::{Ciphertext, PublicKey, SecretKey, dec, enc, keygen};

fn bytes<T: serde::Serialize>(thing: &T) -> Vec<u8> {
    bincode::serialize(thing).unwrap()
}

fn thing<T: serde::de::DeserializeOwned>(bytes: &[u8]) -> T {
    bincode::deserialize(bytes).unwrap()
}

#[test]
fn sizes_and_order() {
    let (secret, public) = keygen([1; 32]);
    let (_, packet) = enc(public, [2; 32]);
    assert_eq!(bytes(&secret).len(), 64);
    assert_eq!(bytes(&public).len(), 2080);
    assert_eq!(bytes(&packet).len(), 2560);
    // The seed comes last in the secret key and first in the public key.
    assert_eq!(bytes(&secret)[32..], bytes(&public)[..32]);
}

/// The expected values were made by Python's hashlib.
#[test]
fn hashes_are_those_of_fips_202() {
    let (secret, public) = keygen([1; 32]);
    let (shared, _) = enc(public, [2; 32]);
    let hex = |bytes: &[u8]| bytes.iter().map(|b| format!("{b:02x}")).collect::<String>();
    let key = "3c071b522a3c064cdb24b094123249b345afd15ee1ec09841c65c6134825ee77";
    let seed = "e6013726db685c2bed0193d83d17a9344611bfc453e88a798b23a47aec32302d";
    let sealed = "12a0ee8242098ebb7f2c790ef40a70fdff944832270af6e4e4edc72a882440d7";
    assert_eq!(hex(&bytes(&secret)), format!("{key}{seed}"));
    assert_eq!(hex(&shared), sealed);
}

#[test]
fn round_trip_through_bytes() {
    for i in 0..20 {
        let (secret, public) = keygen([i; 32]);
        let public: PublicKey = thing(&bytes(&public));
        let (shared, packet) = enc(public, [i + 100; 32]);
        let secret: SecretKey = thing(&bytes(&secret));
        let packet: Ciphertext = thing(&bytes(&packet));
        assert_eq!(dec(secret, packet), Some(shared));
    }
}

#[test]
fn damaged_packets_stay_closed() {
    let (secret, public) = keygen([3; 32]);
    let (_, packet) = enc(public, [4; 32]);
    for place in [0, 2047, 2048, 2559] {
        let mut damaged = bytes(&packet);
        damaged[place] ^= 1;
        assert_eq!(dec(secret, thing(&damaged)), None);
    }
}

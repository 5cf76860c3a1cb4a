//! Keys and packets: the public calls, the jobs in bytes, and what crate bench exports of them.

use crate::calls::{Answer, DONE, call};
use crate::inner::inner;
use crate::inputs::{COUNT, Inputs, randomness};
use crate::trees::{NOW, Row, row, work};

const DIFFERS: Answer = (3, [3, 0, 0]);

struct Keys {
    secret: [u8; 64],
    public: [u8; 2080],
}

/// One key pair, of the present tree for both.
fn keys() -> Option<Keys> {
    let keygen = call!(NOW, "galmuriec_keygen", (randomness: u8) -> (secret: u8, public: u8));
    let (mut secret, mut public) = ([0; 64], [0; 2080]);
    keygen(&randomness(COUNT), &mut secret, &mut public);
    Some(Keys { secret, public })
}

/// The packets that the present tree seals for these keys, each from its number.
fn packets(keys: &Keys) -> Option<impl Fn(u64) -> [u8; 2560]> {
    let enc = call!(NOW, "galmuriec_enc", (public: u8, randomness: u8) -> (shared: u8, packet: u8));
    Some(move |seed| {
        let (mut shared, mut packet) = ([0; 32], [0; 2560]);
        enc(&keys.public, &randomness(seed), &mut shared, &mut packet);
        packet
    })
}

/// Its first number is another one, below p.
fn damaged(mut packet: [u8; 2560]) -> [u8; 2560] {
    let first = if packet[..8] == [0; 8] { 1u64 } else { 0 };
    packet[..8].copy_from_slice(&first.to_le_bytes());
    packet
}

fn in_numbers(packet: [u8; 2560]) -> [u64; 320] {
    std::array::from_fn(|i| u64::from_le_bytes(packet[8 * i..8 * i + 8].try_into().unwrap()))
}

fn damaged_in_numbers(packet: [u8; 2560]) -> [u64; 320] {
    in_numbers(damaged(packet))
}

fn keygen() -> Row {
    row("keygen", 1, DONE, |tree| {
        let call = call!(tree, "galmuriec_keygen", (randomness: u8) -> (secret: u8, public: u8));
        let mut drawn = Inputs::new(randomness);
        work(([0; 64], [0; 2080]), move |(secret, public)| {
            call(drawn.next(), secret, public)
        })
    })
}

fn enc<C: Copy + Default + PartialEq + 'static, const N: usize>(
    what: &'static str,
    name: &'static str,
) -> Row {
    row(what, 1, DONE, move |tree| {
        let call = call!(tree, name, (public: u8, randomness: u8) -> (shared: u8, packet: C));
        let (Keys { public, .. }, mut drawn) = (keys()?, Inputs::new(randomness));
        work(([0; 32], [C::default(); N]), move |(shared, packet)| {
            call(&public, drawn.next(), shared, packet)
        })
    })
}

/// Of packets in bytes or in numbers, whole or damaged.
fn dec<C: 'static, const N: usize>(
    what: &'static str,
    name: &'static str,
    form: fn([u8; 2560]) -> [C; N],
    due: Answer,
) -> Row {
    row(what, 1, due, move |tree| {
        let call = call!(tree, name, (secret: u8, packet: C) -> (shared: u8));
        let keys = keys()?;
        let packet = packets(&keys)?;
        let mut packets = Inputs::new(|seed| form(packet(seed)));
        work([0; 32], move |shared| {
            call(&keys.secret, packets.next(), shared)
        })
    })
}

/// A job: its byte and what follows it.
type Job = fn(&Keys, [u8; 2560], [u8; 32]) -> Vec<u8>;

fn job<const N: usize>(what: &'static str, make: Job) -> Row {
    row(what, 1, (N, 0), move |tree| {
        let call: unsafe extern "C" fn(*const u8, usize, *mut u8, usize) -> usize =
            tree.find("galmuriec_job")?;
        let keys = keys()?;
        let packet = packets(&keys)?;
        let mut jobs = Inputs::new(|seed| make(&keys, packet(seed), randomness(seed)));
        work([0; N], move |answer| {
            let (from, to) = (jobs.next(), answer.as_mut_ptr());
            let size = unsafe { call(from.as_ptr(), from.len(), to, N) };
            (size, answer[0])
        })
    })
}

fn inner_keygen() -> Row {
    row("inner: keygen", 1, (), |tree| {
        let call = inner!(tree, "bench_keygen", (drawn: [u8; 32]) -> (secret: [u8; 64], public: [u8; 2080]));
        let mut drawn = Inputs::new(randomness);
        work(([0; 64], [0; 2080]), move |(secret, public)| {
            call(drawn.next(), secret, public)
        })
    })
}

fn inner_enc() -> Row {
    row("inner: enc", 1, (), |tree| {
        let call = inner!(tree, "bench_enc", (public: [u8; 2080], drawn: [u8; 32]) -> (shared: [u8; 32], packet: [u64; 320]));
        let (Keys { public, .. }, mut drawn) = (keys()?, Inputs::new(randomness));
        work(([0; 32], [0; 320]), move |(shared, packet)| {
            call(&public, drawn.next(), shared, packet)
        })
    })
}

fn inner_dec(what: &'static str, form: fn([u8; 2560]) -> [u64; 320], opened: bool) -> Row {
    row(what, 1, opened, move |tree| {
        let call = inner!(tree, "bench_dec", (secret: [u8; 64], packet: [u64; 320]) -> (shared: [u8; 32]) bool);
        let keys = keys()?;
        let packet = packets(&keys)?;
        let mut packets = Inputs::new(|seed| form(packet(seed)));
        work([0; 32], move |shared| {
            call(&keys.secret, packets.next(), shared)
        })
    })
}

pub fn rows() -> Vec<Row> {
    let (bytes, numbers) = ("galmuriec_dec", "galmuriec_dec_numbers");
    vec![
        keygen(),
        enc::<u8, 2560>("enc, bytes", "galmuriec_enc"),
        enc::<u64, 320>("enc, numbers", "galmuriec_enc_numbers"),
        dec("dec, bytes, opened", bytes, |packet| packet, DONE),
        dec("dec, bytes, refused", bytes, damaged, DIFFERS),
        dec("dec, numbers, opened", numbers, in_numbers, DONE),
        dec(
            "dec, numbers, refused",
            numbers,
            damaged_in_numbers,
            DIFFERS,
        ),
        job::<2145>("job: keygen", |_, _, drawn| [&[1][..], &drawn].concat()),
        job::<2593>("job: enc", |keys, _, drawn| {
            [&[2][..], &keys.public, &drawn].concat()
        }),
        job::<33>("job: dec", |keys, packet, _| {
            [&[3][..], &keys.secret, &packet].concat()
        }),
        inner_keygen(),
        inner_enc(),
        inner_dec("inner: dec, opened", in_numbers, true),
        inner_dec("inner: dec, refused", damaged_in_numbers, false),
    ]
}

// Puts each question of standard input to the library and writes its answer; tests/calls/README.md describes both.
use std::fmt::Write as _;
use std::io::BufRead;

const P: u64 = 0xffff_ffff_0000_0001;

// What is behind each lent slice, and no call may touch: in elements.
const MARGIN: usize = 8;

// ---- include/galmuriec.h
#[repr(C)]
pub struct Refusal {
    number: u64,
    argument: u64,
    place: u64,
}

type Told = *mut Refusal;

#[link(name = "galmuriec_c", kind = "static")]
extern "C" {
    fn galmuriec_field_new(x: u64) -> u64;
    fn galmuriec_field_value(x: u64, result: *mut u64, refusal: Told) -> u64;
    fn galmuriec_field_add(a: u64, b: u64, result: *mut u64, refusal: Told) -> u64;
    fn galmuriec_field_sub(a: u64, b: u64, result: *mut u64, refusal: Told) -> u64;
    fn galmuriec_field_mul(a: u64, b: u64, result: *mut u64, refusal: Told) -> u64;
    fn galmuriec_field_neg(a: u64, result: *mut u64, refusal: Told) -> u64;
    fn galmuriec_field_inverse(a: u64, result: *mut u64, refusal: Told) -> u64;
    fn galmuriec_field_mod_pow(a: u64, exp: u64, result: *mut u64, refusal: Told) -> u64;
    fn galmuriec_coset_ntt_noswap_64(array: *mut u64, n: usize, refusal: Told) -> u64;
    fn galmuriec_coset_intt_noswap_64(array: *mut u64, n: usize, refusal: Told) -> u64;
    fn galmuriec_ring_add(lhs: *const u64, l: usize, rhs: *const u64, m: usize, out: *mut u64, n: usize, refusal: Told) -> u64;
    fn galmuriec_ring_sub(lhs: *const u64, l: usize, rhs: *const u64, m: usize, out: *mut u64, n: usize, refusal: Told) -> u64;
    fn galmuriec_ring_mul(lhs: *const u64, l: usize, rhs: *const u64, m: usize, out: *mut u64, n: usize, refusal: Told) -> u64;
    fn galmuriec_matrix_times_column(lhs: *const u64, l: usize, rhs: *const u64, m: usize, out: *mut u64, n: usize, refusal: Told) -> u64;
    fn galmuriec_row_times_matrix(lhs: *const u64, l: usize, rhs: *const u64, m: usize, out: *mut u64, n: usize, refusal: Told) -> u64;
    fn galmuriec_row_times_column(lhs: *const u64, l: usize, rhs: *const u64, m: usize, out: *mut u64, n: usize, refusal: Told) -> u64;
    fn galmuriec_sample_short_bfield_element(randomness: *const u8, l: usize, result: *mut u64, refusal: Told) -> u64;
    fn galmuriec_sample_short(randomness: *const u8, l: usize, out: *mut u64, n: usize, refusal: Told) -> u64;
    fn galmuriec_sample_uniform(randomness: *const u8, l: usize, out: *mut u64, n: usize, refusal: Told) -> u64;
    fn galmuriec_embed_msg(msg: *const u8, l: usize, out: *mut u64, n: usize, refusal: Told) -> u64;
    fn galmuriec_extract_msg(embedding: *const u64, l: usize, out: *mut u8, n: usize, refusal: Told) -> u64;
    fn galmuriec_shake256(message: *const u8, l: usize, output: *mut u8, n: usize, refusal: Told) -> u64;
    fn galmuriec_sha3_256(message: *const u8, l: usize, output: *mut u8, n: usize, refusal: Told) -> u64;
    fn galmuriec_keygen(randomness: *const u8, l: usize, secret: *mut u8, m: usize, public: *mut u8, n: usize, refusal: Told) -> u64;
    fn galmuriec_enc(public: *const u8, k: usize, randomness: *const u8, l: usize, shared: *mut u8, m: usize, ciphertext: *mut u8, n: usize, refusal: Told) -> u64;
    fn galmuriec_enc_numbers(public: *const u8, k: usize, randomness: *const u8, l: usize, shared: *mut u8, m: usize, ciphertext: *mut u64, n: usize, refusal: Told) -> u64;
    fn galmuriec_dec(secret: *const u8, l: usize, ciphertext: *const u8, m: usize, shared: *mut u8, n: usize, refusal: Told) -> u64;
    fn galmuriec_dec_numbers(secret: *const u8, l: usize, ciphertext: *const u64, m: usize, shared: *mut u8, n: usize, refusal: Told) -> u64;
    fn galmuriec_clear(secret: *mut u8, n: usize, refusal: Told) -> u64;
    fn galmuriec_job(input: *const u8, l: usize, output: *mut u8, n: usize) -> usize;
}

// ---- a question: a word, parts of a length and a seed, two places
#[derive(Clone, PartialEq)]
enum Lent {
    Nothing,
    Bytes(Vec<u8>),
    Numbers(Vec<u64>),
}

struct Part {
    count: usize,
    seed: u64,
    now: Lent,
    before: Lent,
}

struct Question<'a> {
    word: &'a str,
    parts: Vec<Part>,
    places: Vec<(u64, usize, u64)>,
    result: u64,
}

fn hex(digits: &str) -> u64 {
    u64::from_str_radix(digits, 16).expect("hexadecimal digits")
}

fn question(line: &str) -> Question<'_> {
    let words: Vec<&str> = line.split(' ').collect();
    let (parts, places) = words[1..].split_at(words.len() - 7);
    let part = |w: &[&str]| Part { count: hex(w[0]) as usize, seed: hex(w[1]), now: Lent::Nothing, before: Lent::Nothing };
    Question {
        word: words[0],
        parts: parts.chunks(2).map(part).collect(),
        places: places.chunks(3).map(|w| (hex(w[0]), hex(w[1]) as usize, hex(w[2]))).collect(),
        result: 0,
    }
}

// ---- what an argument holds
struct Draws(u64);

impl Draws {
    fn next(&mut self) -> u64 {
        self.0 ^= self.0 << 13;
        self.0 ^= self.0 >> 7;
        self.0 ^= self.0 << 17;
        self.0
    }

    fn bytes(&mut self, n: usize) -> Vec<u8> {
        (0..n).map(|_| self.next() as u8).collect()
    }

    fn numbers(&mut self, n: usize, below: u64) -> Vec<u64> {
        (0..n).map(|_| self.next() % below).collect()
    }
}

fn pack(numbers: &[u64]) -> Vec<u8> {
    numbers.iter().flat_map(|x| x.to_le_bytes()).collect()
}

// The key pair of 32 bytes drawn from a seed, by the library itself.
fn key_pair(seed: u64) -> (Vec<u8>, Vec<u8>) {
    let randomness = Draws(seed).bytes(32);
    let (mut secret, mut public) = (vec![0; 64], vec![0; 2080]);
    let mut refusal = Refusal { number: 0, argument: 0, place: 0 };
    let status = unsafe { galmuriec_keygen(randomness.as_ptr(), 32, secret.as_mut_ptr(), 64, public.as_mut_ptr(), 2080, &mut refusal) };
    assert_eq!(status, 0, "no key pair");
    (secret, public)
}

impl Question<'_> {
    fn draws(&self, k: usize) -> Draws {
        Draws(self.parts[k].seed)
    }

    // The places that the question sets in argument k (from 0).
    fn put(&self, k: usize, mut numbers: Vec<u64>) -> Vec<u64> {
        for &(argument, index, value) in &self.places {
            if argument == k as u64 + 1 && index < numbers.len() {
                numbers[index] = value;
            }
        }
        numbers
    }

    fn public_key(&self, k: usize) -> Vec<u8> {
        let mut draws = self.draws(k);
        let mut bytes = draws.bytes(32);
        bytes.extend(pack(&self.put(k, draws.numbers(257, P))));
        bytes
    }

    // The secret key of seed 1, and a packet sealed by the library for the key of seed 4.
    fn sealed(&self) -> (Vec<u8>, Vec<u64>) {
        let (secret, _) = key_pair(self.parts[0].seed);
        let (_, public) = key_pair(self.parts[3].seed);
        let randomness = self.draws(1).bytes(32);
        let (mut shared, mut ciphertext) = (vec![0; 32], vec![0; 320]);
        let mut refusal = Refusal { number: 0, argument: 0, place: 0 };
        let status = unsafe {
            galmuriec_enc_numbers(public.as_ptr(), 2080, randomness.as_ptr(), 32, shared.as_mut_ptr(), 32, ciphertext.as_mut_ptr(), 320, &mut refusal)
        };
        assert_eq!(status, 0, "no packet");
        (secret, self.put(1, ciphertext))
    }

    fn job_of_bytes(&self, n: usize) -> Vec<u8> {
        let mut bytes = self.draws(0).bytes(n);
        for &(argument, index, value) in &self.places {
            if argument == 1 && index < n {
                bytes[index] = value as u8;
            }
        }
        bytes
    }

    fn job_of_sealing(&self) -> Vec<u8> {
        [&[2], &self.public_key(0)[..2080], &self.draws(1).bytes(32)[..]].concat()
    }

    fn job_of_opening(&self) -> Vec<u8> {
        let (secret, ciphertext) = self.sealed();
        [&[3], &secret[..], &pack(&ciphertext)[..]].concat()
    }

    // Part k by its kind. Inputs: bytes b, coefficients c, public key k, packet in bytes p; secret key s and packet, in bytes x or numbers y, of a
    // sealed packet; jobs j, e, o. Outputs: bytes B, numbers N, coefficients turned in place C. A field value has v, a part that lends nothing '.'.
    fn content(&self, k: usize, kind: char) -> Lent {
        let n = self.parts[k].count;
        match kind {
            'b' | 'B' => Lent::Bytes(self.draws(k).bytes(n)),
            'N' => Lent::Numbers(self.draws(k).numbers(n, u64::MAX)),
            'c' | 'C' => Lent::Numbers(self.put(k, self.draws(k).numbers(n, P))),
            'k' => Lent::Bytes(self.public_key(k)),
            'p' => Lent::Bytes(pack(&self.put(k, self.draws(k).numbers(321, P)))),
            's' => Lent::Bytes(self.sealed().0),
            'x' => Lent::Bytes(pack(&self.sealed().1)),
            'y' => Lent::Numbers(self.sealed().1),
            'j' => Lent::Bytes(self.job_of_bytes(n)),
            'e' => Lent::Bytes(self.job_of_sealing()),
            'o' => Lent::Bytes(self.job_of_opening()),
            _ => Lent::Nothing,
        }
    }

    // Cut to its length, or followed by zeros, and then the margin.
    fn lend(&mut self, kinds: &str) {
        for (k, kind) in kinds.chars().enumerate() {
            let n = self.parts[k].count;
            let mut lent = self.content(k, kind);
            match &mut lent {
                Lent::Bytes(s) => {
                    s.resize(n, 0);
                    s.resize(n + MARGIN, 0xa5);
                }
                Lent::Numbers(s) => {
                    s.resize(n, 0);
                    s.resize(n + MARGIN, 0xa5a5);
                }
                Lent::Nothing => (),
            }
            self.parts[k].before = lent.clone();
            self.parts[k].now = lent;
        }
    }

    fn v(&self, k: usize) -> u64 {
        self.parts[k].seed
    }

    fn len(&self, k: usize) -> usize {
        self.parts[k].count
    }

    fn b(&mut self, k: usize) -> *mut u8 {
        match &mut self.parts[k].now {
            Lent::Bytes(s) => s.as_mut_ptr(),
            _ => panic!("no bytes"),
        }
    }

    fn n(&mut self, k: usize) -> *mut u64 {
        match &mut self.parts[k].now {
            Lent::Numbers(s) => s.as_mut_ptr(),
            _ => panic!("no numbers"),
        }
    }

    fn result(&mut self) -> *mut u64 {
        &mut self.result
    }
}

// Whether a part is what it was, from element `from` on, the margin too.
fn same(part: &Part, from: usize) -> bool {
    match (&part.now, &part.before) {
        (Lent::Bytes(a), Lent::Bytes(b)) => a[from..] == b[from..],
        (Lent::Numbers(a), Lent::Numbers(b)) => a[from..] == b[from..],
        (a, b) => a == b,
    }
}

// ---- the calls: word, kinds of the arguments ('=' in front: it gives a number), and how it is asked
type Call = (&'static str, &'static str, fn(&mut Question, Told) -> u64);

macro_rules! calls {
    ($($word:literal $kinds:literal |$q:ident, $r:tt| $call:expr;)*) => {
        const CALLS: &[Call] = &[$(($word, $kinds, |$q, $r| unsafe { $call })),*];
    };
}

calls! {
    "fnew" "=v" |q, r| { *r = Refusal { number: 0, argument: 0, place: 0 }; q.result = galmuriec_field_new(q.v(0)); 0 };
    "fval" "=v" |q, r| galmuriec_field_value(q.v(0), q.result(), r);
    "fadd" "=vv" |q, r| galmuriec_field_add(q.v(0), q.v(1), q.result(), r);
    "fsub" "=vv" |q, r| galmuriec_field_sub(q.v(0), q.v(1), q.result(), r);
    "fmul" "=vv" |q, r| galmuriec_field_mul(q.v(0), q.v(1), q.result(), r);
    "fneg" "=v" |q, r| galmuriec_field_neg(q.v(0), q.result(), r);
    "finv" "=v" |q, r| galmuriec_field_inverse(q.v(0), q.result(), r);
    "fpow" "=vv" |q, r| galmuriec_field_mod_pow(q.v(0), q.v(1), q.result(), r);
    "nttf" "C" |q, r| galmuriec_coset_ntt_noswap_64(q.n(0), q.len(0), r);
    "ntti" "C" |q, r| galmuriec_coset_intt_noswap_64(q.n(0), q.len(0), r);
    "radd" "ccN" |q, r| galmuriec_ring_add(q.n(0), q.len(0), q.n(1), q.len(1), q.n(2), q.len(2), r);
    "rsub" "ccN" |q, r| galmuriec_ring_sub(q.n(0), q.len(0), q.n(1), q.len(1), q.n(2), q.len(2), r);
    "rmul" "ccN" |q, r| galmuriec_ring_mul(q.n(0), q.len(0), q.n(1), q.len(1), q.n(2), q.len(2), r);
    "mtco" "ccN" |q, r| galmuriec_matrix_times_column(q.n(0), q.len(0), q.n(1), q.len(1), q.n(2), q.len(2), r);
    "rtma" "ccN" |q, r| galmuriec_row_times_matrix(q.n(0), q.len(0), q.n(1), q.len(1), q.n(2), q.len(2), r);
    "rtco" "ccN" |q, r| galmuriec_row_times_column(q.n(0), q.len(0), q.n(1), q.len(1), q.n(2), q.len(2), r);
    "sbfe" "=b" |q, r| galmuriec_sample_short_bfield_element(q.b(0), q.len(0), q.result(), r);
    "ssho" "bN" |q, r| galmuriec_sample_short(q.b(0), q.len(0), q.n(1), q.len(1), r);
    "suni" "bN" |q, r| galmuriec_sample_uniform(q.b(0), q.len(0), q.n(1), q.len(1), r);
    "embd" "bN" |q, r| galmuriec_embed_msg(q.b(0), q.len(0), q.n(1), q.len(1), r);
    "extr" "cB" |q, r| galmuriec_extract_msg(q.n(0), q.len(0), q.b(1), q.len(1), r);
    "shak" "bB" |q, r| galmuriec_shake256(q.b(0), q.len(0), q.b(1), q.len(1), r);
    "sha3" "bB" |q, r| galmuriec_sha3_256(q.b(0), q.len(0), q.b(1), q.len(1), r);
    "kgen" "bBB" |q, r| galmuriec_keygen(q.b(0), q.len(0), q.b(1), q.len(1), q.b(2), q.len(2), r);
    "encb" "kbBB" |q, r| galmuriec_enc(q.b(0), q.len(0), q.b(1), q.len(1), q.b(2), q.len(2), q.b(3), q.len(3), r);
    "encn" "kbBN" |q, r| galmuriec_enc_numbers(q.b(0), q.len(0), q.b(1), q.len(1), q.b(2), q.len(2), q.n(3), q.len(3), r);
    "decb" "bpB" |q, r| galmuriec_dec(q.b(0), q.len(0), q.b(1), q.len(1), q.b(2), q.len(2), r);
    "decn" "bcB" |q, r| galmuriec_dec_numbers(q.b(0), q.len(0), q.n(1), q.len(1), q.b(2), q.len(2), r);
    "opnb" "sxB" |q, r| galmuriec_dec(q.b(0), q.len(0), q.b(1), q.len(1), q.b(2), q.len(2), r);
    "opnn" "syB" |q, r| galmuriec_dec_numbers(q.b(0), q.len(0), q.n(1), q.len(1), q.b(2), q.len(2), r);
    "cler" "B" |q, r| galmuriec_clear(q.b(0), q.len(0), r);
    "jobb" "j.B" |q, _| galmuriec_job(q.b(0), q.len(0), q.b(2), q.len(2)) as u64;
    "jobe" "e.B" |q, _| galmuriec_job(q.b(0), q.len(0), q.b(2), q.len(2)) as u64;
    "jobo" "o.B" |q, _| galmuriec_job(q.b(0), q.len(0), q.b(2), q.len(2)) as u64;
}

// ---- telling an answer
fn bytes(s: &[u8]) -> String {
    s.iter().fold(" ".to_string(), |mut t, x| {
        write!(t, "{x:02x}").unwrap();
        t
    })
}

fn numbers(s: &[u64]) -> String {
    s.iter().fold(String::new(), |mut t, x| {
        write!(t, " {x:016x}").unwrap();
        t
    })
}

fn held(part: &Part) -> String {
    match &part.now {
        Lent::Bytes(s) => bytes(&s[..part.count]),
        Lent::Numbers(s) => numbers(&s[..part.count]),
        Lent::Nothing => String::new(),
    }
}

fn kept(kept: bool) -> &'static str {
    if kept { " kept" } else { " changed" }
}

fn tell_refused(q: &Question, gives: bool, r: &Refusal, before: u64) -> String {
    let unchanged = q.result == before && q.parts.iter().all(|p| same(p, 0));
    let told = format!("refused {:02x} {:02x} {:016x}", r.number, r.argument, r.place);
    if gives && unchanged { told } else { told + kept(unchanged) }
}

fn tell_done(q: &Question, gives: bool, kinds: &str) -> String {
    if gives {
        return format!("given {:016x}", q.result);
    }
    let outputs = q.parts.iter().zip(kinds.chars()).filter(|(_, kind)| kind.is_uppercase());
    "done".to_string() + &outputs.map(|(p, _)| held(p)).collect::<String>()
}

fn tell_job(q: &Question, length: usize) -> String {
    let out = &q.parts[2];
    if length > out.count {
        return format!("needs {length:016x}{}", kept(same(out, 0)));
    }
    let Lent::Bytes(s) = &out.now else { panic!("no bytes") };
    format!("wrote {length:016x}{}{}", bytes(&s[..length]), kept(same(out, length)))
}

// Nothing but the outputs may change, and nothing behind any slice.
fn spilled(q: &Question, kinds: &str) -> bool {
    q.parts.iter().zip(kinds.chars()).any(|(p, kind)| !same(p, if kind.is_uppercase() { p.count } else { 0 }))
}

fn answer(line: &str) -> String {
    let mut q = question(line);
    let Some((_, kinds, ask)) = CALLS.iter().find(|c| c.0 == q.word) else {
        return format!("unknown {}", q.word);
    };
    let gives = kinds.starts_with('=');
    let kinds = kinds.trim_start_matches('=');
    let before = !q.v(0);
    let mut refusal = Refusal { number: !q.v(0), argument: !q.v(1), place: !q.v(2) };
    q.lend(kinds);
    q.result = before;
    let returned = ask(&mut q, &mut refusal);
    let told = if kinds.starts_with(['j', 'e', 'o']) {
        tell_job(&q, returned as usize)
    } else if returned != refusal.number {
        format!("returned {returned:016x} and recorded {:016x}", refusal.number)
    } else if returned != 0 {
        tell_refused(&q, gives, &refusal, before)
    } else if refusal.argument != 0 || refusal.place != 0 {
        "recorded a refusal of a call that is done".to_string()
    } else {
        tell_done(&q, gives, kinds)
    };
    told + if spilled(&q, kinds) { " spilled" } else { "" }
}

fn main() {
    for line in std::io::stdin().lock().lines() {
        println!("{}", answer(&line.expect("a line of text")));
    }
}

//! Every public call: what it is lent, the archive's function, and whose answer is owed.

use oracle::kem;
use oracle::operation::Operation;
use oracle::random::Random;
use sha3::digest::{Digest, ExtendableOutput, Update};
use twenty_first::math::lattice::kem::SecretKey;
use zeroize::Zeroize;

use crate::archive::*;
use crate::lent::{Lent, Slice, many};
use crate::paper::Shape::*;
use crate::paper::{DIFFERS, DONE, OF_ZERO, Refusal, Shape, judged};

pub struct Call {
    pub name: &'static str,
    pub inputs: &'static [Shape],
    /// Without any the call works in its first input.
    pub outputs: &'static [Shape],
    ours: Symbol,
    theirs: Theirs,
}

/// Who answers what numbers 1 and 2 do not refuse.
enum Theirs {
    /// The oracle's operation of this word, and what it stands for that the published Rust gives nothing.
    Published(&'static str, Option<Refusal>),
    /// Debian's crate sha3.
    Hash(fn(&[u8], &mut [u8])),
    /// `Zeroize` of the published secret key.
    Cleared,
}

use Theirs::*;

#[rustfmt::skip]
pub const CALLS: &[Call] = &[
    call("field_new",     &[Any],          &[Any], Symbol::New(galmuriec_field_new),       published("new ")),
    call("field_value",   &[Value],        &[Any], Symbol::Three(galmuriec_field_value),   published("val ")),
    call("field_add",     &[Value, Value], &[Any], Symbol::Four(galmuriec_field_add),      published("add ")),
    call("field_sub",     &[Value, Value], &[Any], Symbol::Four(galmuriec_field_sub),      published("sub ")),
    call("field_mul",     &[Value, Value], &[Any], Symbol::Four(galmuriec_field_mul),      published("mul ")),
    call("field_neg",     &[Value],        &[Any], Symbol::Three(galmuriec_field_neg),     published("neg ")),
    call("field_inverse", &[Value],        &[Any], Symbol::Three(galmuriec_field_inverse), Published("inv ", Some(OF_ZERO))),
    call("field_mod_pow", &[Value, Any],   &[Any], Symbol::Four(galmuriec_field_mod_pow),  published("pow ")),

    call("coset_ntt_noswap_64",  &[ELEMENT], &[], Symbol::Three(galmuriec_coset_ntt_noswap_64),  published("ntt ")),
    call("coset_intt_noswap_64", &[ELEMENT], &[], Symbol::Three(galmuriec_coset_intt_noswap_64), published("intt")),
    call("ring_add", &[ELEMENT, ELEMENT], &[ELEMENT], Symbol::Seven(galmuriec_ring_add), published("radd")),
    call("ring_sub", &[ELEMENT, ELEMENT], &[ELEMENT], Symbol::Seven(galmuriec_ring_sub), published("rsub")),
    call("ring_mul", &[ELEMENT, ELEMENT], &[ELEMENT], Symbol::Seven(galmuriec_ring_mul), published("rmul")),
    call("matrix_times_column", &[MATRIX, VECTOR], &[VECTOR],  Symbol::Seven(galmuriec_matrix_times_column), published("mcol")),
    call("row_times_matrix",    &[VECTOR, MATRIX], &[VECTOR],  Symbol::Seven(galmuriec_row_times_matrix),    published("rmat")),
    call("row_times_column",    &[VECTOR, VECTOR], &[ELEMENT], Symbol::Seven(galmuriec_row_times_column),    published("rcol")),

    call("sample_short_bfield_element", &[Bytes(8)], &[Any], Symbol::Four(galmuriec_sample_short_bfield_element), published("shrt")),
    call("sample_short",   &[Bytes(512)], &[ELEMENT],   Symbol::Five(galmuriec_sample_short),   published("sshr")),
    call("sample_uniform", &[Bytes(576)], &[ELEMENT],   Symbol::Five(galmuriec_sample_uniform), published("suni")),
    call("embed_msg",      &[Bytes(32)],  &[ELEMENT],   Symbol::Five(galmuriec_embed_msg),      published("embd")),
    call("extract_msg",    &[ELEMENT],    &[Bytes(32)], Symbol::Five(galmuriec_extract_msg),    published("extr")),

    call("shake256", &[AtMost(135)], &[AtMost(9216)], Symbol::Five(galmuriec_shake256), Hash(shake256)),
    call("sha3_256", &[AtMost(135)], &[Bytes(32)],    Symbol::Five(galmuriec_sha3_256), Hash(sha3_256)),

    call("keygen",      &[Bytes(32)],             &[SECRET, PUBLIC],                Symbol::Seven(galmuriec_keygen),      published("kgen")),
    call("enc",         &[PUBLIC, Bytes(32)],     &[Bytes(32), CIPHERTEXT],         Symbol::Nine(galmuriec_enc),          published("encr")),
    call("enc_numbers", &[PUBLIC, Bytes(32)],     &[Bytes(32), Coefficients(320)],  Symbol::Nine(galmuriec_enc_numbers),  published("encr")),
    call("dec",         &[SECRET, CIPHERTEXT],    &[Bytes(32)], Symbol::Seven(galmuriec_dec),         Published("decr", Some(DIFFERS))),
    call("dec_numbers", &[SECRET, Coefficients(320)], &[Bytes(32)], Symbol::Seven(galmuriec_dec_numbers), Published("decr", Some(DIFFERS))),
    call("clear",       &[SECRET],                &[],          Symbol::Three(galmuriec_clear),       Cleared),
];

const ELEMENT: Shape = Coefficients(64);
const VECTOR: Shape = Coefficients(256);
const MATRIX: Shape = Coefficients(1024);
const SECRET: Shape = Bytes(64);
const PUBLIC: Shape = Packed(2080, 32);
const CIPHERTEXT: Shape = Packed(2560, 0);

const fn call(
    name: &'static str,
    inputs: &'static [Shape],
    outputs: &'static [Shape],
    ours: Symbol,
    theirs: Theirs,
) -> Call {
    Call {
        name,
        inputs,
        outputs,
        ours,
        theirs,
    }
}

const fn published(word: &'static str) -> Theirs {
    Published(word, None)
}

fn shake256(message: &[u8], output: &mut [u8]) {
    let mut hasher = sha3::Shake256::default();
    hasher.update(message);
    hasher.finalize_xof_into(output);
}

fn sha3_256(message: &[u8], output: &mut [u8]) {
    output.copy_from_slice(&sha3::Sha3_256::digest(message));
}

fn cleared(key: &mut [u8]) {
    let mut secret: SecretKey = bincode::deserialize(key).unwrap();
    secret.zeroize();
    key.copy_from_slice(&bincode::serialize(&secret).unwrap());
}

fn operation(word: &str) -> &'static Operation {
    oracle::operation(word).expect("a word of the oracle")
}

/// How the oracle's lines hold an argument: bytes eight to a number with the first the highest, coefficients as they are.
fn line_numbers(shape: Shape, lent: &Lent) -> Vec<u64> {
    let highest_first = |chunk: &[u8]| u64::from_be_bytes(chunk.try_into().unwrap());
    let lowest_first = |chunk: &[u8]| u64::from_le_bytes(chunk.try_into().unwrap());
    match (shape, lent) {
        (_, Lent::Number(number)) => vec![*number],
        (_, Lent::Numbers(slice)) => slice.part().to_vec(),
        (shape, Lent::Bytes(slice)) => {
            let (plain, packed) = slice.part().split_at(plain_bytes(shape));
            let plain = plain.chunks(8).map(highest_first);
            plain.chain(packed.chunks(8).map(lowest_first)).collect()
        }
    }
}

fn plain_bytes(shape: Shape) -> usize {
    match shape {
        Packed(_, from) => from,
        _ => shape.size().unwrap_or(0),
    }
}

/// The same backwards: takes an argument's numbers from the front of a line's.
fn from_line(shape: Shape, numbers: &mut &[u64]) -> Contents {
    let mut take = |count: usize| {
        let (front, rest) = numbers.split_at(count);
        *numbers = rest;
        front
    };
    match shape {
        Any | Value => Contents::Number(take(1)[0]),
        Coefficients(size) => Contents::Numbers(take(size).to_vec()),
        Bytes(size) | Packed(size, _) | AtMost(size) => {
            let plain = plain_bytes(shape);
            let mut bytes: Vec<u8> = take(plain / 8)
                .iter()
                .flat_map(|n| n.to_be_bytes())
                .collect();
            bytes.extend(
                take((size - plain) / 8)
                    .iter()
                    .flat_map(|n| n.to_le_bytes()),
            );
            Contents::Bytes(bytes)
        }
    }
}

/// What stands in an argument, without its margins.
enum Contents {
    Number(u64),
    Bytes(Vec<u8>),
    Numbers(Vec<u64>),
}

impl Contents {
    fn lent(&self, random: &mut Random) -> Lent {
        match self {
            Contents::Number(number) => Lent::Number(*number),
            Contents::Bytes(bytes) => Lent::Bytes(Slice::new(bytes, random)),
            Contents::Numbers(numbers) => Lent::Numbers(Slice::new(numbers, random)),
        }
    }

    fn write(&self, lent: &mut Lent) {
        match (self, lent) {
            (Contents::Number(number), Lent::Number(place)) => *place = *number,
            (Contents::Bytes(bytes), Lent::Bytes(slice)) => slice.part_mut().copy_from_slice(bytes),
            (Contents::Numbers(numbers), Lent::Numbers(slice)) => {
                slice.part_mut().copy_from_slice(numbers)
            }
            _ => unreachable!("an answer of another kind"),
        }
    }
}

/// Room of the allowed length, filled with what is drawn.
fn room(shape: Shape, size: Option<usize>, random: &mut Random) -> Lent {
    match shape {
        Any | Value => Lent::Number(random.next()),
        Coefficients(n) => Lent::Numbers(Slice::new(&many(size.unwrap_or(n), random), random)),
        Bytes(n) | Packed(n, _) | AtMost(n) => {
            Lent::Bytes(Slice::new(&many(size.unwrap_or(n), random), random))
        }
    }
}

impl Call {
    pub fn shapes(&self) -> Vec<Shape> {
        [self.inputs, self.outputs].concat()
    }

    /// Arguments that are not refused by 1 or 2: the oracle's edges, then draws; so many, or all edges.
    pub fn questions(&self, count: usize, random: &mut Random) -> Vec<Vec<Lent>> {
        match self.theirs {
            Published(word, _) => {
                let mut drawn = (operation(word).generator)(count, random);
                if word == "decr" {
                    // of the operation's own one in 29 opens
                    drawn.extend(kem::honest_openings(count, random));
                }
                drawn
                    .iter()
                    .map(|numbers| self.lent(numbers, random))
                    .collect()
            }
            Hash(_) => (0..count).map(|i| self.hashing(i, random)).collect(),
            Cleared => (0..count)
                .map(|_| vec![room(self.inputs[0], None, random)])
                .collect(),
        }
    }

    /// How many questions to make at a time, so that they fit in some 32 megabytes.
    pub fn block(&self) -> usize {
        match self.theirs {
            Published(word, _) => {
                let operation = operation(word);
                (2_000_000 / (operation.operands + operation.results)).min(100_000)
            }
            Hash(_) | Cleared => 2000,
        }
    }

    /// Inputs of the numbers of an oracle's question, outputs as they are drawn.
    pub fn lent(&self, mut numbers: &[u64], random: &mut Random) -> Vec<Lent> {
        let inputs = self
            .inputs
            .iter()
            .map(|shape| from_line(*shape, &mut numbers));
        let inputs: Vec<Contents> = inputs.collect();
        let mut lent: Vec<Lent> = inputs
            .iter()
            .map(|contents| contents.lent(random))
            .collect();
        lent.extend(self.outputs.iter().map(|shape| room(*shape, None, random)));
        lent
    }

    /// Messages of every length by turns, also of zeros and ones only; outputs of any length, half of them near a block's end.
    fn hashing(&self, turn: usize, random: &mut Random) -> Vec<Lent> {
        let mut message = room(self.inputs[0], Some(turn % 136), random);
        match random.below(8) {
            0 => message.bytes_mut().fill(0),
            1 => message.bytes_mut().fill(0xff),
            _ => {}
        }
        let size = match self.outputs[0] {
            AtMost(most) if random.below(2) == 0 => Some(random.below(most + 1)),
            AtMost(most) => Some(
                (136 * random.below(68) + random.below(5))
                    .saturating_sub(2)
                    .min(most),
            ),
            _ => None,
        };
        vec![message, room(self.outputs[0], size, random)]
    }

    /// What must be answered; `lent` becomes what it must hold.
    pub fn expected(&self, lent: &mut [Lent]) -> Refusal {
        if let Some(refusal) = judged(self.inputs, self.outputs, lent) {
            return refusal;
        }
        match self.theirs {
            Published(word, nothing) => return self.by_published(word, nothing, lent),
            Hash(hash) => {
                let message = lent[0].bytes().to_vec();
                hash(&message, lent[1].bytes_mut());
            }
            Cleared => cleared(lent[0].bytes_mut()),
        }
        DONE
    }

    fn by_published(&self, word: &str, nothing: Option<Refusal>, lent: &mut [Lent]) -> Refusal {
        let inputs = self.inputs.iter().zip(&*lent);
        let operands: Vec<u64> = inputs
            .flat_map(|(shape, lent)| line_numbers(*shape, lent))
            .collect();
        let Some(results) = operation(word).answer(&operands) else {
            let Some(refusal) = nothing else {
                // the table knows no refusal here, so nothing can be compared
                eprintln!("{}: the published Rust gives no answer", self.name);
                std::process::exit(2);
            };
            return refusal;
        };
        let in_place = self.outputs.is_empty();
        let (shapes, first) = if in_place {
            (self.inputs, 0)
        } else {
            (self.outputs, self.inputs.len())
        };
        let mut results = &results[..];
        for (shape, lent) in shapes.iter().zip(&mut lent[first..]) {
            from_line(*shape, &mut results).write(lent);
        }
        DONE
    }

    /// What the archive answers; the number alone comes back too.
    pub fn ours(&self, lent: &mut [Lent], refusal: &mut Refusal) -> u64 {
        if let Symbol::New(_) = self.ours {
            let number = unsafe { self.ours.call(&[lent[0].number()]) };
            lent[1] = Lent::Number(number);
            *refusal = DONE;
            return 0;
        }
        let mut words = Vec::with_capacity(9);
        for (k, lent) in lent.iter_mut().enumerate() {
            match lent {
                Lent::Number(number) if k < self.inputs.len() => words.push(*number),
                Lent::Number(place) => words.push(place as *mut u64 as Word),
                Lent::Bytes(slice) => words.extend(slice_words(slice.part_mut())),
                Lent::Numbers(slice) => words.extend(slice_words(slice.part_mut())),
            }
        }
        words.push(refusal as *mut Refusal as Word);
        // every pointer is of a buffer that lives on, and every count is its own
        unsafe { self.ours.call(&words) }
    }
}

fn slice_words<T>(slice: &mut [T]) -> [Word; 2] {
    [slice.as_mut_ptr() as Word, slice.len() as Word]
}

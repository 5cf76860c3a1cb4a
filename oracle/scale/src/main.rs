//! Compares the archive of the public calls with the published Rust and with the table of refusals of docs/SCHEME.md, call by call in one process.

mod archive;
mod calls;
mod jobs;
mod lent;
mod paper;
mod spoil;

use std::process::ExitCode;

use calls::{CALLS, Call};
use lent::Lent;
use oracle::random::Random;
use paper::Refusal;

const USAGE: &str = "usage: scale COUNT SEED PROGRAM";

/// So many field operations for one other question.
const FIELD: usize = 100;

/// Differences that are shown, of all.
const SHOWN: u64 = 5;

#[derive(Default)]
struct Tally {
    compared: u64,
    refused: u64,
    differ: u64,
}

impl Tally {
    fn row(&self, name: &str) {
        let done = self.compared - self.refused;
        println!(
            "| {name} | {} | {done} | {} | {} |",
            self.compared, self.refused, self.differ
        );
    }

    fn add(&mut self, other: &Tally) {
        self.compared += other.compared;
        self.refused += other.refused;
        self.differ += other.differ;
    }

    fn count(&mut self, refused: bool, same: bool, shown: impl FnOnce() -> String) {
        self.compared += 1;
        self.refused += u64::from(refused);
        self.differ += u64::from(!same);
        if !same && self.differ <= SHOWN {
            println!("differs: {}", shown());
        }
    }
}

fn main() -> ExitCode {
    let arguments: Vec<String> = std::env::args().skip(1).collect();
    let [count, seed, program] = &arguments[..] else {
        eprintln!("{USAGE}");
        return ExitCode::from(2);
    };
    let (Ok(count), Ok(seed)) = (count.parse(), seed.parse()) else {
        eprintln!("{USAGE}");
        return ExitCode::from(2);
    };
    // A panic of the published code is an answer here, so its message is not printed.
    std::panic::set_hook(Box::new(|_| {}));
    println!("| call | compared | done | refused | differ |");
    println!("|---|---|---|---|---|");
    let mut total = Tally::default();
    for call in CALLS {
        let tally = compare_call(call, count, seed);
        tally.row(call.name);
        total.add(&tally);
    }
    for (first, name) in (1..).zip(jobs::KINDS) {
        let tally = compare_jobs(first, name, count, seed);
        tally.row(&format!("job, {name}"));
        total.add(&tally);
    }
    let tally = compare_no_jobs(seed);
    tally.row("job, other lengths and first bytes");
    total.add(&tally);
    let tally = compare_program(program, count.div_ceil(10), seed);
    tally.row("job as a program");
    total.add(&tally);
    println!("{} compared, {} differ", total.compared, total.differ);
    ExitCode::from(u8::from(total.differ > 0))
}

/// Good questions, half as many spoiled ones, and the sweeps.
fn compare_call(call: &Call, count: usize, seed: u64) -> Tally {
    let (shapes, inputs) = (call.shapes(), call.inputs.len());
    let mut random = Random::new(seed, call.name);
    let mut tally = Tally::default();
    let good = count
        * if call.name.starts_with("field_") {
            FIELD
        } else {
            1
        };
    questions(call, good, &mut random, |lent, random| {
        compare(call, lent, random, &mut tally)
    });
    questions(call, good / 2, &mut random, |mut lent, random| {
        spoil::spoil(&shapes, inputs, &mut lent, random);
        compare(call, lent, random, &mut tally);
    });
    let base = call.questions(1, &mut random).swap_remove(0);
    let mut drawn = Random::new(random.next(), call.name);
    spoil::sweep(&shapes, inputs, &base, &mut random, |lent| {
        compare(call, lent, &mut drawn, &mut tally)
    });
    tally
}

/// At least so many questions, made by blocks.
fn questions(
    call: &Call,
    count: usize,
    random: &mut Random,
    mut each: impl FnMut(Vec<Lent>, &mut Random),
) {
    let mut made = 0;
    while made < count {
        for lent in call.questions(call.block().min(count - made), random) {
            each(lent, random);
            made += 1;
        }
    }
}

/// One call on both sides: the number that comes back, the refusal, and everything lent, whole.
fn compare(call: &Call, mut lent: Vec<Lent>, random: &mut Random, tally: &mut Tally) {
    let mut after = lent.clone();
    let expected = call.expected(&mut after);
    let mut refusal = Refusal {
        number: random.next(),
        argument: random.next(),
        place: random.next(),
    };
    let number = call.ours(&mut lent, &mut refusal);
    let same = number == expected.number && refusal == expected && lent == after;
    tally.count(expected.number != 0, same, || {
        let sizes: Vec<_> = lent.iter().map(Lent::size).collect();
        let buffers: Vec<_> = lent.iter().zip(&after).map(|(a, b)| a == b).collect();
        let name = call.name;
        format!("{name} lent {sizes:?}: {expected:?} expected, {number} and {refusal:?} came; same buffers: {buffers:?}")
    });
}

fn compare_job(job: &[u8], turn: usize, random: &mut Random, tally: &mut Tally) {
    let answer = jobs::answer(job, random);
    let room = jobs::room(turn, answer.len(), random);
    let same = jobs::archive_agrees(job, &answer, room, random);
    tally.count(answer[0] != 0, same, || {
        format!(
            "job of {} bytes, first {:?}, room {room}",
            job.len(),
            job.first()
        )
    });
}

/// Jobs of one kind: good or damaged packets, then bad coefficients, at every place too, and other lengths.
fn compare_jobs(first: u8, name: &str, count: usize, seed: u64) -> Tally {
    let call = jobs::kind(name);
    let mut random = Random::new(seed, &format!("job {name}"));
    let mut tally = Tally::default();
    let mut turn = 0;
    let mut each = |lent: Vec<Lent>, random: &mut Random| {
        compare_job(&jobs::job(first, call, &lent), turn, random, &mut tally);
        turn += 1;
    };
    questions(call, count, &mut random, &mut each);
    // a job lends no outputs
    let inputs = call.inputs.len();
    questions(call, count / 2, &mut random, |mut lent, random| {
        spoil::spoil(call.inputs, inputs, &mut lent, random);
        each(lent, random);
    });
    let base = call.questions(1, &mut random).swap_remove(0);
    let mut drawn = Random::new(random.next(), name);
    spoil::sweep(call.inputs, inputs, &base, &mut random, |lent| {
        each(lent, &mut drawn)
    });
    tally
}

/// Every length up to beyond the longest job, with first bytes around 1, 2 and 3; every first byte with each right length.
fn compare_no_jobs(seed: u64) -> Tally {
    let mut random = Random::new(seed, "no jobs");
    let mut tally = Tally::default();
    let lengths = (0..2700).flat_map(|size| [0, 1, 2, 3, 4, 255].map(|first| (size, first)));
    let firsts = [1, 33, 2113, 2625].map(|size| (0..=255).map(move |first| (size, first)));
    for (turn, (size, first)) in lengths.chain(firsts.into_iter().flatten()).enumerate() {
        let mut job: Vec<u8> = lent::many(size, &mut random);
        job.iter_mut().take(1).for_each(|byte| *byte = first);
        compare_job(&job, turn, &mut random, &mut tally);
    }
    tally
}

/// So many jobs of every kind through the program, a quarter as many spoiled ones, and the lengths around each right one.
fn compare_program(program: &str, count: usize, seed: u64) -> Tally {
    let mut random = Random::new(seed, "program");
    let mut tally = Tally::default();
    let mut each = |job: Vec<u8>, random: &mut Random| {
        let answer = jobs::answer(&job, random);
        let came = jobs::by_program(program, &job);
        let same = matches!(&came, Ok(Some(output)) if *output == answer);
        tally.count(answer[0] != 0, same, || {
            format!(
                "program on a job of {} bytes, first {:?}: {came:?}",
                job.len(),
                job.first()
            )
        });
    };
    for (first, name) in (1..).zip(jobs::KINDS) {
        let call = jobs::kind(name);
        questions(call, count, &mut random, |lent, random| {
            each(jobs::job(first, call, &lent), random)
        });
        questions(call, count / 4, &mut random, |mut lent, random| {
            spoil::spoil(call.inputs, call.inputs.len(), &mut lent, random);
            each(jobs::job(first, call, &lent), random);
        });
    }
    for size in [
        0, 1, 2, 32, 33, 34, 2112, 2113, 2114, 2624, 2625, 2626, 5000, 100_000,
    ] {
        for first in 0..=4 {
            let mut job: Vec<u8> = lent::many(size, &mut random);
            job.iter_mut().take(1).for_each(|byte| *byte = first);
            each(job, &mut random);
        }
    }
    tally
}

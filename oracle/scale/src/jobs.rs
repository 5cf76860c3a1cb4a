//! Jobs: docs/SCHEME.md, "The job program", by the archive's `galmuriec_job` and by the program itself.

use std::io::{self, Read, Write};
use std::process::{Command, Stdio};

use oracle::random::Random;

use crate::archive::galmuriec_job;
use crate::calls::{CALLS, Call};
use crate::lent::{Lent, Slice, many};
use crate::paper::{NO_JOB, Refusal};

/// The longest answer: byte 0, a shared key and a ciphertext.
pub const LONGEST: usize = 2593;

/// The calls behind first bytes 1, 2 and 3.
pub const KINDS: [&str; 3] = ["keygen", "enc", "dec"];

pub fn kind(name: &str) -> &'static Call {
    CALLS.iter().find(|call| call.name == name).expect("a call")
}

/// The job that asks for a call with these inputs.
pub fn job(first: u8, call: &Call, lent: &[Lent]) -> Vec<u8> {
    let inputs = lent[..call.inputs.len()].iter().map(Lent::bytes);
    [first]
        .into_iter()
        .chain(inputs.flatten().copied())
        .collect()
}

/// What must be answered.
pub fn answer(job: &[u8], random: &mut Random) -> Vec<u8> {
    let known = job
        .first()
        .and_then(|first| KINDS.get(usize::from(*first).wrapping_sub(1)));
    let Some(call) = known.map(|name| kind(name)) else {
        return ten(NO_JOB);
    };
    let sizes: Vec<usize> = call
        .inputs
        .iter()
        .filter_map(|shape| shape.size())
        .collect();
    if job.len() != 1 + sizes.iter().sum::<usize>() {
        return ten(NO_JOB);
    }
    let mut rest = &job[1..];
    let mut lent = Vec::new();
    for size in sizes {
        let (input, behind) = rest.split_at(size);
        lent.push(Lent::Bytes(Slice::new(input, random)));
        rest = behind;
    }
    for size in call.outputs.iter().filter_map(|shape| shape.size()) {
        lent.push(Lent::Bytes(Slice::new(&vec![0; size], random)));
    }
    let refusal = call.expected(&mut lent);
    if refusal.number != 0 {
        return ten(refusal);
    }
    let outputs = lent[call.inputs.len()..].iter().map(Lent::bytes);
    [0].into_iter().chain(outputs.flatten().copied()).collect()
}

fn ten(refusal: Refusal) -> Vec<u8> {
    let mut bytes = vec![refusal.number as u8, refusal.argument as u8];
    bytes.extend(refusal.place.to_le_bytes());
    bytes
}

/// The archive's answer into a room of this size: whether its length is right, and whether the room holds the answer, or what it held
/// where the answer does not fit.
pub fn archive_agrees(job: &[u8], answer: &[u8], room: usize, random: &mut Random) -> bool {
    let mut expected = Slice::new(&many::<u8>(room, random), random);
    let mut output = expected.clone();
    if answer.len() <= room {
        expected.part_mut()[..answer.len()].copy_from_slice(answer);
    }
    let input = Slice::new(job, random);
    let (from, to) = (input.part(), output.part_mut());
    let size = unsafe { galmuriec_job(from.as_ptr(), from.len(), to.as_mut_ptr(), to.len()) };
    size == answer.len() && output == expected && input.part() == job
}

/// Rooms by turns: with place to spare, exact, one byte too small, none, any.
pub fn room(turn: usize, answer: usize, random: &mut Random) -> usize {
    match turn % 6 {
        0 | 1 => LONGEST,
        2 => answer,
        3 => answer - 1,
        4 => [0, 1, 9, 10, LONGEST + 1, 2 * LONGEST][random.below(6)],
        _ => random.below(LONGEST + 100),
    }
}

/// What the program writes for a job, if it ends with status 0.
pub fn by_program(path: &str, job: &[u8]) -> io::Result<Option<Vec<u8>>> {
    let mut program = Command::new(path)
        .stdin(Stdio::piped())
        .stdout(Stdio::piped())
        .spawn()?;
    // a program may stop reading after the longest job
    let written = program.stdin.take().expect("piped").write_all(job);
    if let Err(error) = written {
        if error.kind() != io::ErrorKind::BrokenPipe {
            return Err(error);
        }
    }
    let mut output = Vec::new();
    program
        .stdout
        .take()
        .expect("piped")
        .read_to_end(&mut output)?;
    Ok(program.wait()?.success().then_some(output))
}

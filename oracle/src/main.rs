//! Asks questions and answers them by the published Rust, so that another program's answers can be compared.

mod line;

use std::io::{self, BufRead, BufWriter, Write};
use std::process::ExitCode;

use oracle::LAYERS;

const USAGE: &str = "usage: oracle questions LAYER COUNT SEED\n       oracle answers";

fn main() -> ExitCode {
    match run() {
        Ok(()) => ExitCode::SUCCESS,
        Err(message) => {
            eprintln!("oracle: {message}");
            ExitCode::FAILURE
        }
    }
}

fn run() -> Result<(), String> {
    let arguments: Vec<String> = std::env::args().skip(1).collect();
    let arguments: Vec<&str> = arguments.iter().map(String::as_str).collect();
    match arguments[..] {
        ["questions", layer, count, seed] => {
            let count = count.parse().map_err(|_| "COUNT is not a number")?;
            let seed = seed.parse().map_err(|_| "SEED is not a number")?;
            questions(layer, count, seed)
        }
        ["answers"] => answers(),
        _ => Err(USAGE.to_string()),
    }
}

/// Writes the questions of a layer, operation by operation.
fn questions(layer: &str, count: usize, seed: u64) -> Result<(), String> {
    let (_, operations) = LAYERS
        .iter()
        .find(|(name, _)| *name == layer)
        .ok_or_else(|| format!("there is no layer {layer}"))?;
    let mut output = BufWriter::new(io::stdout().lock());
    for operation in *operations {
        for operands in operation.questions(count, seed) {
            let question = line::question(operation.word, &operands);
            output.write_all(&question).map_err(failed)?;
        }
    }
    output.flush().map_err(failed)
}

/// Writes one answer line for each question on standard input.
fn answers() -> Result<(), String> {
    // A panic of the published code is an answer here, so its message is not printed.
    std::panic::set_hook(Box::new(|_| {}));
    let mut input = io::stdin().lock();
    let mut output = BufWriter::new(io::stdout().lock());
    let mut question = Vec::new();
    for number in 1.. {
        question.clear();
        if input.read_until(b'\n', &mut question).map_err(failed)? == 0 {
            break;
        }
        let answer = answer(&question).ok_or(format!("line {number} is not a question"))?;
        output.write_all(&answer).map_err(failed)?;
    }
    output.flush().map_err(failed)
}

/// The answer line to a question line, if it is one.
fn answer(question: &[u8]) -> Option<Vec<u8>> {
    let (word, operands) = line::read_question(question)?;
    let operation = oracle::operation(word)?;
    if operation.operands != operands.len() {
        return None;
    }
    Some(match operation.answer(&operands) {
        Some(results) => line::answer(&results),
        None => line::refusal(operation.results),
    })
}

fn failed(error: io::Error) -> String {
    error.to_string()
}

#[cfg(test)]
mod tests {
    use super::*;

    /// Each row of the tables keeps its own word: four characters, so many operands, so many results.
    #[test]
    fn rows_are_as_they_say() {
        for operation in LAYERS.iter().flat_map(|(_, operations)| *operations) {
            assert_eq!(operation.word.len(), 4);
            for operands in operation.questions(0, 0) {
                assert_eq!(operands.len(), operation.operands);
                let question = line::question(operation.word, &operands);
                assert_eq!(
                    line::read_question(&question),
                    Some((operation.word, operands))
                );
                let answer = answer(&question).unwrap();
                assert_eq!(answer.len(), 17 * operation.results);
            }
        }
    }

    #[test]
    fn lines_are_as_described() {
        let line = |question: &str| answer(question.as_bytes());
        let one = Some(b"0000000000000001\n".to_vec());
        assert_eq!(line("neg  ffffffff00000000\n"), one);
        assert_eq!(line("add  0000000000000001 0000000000000000\n"), one);
        let refused = Some(b"refused---------\n".to_vec());
        assert_eq!(line("inv  0000000000000000\n"), refused);
        for other in [
            "",
            "\n",
            "neg\n",
            "neg \n",
            "neg  ffffffff00000000",
            "neg  FFFFFFFF00000000\n",
            "neg  ffffffff0000000\n",
            "neg  ffffffff00000000 \n",
            "neg  ffffffff00000000 0000000000000000\n",
            "nix  ffffffff00000000\n",
        ] {
            assert_eq!(line(other), None, "{other:?}");
        }
    }
}

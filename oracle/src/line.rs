//! The line format of questions and answers. Every number is 16 lowercase hex digits.

const WORD: usize = 4;
const DIGITS: usize = 16;
const REFUSED: [u8; DIGITS] = *b"refused---------";

/// The word, then one space and the digits for each operand.
pub fn question(word: &str, operands: &[u64]) -> Vec<u8> {
    let mut line = word.as_bytes().to_vec();
    for operand in operands {
        line.push(b' ');
        line.extend(digits(*operand));
    }
    line.push(b'\n');
    line
}

/// The results, one space between them.
pub fn answer(results: &[u64]) -> Vec<u8> {
    let numbers: Vec<_> = results.iter().map(|result| digits(*result)).collect();
    joined(&numbers)
}

/// As wide as an answer with so many results.
pub fn refusal(results: usize) -> Vec<u8> {
    joined(&vec![REFUSED; results])
}

fn joined(numbers: &[[u8; DIGITS]]) -> Vec<u8> {
    let mut line = numbers.join(&b' ');
    line.push(b'\n');
    line
}

/// Word and operands of a question line, if it is one.
pub fn read_question(line: &[u8]) -> Option<(&str, Vec<u64>)> {
    let (word, rest) = line.strip_suffix(b"\n")?.split_at_checked(WORD)?;
    let word = std::str::from_utf8(word).ok()?;
    let operands: Option<_> = rest.chunks(1 + DIGITS).map(read_operand).collect();
    Some((word, operands?))
}

fn read_operand(text: &[u8]) -> Option<u64> {
    let digits: &[u8; DIGITS] = text.strip_prefix(b" ")?.try_into().ok()?;
    let append = |number, digit: &u8| Some(number << 4 | read_digit(*digit)?);
    digits.iter().try_fold(0, append)
}

fn read_digit(digit: u8) -> Option<u64> {
    match digit {
        b'0'..=b'9' => Some(u64::from(digit - b'0')),
        b'a'..=b'f' => Some(u64::from(digit - b'a' + 10)),
        _ => None,
    }
}

fn digits(number: u64) -> [u8; DIGITS] {
    std::array::from_fn(|i| b"0123456789abcdef"[(number >> (60 - 4 * i)) as usize % 16])
}

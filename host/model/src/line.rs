//! Lines of a case file: words between blanks, numbers in decimal or hex.

/// The words of a line; none where it is empty or begins with `#`.
pub fn words(line: &str) -> Vec<&str> {
    if line.starts_with('#') {
        return Vec::new();
    }
    line.split_whitespace().collect()
}

/// A decimal number, or hex after `0x`, up to 2^64 − 1.
pub fn number(word: &str) -> Result<u64, String> {
    let parsed = match word.strip_prefix("0x") {
        Some(hex) => u64::from_str_radix(hex, 16),
        None => word.parse(),
    };
    parsed.map_err(|_| format!("not a number: {word}"))
}

/// So many numbers, no more and no fewer.
pub fn numbers<const N: usize>(words: &[&str]) -> Result<[u64; N], String> {
    let mut numbers = Vec::new();
    for word in words {
        numbers.push(number(word)?);
    }
    let count = numbers.len();
    numbers
        .try_into()
        .map_err(|_| format!("{count} numbers, not {N}"))
}

/// Byte `at` of an answer, byte 0 the lowest.
pub fn byte(answer: u64, at: usize) -> u8 {
    answer.to_le_bytes()[at]
}

/// Bytes 4 to 7 of a refused answer: how far short the shapers are. 0 where the call was
/// carried out.
pub fn short(answer: u64) -> u64 {
    match byte(answer, 0) {
        0 => 0,
        _ => answer >> 32,
    }
}

//! Hex text, and what is printed of a summary.

use crate::record::{self, Form};
use crate::refusal::Refusal;
use crate::summary::Summary;

/// "reads hex from standard input, skipping blanks and line ends; other text or an
/// odd digit, anywhere, is 2 before all else."
pub fn decode(input: &[u8]) -> Result<Vec<u8>, Refusal> {
    let mut digits = Vec::with_capacity(input.len());
    for byte in input {
        match (*byte, char::from(*byte).to_digit(16)) {
            (_, Some(digit)) => digits.push(digit as u8),
            (b' ' | b'\t' | b'\n' | b'\r', None) => {}
            _ => return Err(Refusal::Bytes),
        }
    }
    if digits.len() % 2 == 1 {
        return Err(Refusal::Bytes);
    }
    Ok(digits
        .chunks(2)
        .map(|pair| pair[0] << 4 | pair[1])
        .collect())
}

pub fn encode(bytes: &[u8]) -> String {
    bytes.iter().map(|byte| format!("{byte:02x}")).collect()
}

/// The summary of a record's bytes, of either form.
pub fn summarize(bytes: &[u8]) -> Result<Summary, Refusal> {
    Summary::of_record(&record::read(bytes, Form::Either)?)
}

/// "A refusal prints only `refused N`."
pub fn show(answer: Result<Summary, Refusal>) -> String {
    match answer {
        Ok(summary) => show_summary(&summary),
        Err(refusal) => format!("refused {}\n", refusal.number()),
    }
}

/// "The start is loLimit; if need is larger the last line is `start 100 not
/// permitted`."
fn show_summary(summary: &Summary) -> String {
    let start = i128::from(summary.settings.lo_limit);
    let last = if summary.need > start {
        "not permitted".to_string()
    } else {
        let end = (start + summary.gain()).min(summary.ceiling);
        format!("permitted end {end}")
    };
    format!(
        "events {}\naccrued {}\nsent {}\nceiling {}\nneed {}\nstart {start} {last}\n",
        summary.events, summary.accrued, summary.sent, summary.ceiling, summary.need
    )
}

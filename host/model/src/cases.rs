//! The case file: one case per line, `NAME STEPS...`.
//!
//! A hex word is bytes, `N*HEX` is these bytes N times, `|` begins the next piece.
//! Each piece is a whole record; pieces are summarized, then joined from the left.
//! Lines that are empty or start with `#` are skipped.

use crate::refusal::Refusal;
use crate::summary::Summary;
use crate::text;

pub struct Case<'a> {
    pub name: &'a str,
    steps: Vec<&'a str>,
}

/// The case on a line; None where the line holds none.
pub fn parse(line: &str) -> Option<Case<'_>> {
    if line.starts_with('#') {
        return None;
    }
    let mut words = line.split_whitespace();
    let name = words.next()?;
    let steps = words.collect();
    Some(Case { name, steps })
}

/// A step's bytes and how often they come; None where the word is not a step.
fn step(word: &str) -> Option<(usize, Vec<u8>)> {
    let (times, hex) = match word.split_once('*') {
        Some((times, hex)) => (times.parse().ok()?, hex),
        None => (1, word),
    };
    let bytes = text::decode(hex.as_bytes()).ok()?;
    (!bytes.is_empty()).then_some((times, bytes))
}

fn piece_bytes(steps: &[&str]) -> Result<Vec<u8>, String> {
    let mut bytes = Vec::new();
    for word in steps {
        let (times, part) = step(word).ok_or(format!("not a step: {word}"))?;
        for _ in 0..times {
            bytes.extend_from_slice(&part);
        }
    }
    Ok(bytes)
}

impl Case<'_> {
    /// The bytes of a case that is one piece.
    pub fn bytes(&self) -> Result<Vec<u8>, String> {
        piece_bytes(&self.steps)
    }

    /// Each piece's summary or refusal, one piece in memory at a time.
    fn pieces(&self) -> Result<Vec<Result<Summary, Refusal>>, String> {
        self.steps
            .split(|word| *word == "|")
            .map(|steps| piece_bytes(steps).map(|bytes| text::summarize(&bytes)))
            .collect()
    }

    /// The first refused piece, else the first refused join, else the summary.
    pub fn outcome(&self) -> Result<Result<Summary, Refusal>, String> {
        let pieces: Result<Vec<Summary>, Refusal> = self.pieces()?.into_iter().collect();
        Ok(pieces.and_then(|pieces| join_from_left(&pieces)))
    }

    /// The name on a line of its own, then what the summary program prints.
    pub fn print(&self) -> Result<String, String> {
        let outcome = self.outcome();
        let outcome = outcome.map_err(|fault| format!("case {}: {fault}", self.name))?;
        Ok(format!("{}\n{}", self.name, text::show(outcome)))
    }
}

fn join_from_left(pieces: &[Summary]) -> Result<Summary, Refusal> {
    let (first, rest) = pieces.split_first().ok_or(Refusal::Bytes)?;
    rest.iter().try_fold(*first, |sum, next| sum.join(next))
}

//! Heartbeats: "say whether the pattern, repeated a stated number of times, is permitted
//! throughout from loLimit, and if so the credit at the end".
//!
//! The answer is that of the written-out record, event by event. Nothing is joined here.

use crate::record::{self, Event, Form, Limit, Record, MOST_EVENTS};
use crate::refusal::Refusal;
use crate::summary::run;

/// "a pattern of at most 256 events"
pub const MOST_IN_PATTERN: usize = 256;

/// "any byte (or a run) past the 256th event is 3"
const OF_PATTERNS: Limit = Limit {
    events: MOST_IN_PATTERN,
    past: Refusal::Range,
};

/// "the pattern is a record [...] of at most 256 events", in either form.
pub fn pattern(bytes: &[u8]) -> Result<Record, Refusal> {
    Ok(record::read_items_to(bytes, Form::Either, OF_PATTERNS)?.unrolled())
}

/// "Refuses the pattern's earliest fault [...]; then 9 where repeats × events exceeds 1,000,000
/// (no overflow, whatever `repeats` is)": 128 bits hold any such product.
pub fn repeated(bytes: &[u8], repeats: u64) -> Result<Record, Refusal> {
    let pattern = pattern(bytes)?;
    match u128::from(repeats) * pattern.events.len() as u128 {
        0..=MOST_TOGETHER => Ok(pattern),
        _ => Err(Refusal::Events),
    }
}

const MOST_TOGETHER: u128 = MOST_EVENTS as u128;

/// The written-out record: the events of the pattern, so many times.
pub fn written_out(pattern: &Record, repeats: u64) -> Record {
    let length = pattern.events.len() * repeats as usize;
    let events = pattern.events.iter().copied().cycle().take(length);
    Record {
        settings: pattern.settings,
        events: events.collect::<Vec<Event>>(),
    }
}

/// The credit at the end, from loLimit; None where not permitted throughout.
pub fn end(bytes: &[u8], repeats: u64) -> Result<Option<i128>, Refusal> {
    let pattern = repeated(bytes, repeats)?;
    let (permitted, credit) = rounds(&pattern, repeats);
    Ok((permitted == repeats).then_some(credit))
}

/// How many of so many rounds from loLimit are permitted, one behind the other, and the credit
/// behind them.
pub fn rounds(pattern: &Record, repeats: u64) -> (u64, i128) {
    let mut credit = i128::from(pattern.settings.lo_limit);
    for done in 0..repeats {
        match run(&pattern.settings, &pattern.events, credit) {
            None => return (done, credit),
            // What a round does goes by the credit that it begins with, and by nothing else: so
            // each round behind this one is permitted too and leaves the same credit.
            Some(next) if next == credit => return (repeats, credit),
            Some(next) => credit = next,
        }
    }
    (repeats, credit)
}

/// The most repeats of so many events that are not refused.
pub fn most_repeats(events: usize) -> u64 {
    match events {
        0 => u64::MAX,
        _ => (MOST_EVENTS / events) as u64,
    }
}

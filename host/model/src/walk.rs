//! What a reader finds in a record: its events in their order, those of a run one by one, then
//! the end or what is wrong.
//!
//! A line holds a record as hex. Lines that are empty or begin with `#` print nothing.

use crate::record::{self, Event, Form};
use crate::text;

/// A reader takes both forms.
const FORM: Form = Form::Either;

/// What a line prints; the error names what is wrong with the line.
pub fn print(line: &str) -> Result<Option<String>, String> {
    if line.is_empty() || line.starts_with('#') {
        return Ok(None);
    }
    let bytes = text::decode(line.as_bytes()).map_err(|_| format!("{line}: not hex"))?;
    Ok(Some(walk(&bytes)))
}

/// A line for each event, then `end` or `refused N`.
fn walk(bytes: &[u8]) -> String {
    let events: String = events_before(bytes).into_iter().map(show).collect();
    match record::read(bytes, FORM) {
        Ok(_) => format!("{events}end\n"),
        Err(refusal) => format!("{events}refused {}\n", refusal.number()),
    }
}

/// The events of the longest whole record that the bytes begin with: those before the
/// end or the earliest fault.
fn events_before(bytes: &[u8]) -> Vec<Event> {
    (0..=bytes.len())
        .rev()
        .find_map(|end| record::read(&bytes[..end], FORM).ok())
        .map_or(Vec::new(), |record| record.events)
}

fn show(event: Event) -> String {
    match event {
        Event::Waiting(amount) => format!("waiting tick {amount}\n"),
        Event::Idle(amount) => format!("idle tick {amount}\n"),
        Event::Send(size) => format!("send {size}\n"),
    }
}

//! The movers: "an old record into the new form, from the front, always taking the longest run it
//! can, and back".

use crate::item::{Item, Listed, MOST_IN_RUN};
use crate::record::{self, Event, Form, Record};
use crate::refusal::Refusal;

/// "old form to new"; "the record's earliest fault (an item of kind 4 is 2, whatever it holds;
/// behind the millionth event any byte is 9)".
pub fn roll(bytes: &[u8]) -> Result<Vec<u8>, Refusal> {
    Ok(rolled(&record::read(bytes, Form::Old)?).to_bytes())
}

/// "either form to old"; "the record's earliest fault".
pub fn unroll(bytes: &[u8]) -> Result<Vec<u8>, Refusal> {
    Ok(record::read(bytes, Form::Either)?.to_bytes())
}

/// "takes from the front the longest run it can, at most 65,535; a tick left alone stays a plain
/// tick".
pub fn rolled(record: &Record) -> Listed {
    let mut items = Vec::new();
    let mut rest = &record.events[..];
    while let Some(event) = rest.first() {
        let count = match event {
            Event::Send(_) => 1,
            _ => rest.iter().take_while(|next| *next == event).count(),
        };
        let count = count.min(MOST_IN_RUN);
        items.push(Item {
            event: *event,
            count: count as u16,
        });
        rest = &rest[count..];
    }
    Listed {
        settings: record.settings,
        items,
    }
}

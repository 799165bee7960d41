//! Which calls about heartbeats must have come up.

use crate::heartbeat::{self, most_repeats, rounds, MOST_IN_PATTERN};
use crate::record::{self, Form, MOST_EVENTS};
use std::collections::BTreeSet;

/// A call that was not refused.
struct Look {
    events: usize,
    items: usize,
    repeats: u64,
    /// How many rounds are permitted, of as many as may be.
    permitted: u64,
    /// What the first round adds to the credit, and what the last one does; 0 where there is
    /// none, or it is not permitted.
    first: i128,
    last: i128,
}

type Sight = (&'static str, fn(&Look) -> bool);

/// What must be seen beside every refusal and every broken rule.
const EVERY: &[Sight] = &[
    ("one round, and above loLimit", |look| {
        look.all() && look.repeats == 1 && look.first > 0
    }),
    ("one round, and at loLimit", |look| {
        look.all() && look.repeats == 1 && look.first == 0
    }),
    ("one round, and below loLimit", |look| {
        look.all() && look.repeats == 1 && look.first < 0
    }),
    ("lost in the first round", |look| {
        !look.all() && look.permitted == 0
    }),
    ("lost in the second round", |look| {
        !look.all() && look.permitted == 1
    }),
    ("lost after 1000 rounds", |look| {
        !look.all() && look.permitted > 1_000
    }),
    ("the last round that is permitted", |look| {
        look.loses() && look.repeats > 1 && look.repeats == look.permitted
    }),
    ("one round more than is permitted", |look| {
        look.permitted > 1 && !look.all() && look.repeats - 1 == look.permitted
    }),
    ("the credit falls in the 1000th round or later", |look| {
        look.all() && look.repeats >= 1_000 && look.last < 0
    }),
    ("the credit rises in the 1000th round or later", |look| {
        look.all() && look.repeats >= 1_000 && look.last > 0
    }),
    ("the credit rises in the 600000th round or later", |look| {
        look.all() && look.repeats >= 600_000 && look.last > 0
    }),
    ("no repeats of what is lost in the first round", |look| {
        look.repeats == 0 && look.permitted == 0
    }),
    ("an empty pattern 2^64 - 1 times", |look| {
        look.events == 0 && look.repeats == u64::MAX
    }),
    ("1000000 events, permitted", |look| {
        look.all() && look.together() == MOST_EVENTS as u64
    }),
    ("1000000 events, not permitted", |look| {
        !look.all() && look.together() == MOST_EVENTS as u64
    }),
    ("as many repeats as may be, of fewer events", |look| {
        look.most() && look.together() < MOST_EVENTS as u64
    }),
    ("256 events without a run", |look| {
        look.events == MOST_IN_PATTERN && look.items == look.events
    }),
    ("256 events with a run", |look| {
        look.events == MOST_IN_PATTERN && look.items < look.events
    }),
    ("a run of 256 alone", |look| {
        look.events == MOST_IN_PATTERN && look.items == 1
    }),
];

impl Look {
    fn new(bytes: &[u8], repeats: u64) -> Option<Look> {
        let pattern = heartbeat::repeated(bytes, repeats).ok()?;
        let items = record::read_items(bytes, Form::Either).ok()?.items.len();
        let events = pattern.events.len();
        let behind = |repeats: u64| rounds(&pattern, repeats).1;
        let last = behind(repeats) - behind(repeats.saturating_sub(1));
        Some(Look {
            events,
            items,
            repeats,
            permitted: rounds(&pattern, most_repeats(events)).0,
            first: behind(1) - behind(0),
            last,
        })
    }

    /// The answer is that all is permitted.
    fn all(&self) -> bool {
        self.repeats <= self.permitted
    }

    /// More repeats would not be permitted, and are not refused.
    fn loses(&self) -> bool {
        self.permitted < most_repeats(self.events)
    }

    fn most(&self) -> bool {
        self.events > 0 && self.repeats == most_repeats(self.events)
    }

    fn together(&self) -> u64 {
        self.repeats * self.events as u64
    }
}

/// The calls that were made.
#[derive(Default)]
pub struct Heartbeats {
    seen: BTreeSet<&'static str>,
}

impl Heartbeats {
    pub fn look(&mut self, bytes: &[u8], repeats: u64) {
        if let Some(look) = Look::new(bytes, repeats) {
            let sights = EVERY.iter().filter(|(_, holds)| holds(&look));
            self.seen.extend(sights.map(|(name, _)| name));
        }
    }

    pub fn missing(&self) -> Vec<String> {
        let unseen = EVERY.iter().filter(|(name, _)| !self.seen.contains(name));
        unseen.map(|(name, _)| name.to_string()).collect()
    }
}

//! What `rpr compare` prints of two record files.

use crate::record::{self, Event, Form, Record, Settings};
use crate::refusal::Refusal;
use crate::summary::Summary;
use crate::text;

/// Records are compared unrolled, whichever form they have.
pub const FORM: Form = Form::Either;

/// One of the two files, by its place among the arguments.
#[derive(Clone, Copy, Debug, PartialEq, Eq)]
pub enum Side {
    First,
    Second,
}

/// What stands on standard output, and which file was refused with what, if one was.
#[derive(Debug, PartialEq, Eq)]
pub struct Printed {
    pub text: String,
    pub refused: Option<(Side, Refusal)>,
}

impl Side {
    pub fn name(self) -> &'static str {
        match self {
            Side::First => "first",
            Side::Second => "second",
        }
    }
}

/// "Refusals: as for one record, the first file's before the second's."
pub fn compare(first: &[u8], second: &[u8]) -> Printed {
    match (record::read(first, FORM), record::read(second, FORM)) {
        (Err(refusal), _) => refused(Side::First, refusal),
        (_, Err(refusal)) => refused(Side::Second, refusal),
        (Ok(first), Ok(second)) => Printed {
            text: differences(&first, &second) + &summaries(&first, &second),
            refused: None,
        },
    }
}

/// "A refusal prints only `refused N` there".
fn refused(side: Side, refusal: Refusal) -> Printed {
    Printed {
        text: text::show(Err(refusal)),
        refused: Some((side, refusal)),
    }
}

/// "Settings that differ are printed first; the events are compared all the same".
/// "prints, in event order, each place where kind or number differs, with both values;
/// then the events that only the longer one has".
fn differences(first: &Record, second: &Record) -> String {
    let mut lines = settings(&first.settings, &second.settings);
    let both = first.events.iter().zip(&second.events);
    for (place, (one, other)) in both.enumerate() {
        if one != other {
            lines += &format!("event {place}: {}, {}\n", show(*one), show(*other));
        }
    }
    lines += &surplus(Side::First, &first.events, second.events.len());
    lines += &surplus(Side::Second, &second.events, first.events.len());
    lines
}

/// `mtu A, B`; `loLimit A, B`; `hiLimit A, B`: "that setting differs".
fn settings(first: &Settings, second: &Settings) -> String {
    let pairs = [
        ("mtu", first.mtu, second.mtu),
        ("loLimit", first.lo_limit, second.lo_limit),
        ("hiLimit", first.hi_limit, second.hi_limit),
    ];
    let differing = pairs.iter().filter(|(_, one, other)| one != other);
    differing
        .map(|(name, one, other)| format!("{name} {one}, {other}\n"))
        .collect()
}

/// `first only, event N: KIND NUMBER` or `second only, event N: KIND NUMBER`: "each
/// event that only the longer one has".
fn surplus(side: Side, events: &[Event], of_other: usize) -> String {
    let name = side.name();
    let beyond = events.iter().enumerate().skip(of_other);
    beyond
        .map(|(place, event)| format!("{name} only, event {place}: {}\n", show(*event)))
        .collect()
}

/// "KIND is `waiting`, `idle` or `send`."
fn show(event: Event) -> String {
    match event {
        Event::Waiting(amount) => format!("waiting {amount}"),
        Event::Idle(amount) => format!("idle {amount}"),
        Event::Send(size) => format!("send {size}"),
    }
}

/// "`first`, the six lines of `summarize`; `second`, its six lines | always; each under
/// its own settings".
fn summaries(first: &Record, second: &Record) -> String {
    let sides = [(Side::First, first), (Side::Second, second)];
    sides
        .iter()
        .map(|(side, record)| {
            let lines = text::show(Summary::of_record(record));
            format!("{}\n{lines}", side.name())
        })
        .collect()
}

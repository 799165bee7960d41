//! Records with runs in which one rule alone is broken.

use crate::item::{Item, Listed, MOST_IN_RUN};
use crate::make_runs;
use crate::random::Random;
use crate::record::{HEADER_LENGTH, MOST_EVENTS};

/// What is wrong with an item.
#[derive(Clone, Copy, Debug, PartialEq, Eq)]
pub enum Fault {
    /// A run has this number, of 2 bytes, behind so many bytes of it.
    Run(usize, u16),
    /// The same of an event.
    Event(usize, u16),
    /// The record ends behind so many bytes of a run.
    Cut(usize),
    /// A run of this count, where so many events are left to the million.
    Million(usize, u16),
}

/// A rule broken, and the number that it is refused with.
pub struct Broken {
    pub name: &'static str,
    pub fault: Fault,
    pub number: u8,
}

const fn broken(name: &'static str, fault: Fault) -> Broken {
    let number = match fault {
        Fault::Million(..) => 9,
        _ => 2,
    };
    Broken {
        name,
        fault,
        number,
    }
}

/// Where the length, the kind, the tick kind and the count stand.
const LENGTH: usize = 0;
const KIND: usize = 2;
const TICK_KIND: usize = 4;
const COUNT: usize = 8;

/// "a run that passes the million: 9"; "a tick kind other than 1 or 2, a count below 2: 2"; "cut
/// short, another length than its kind's, no known kind: 2".
pub const EVERY: &[Broken] = &[
    broken("a run of 2 passes by 1", Fault::Million(1, 2)),
    broken("a run of 3 passes by 1", Fault::Million(2, 3)),
    broken("a run of 65535 passes by 1", Fault::Million(65_534, 65_535)),
    broken("a run of 65535 passes by 65534", Fault::Million(1, 65_535)),
    broken("count 0", Fault::Run(COUNT, 0)),
    broken("count 1", Fault::Run(COUNT, 1)),
    broken("tick kind 0", Fault::Run(TICK_KIND, 0)),
    broken("tick kind 3", Fault::Run(TICK_KIND, 3)),
    broken("tick kind 4", Fault::Run(TICK_KIND, 4)),
    broken("tick kind 16", Fault::Run(TICK_KIND, 16)),
    broken("tick kind 257", Fault::Run(TICK_KIND, 257)),
    broken("tick kind 258", Fault::Run(TICK_KIND, 258)),
    broken("tick kind 65535", Fault::Run(TICK_KIND, 65_535)),
    broken("kind 4, length 0", Fault::Run(LENGTH, 0)),
    broken("kind 4, length 6", Fault::Run(LENGTH, 6)),
    broken("kind 4, length 9", Fault::Run(LENGTH, 9)),
    broken("kind 4, length 11", Fault::Run(LENGTH, 11)),
    broken("kind 4, length 14", Fault::Run(LENGTH, 14)),
    broken("kind 4, length 266", Fault::Run(LENGTH, 266)),
    broken("kind 4, length 2560", Fault::Run(LENGTH, 2_560)),
    broken("length 10, kind 0", Fault::Run(KIND, 0)),
    broken("length 10, kind 1", Fault::Run(KIND, 1)),
    broken("length 10, kind 2", Fault::Run(KIND, 2)),
    broken("length 10, kind 3", Fault::Run(KIND, 3)),
    broken("length 10, kind 5", Fault::Run(KIND, 5)),
    broken("length 10, kind 16", Fault::Run(KIND, 16)),
    broken("length 10, kind 260", Fault::Run(KIND, 260)),
    broken("length 10, kind 1024", Fault::Run(KIND, 1_024)),
    broken("an event of length 10", Fault::Event(LENGTH, 10)),
    broken("an event of kind 4", Fault::Event(KIND, 4)),
    broken("a run cut behind 1 byte", Fault::Cut(1)),
    broken("a run cut behind 2 bytes", Fault::Cut(2)),
    broken("a run cut behind 3 bytes", Fault::Cut(3)),
    broken("a run cut behind 4 bytes", Fault::Cut(4)),
    broken("a run cut behind 5 bytes", Fault::Cut(5)),
    broken("a run cut behind 6 bytes", Fault::Cut(6)),
    broken("a run cut behind 7 bytes", Fault::Cut(7)),
    broken("a run cut behind 8 bytes", Fault::Cut(8)),
    broken("a run cut behind 9 bytes", Fault::Cut(9)),
];

/// The bytes of a whole record, and the same with this fault alone.
pub fn make(random: &mut Random, fault: Fault) -> (Vec<u8>, Vec<u8>) {
    if let Fault::Million(left, count) = fault {
        let mut listed = make_runs::filled(random, MOST_EVENTS - left, count);
        let bytes = listed.to_bytes();
        let last = listed.items.len() - 1;
        listed.items[last].count = left as u16;
        return (listed.to_bytes(), bytes);
    }
    let listed = with_both(random);
    let (at, item) = any(random, &listed, !matches!(fault, Fault::Event(..)));
    let mut whole = listed.to_bytes();
    if let Fault::Cut(_) = fault {
        whole.truncate(at + item.length());
    }
    let mut bytes = whole.clone();
    spoil(&mut bytes, at, fault);
    (whole, bytes)
}

/// The bytes of a record in which one rule is broken, each in turn.
pub fn in_turn(random: &mut Random, turn: usize) -> Vec<u8> {
    make(random, EVERY[turn % EVERY.len()].fault).1
}

/// The bytes of a record whose last item has this fault, with so many events left to the million.
pub fn at_million(random: &mut Random, left: usize, fault: Fault) -> Vec<u8> {
    behind(random, MOST_EVENTS - left, fault)
}

/// The same behind so many ticks.
pub fn behind(random: &mut Random, events: usize, fault: Fault) -> Vec<u8> {
    let count = match fault {
        Fault::Event(..) => 1,
        Fault::Million(_, count) => count,
        _ => MOST_IN_RUN as u16,
    };
    let listed = make_runs::filled(random, events, count);
    let mut bytes = listed.to_bytes();
    let last = listed.items[listed.items.len() - 1];
    let at = bytes.len() - last.length();
    spoil(&mut bytes, at, fault);
    bytes
}

/// Gives the item that begins here the fault.
fn spoil(bytes: &mut Vec<u8>, at: usize, fault: Fault) {
    match fault {
        Fault::Run(place, value) | Fault::Event(place, value) => {
            let place = at + place;
            bytes[place..place + 2].copy_from_slice(&value.to_le_bytes());
        }
        Fault::Cut(length) => bytes.truncate(at + length),
        Fault::Million(..) => {}
    }
}

/// A record with runs and events.
fn with_both(random: &mut Random) -> Listed {
    loop {
        let listed = make_runs::with_run(random);
        if listed.items.iter().any(|item| !item.is_run()) {
            return listed;
        }
    }
}

/// Any of the runs, or of the events, and where it begins.
fn any(random: &mut Random, listed: &Listed, run: bool) -> (usize, Item) {
    let mut at = HEADER_LENGTH;
    let mut found = Vec::new();
    for item in &listed.items {
        if item.is_run() == run {
            found.push((at, *item));
        }
        at += item.length();
    }
    random.pick(&found)
}

//! Random patterns and repeats: whole, damaged, and with one rule alone broken.

use crate::heartbeat::{self, most_repeats, MOST_IN_PATTERN};
use crate::item::{Item, Listed};
use crate::make;
use crate::make_broken;
use crate::make_runs;
use crate::random::Random;
use crate::record::{Event, Record, Settings};

/// The bytes of a pattern, and the repeats.
pub type Call = (Vec<u8>, u64);

/// A number of events, often one of the last that a pattern may have.
fn event_count(random: &mut Random) -> usize {
    let any = random.below(MOST_IN_PATTERN + 1);
    let few = random.below(12);
    random.pick(&[few, few, any, MOST_IN_PATTERN - 1, MOST_IN_PATTERN])
}

/// A waiting tick and a send of as much or a little more, among ticks of nothing. Where it is
/// more, the credit falls a little each round, until after many a send is not permitted.
fn draining(random: &mut Random, settings: &Settings) -> Vec<Event> {
    let size = random.between(17, i128::from(settings.mtu)) as u16;
    let less = random.pick(&[0, 1, 1, 2, 5, 16]);
    let mut events = vec![Event::Waiting(0); random.below(4)];
    events.extend([Event::Waiting(size - less), Event::Send(size)]);
    events.resize(events.len() + random.below(4), Event::Waiting(0));
    events
}

/// Events that are a pattern: mostly permitted in the first round.
fn events(random: &mut Random, settings: &Settings) -> Vec<Event> {
    let count = event_count(random);
    match random.below(8) {
        0 => make::mixed(random, settings, count),
        1 => make_runs::stretches(random, settings, MOST_IN_PATTERN),
        2 | 3 => draining(random, settings),
        _ => make::paced(random, settings, i128::from(settings.lo_limit), count),
    }
}

/// A waiting tick of 1, and perhaps one of nothing: so much below the largest hiLimit that the
/// credit rises up to the last of as many rounds as may be.
fn rising(random: &mut Random) -> Record {
    let mut settings = make::settings(random);
    settings.hi_limit = 1_048_576;
    let mut events = vec![Event::Waiting(1)];
    events.extend(random.one_in(4).then_some(Event::Waiting(0)));
    Record { settings, events }
}

/// One pattern in so many is such a one: to walk through it takes long.
const RISING_ONE_IN: usize = 500;

/// A whole pattern, in either form.
pub fn pattern(random: &mut Random) -> Listed {
    let record = match random.one_in(RISING_ONE_IN) {
        true => rising(random),
        false => {
            let settings = make::settings(random);
            let events = events(random, &settings);
            Record { settings, events }
        }
    };
    make_runs::split(random, &record)
}

/// The same of just so many events.
pub fn pattern_of(random: &mut Random, count: usize) -> Listed {
    let settings = make::settings(random);
    let events = match random.one_in(2) {
        true => make::paced(random, &settings, i128::from(settings.lo_limit), count),
        false => {
            let mut events = make_runs::stretches(random, &settings, count);
            events.resize(count, make_runs::tick(random));
            events
        }
    };
    make_runs::split(random, &Record { settings, events })
}

/// Repeats that are too many for a pattern of so many events, but where there are none. Some of
/// the products would be small if only their low 32 or 64 bits were kept.
fn past(random: &mut Random, events: usize) -> u64 {
    let events = events.max(1) as u64;
    let one_more = most_repeats(events as usize).saturating_add(1);
    let wraps = (u64::MAX / events).saturating_add(1);
    let low_wraps = (1 << 32) / events + 1;
    let any = random.word() | 1 << 40;
    let most = u64::MAX;
    random.pick(&[one_more, one_more, wraps, low_wraps, 1 << 63, any, most])
}

/// Repeats for this pattern: few, as many as may be, as many as are permitted or one more, too
/// many.
pub fn repeats(random: &mut Random, pattern: &Record) -> u64 {
    let events = pattern.events.len();
    let most = most_repeats(events);
    match random.below(12) {
        0 => 0,
        1 => 1,
        2 => random.below(20) as u64,
        3 => most,
        4 => past(random, events),
        5 | 6 => heartbeat::rounds(pattern, most).0,
        7 => heartbeat::rounds(pattern, most).0.saturating_add(1),
        8 => random.between(0, i128::from(most)) as u64,
        _ => random.between(0, i128::from(most.min(2_000))) as u64,
    }
}

/// A whole pattern, repeated.
pub fn whole(random: &mut Random) -> Call {
    let pattern = pattern(random);
    let repeats = repeats(random, &pattern.unrolled());
    (pattern.to_bytes(), repeats)
}

/// A pattern that is damaged, has too many events, a broken run or a setting near its range; or
/// none of these.
pub fn damaged(random: &mut Random) -> Call {
    let bytes = match random.below(6) {
        0 => make::damaged(random, 40),
        1 => make_runs::damaged(random),
        3 => {
            let settings = make::settings_near(random);
            let items = pattern(random).items;
            Listed { settings, items }.to_bytes()
        }
        2 => {
            let broken = random.pick(OF_RUNS);
            let left = random.below(4);
            make_broken::behind(random, MOST_IN_PATTERN - left, broken)
        }
        _ => {
            let mut bytes = pattern(random).to_bytes();
            make::damage(random, &mut bytes);
            bytes
        }
    };
    let any = random.word();
    let repeats = random.pick(&[0, 1, 2, 1_000, 3_906, 3_907, u64::MAX, any]);
    (bytes, repeats)
}

/// Any call: most are of whole patterns.
pub fn any(random: &mut Random) -> Call {
    match random.below(12) {
        0 | 1 => damaged(random),
        2 => {
            let (_, fault) = random.pick(EVERY);
            make(random, fault).1
        }
        _ => whole(random),
    }
}

/// Faults of a run that stand at the end of a pattern.
const OF_RUNS: &[make_broken::Fault] = &[
    make_broken::Fault::Run(0, 6),
    make_broken::Fault::Run(4, 3),
    make_broken::Fault::Run(8, 0),
    make_broken::Fault::Run(8, 1),
    make_broken::Fault::Run(8, 2),
    make_broken::Fault::Run(8, 3),
    make_broken::Fault::Event(4, 7),
    make_broken::Fault::Cut(9),
];

/// What is wrong with a call.
#[derive(Clone, Copy, Debug, PartialEq, Eq)]
pub enum Fault {
    /// Behind so many events an item of this count, where 256 would be the last: an event or a
    /// run.
    Item(usize, u16),
    /// So many bytes, of any value, behind 256 events.
    Bytes(usize),
    /// So many events, repeated so often.
    Repeats(usize, u64),
}

impl Fault {
    /// The number that it is refused with.
    pub fn number(self) -> u64 {
        match self {
            Fault::Item(..) | Fault::Bytes(_) => 3,
            Fault::Repeats(..) => 9,
        }
    }
}

/// "any byte (or a run) past the 256th event is 3"; "9 where repeats × events exceeds 1,000,000
/// (no overflow, whatever `repeats` is)". The last of the runs and of the repeats are those whose
/// events would be few in 8, 16, 32 or 64 bits.
pub const EVERY: &[(&str, Fault)] = &[
    ("a 257th event", Fault::Item(256, 1)),
    ("a run behind the 256th event", Fault::Item(256, 2)),
    ("a run of 2 passes by 1", Fault::Item(255, 2)),
    ("a run of 3 passes by 1", Fault::Item(254, 3)),
    ("a run of 3 passes by 2", Fault::Item(255, 3)),
    ("a run of 129 behind 128 events", Fault::Item(128, 129)),
    ("a run of 257", Fault::Item(0, 257)),
    ("a run of 258", Fault::Item(0, 258)),
    ("a run of 512", Fault::Item(0, 512)),
    ("a run of 65535", Fault::Item(0, 65_535)),
    ("a run of 65281 behind 255", Fault::Item(255, 65_281)),
    ("a run of 65535 behind 2", Fault::Item(2, 65_535)),
    ("a byte behind the 256th event", Fault::Bytes(1)),
    ("2 bytes behind the 256th event", Fault::Bytes(2)),
    ("5 bytes behind the 256th event", Fault::Bytes(5)),
    ("6 bytes behind the 256th event", Fault::Bytes(6)),
    ("11 bytes behind the 256th event", Fault::Bytes(11)),
    ("1000001 times 1", Fault::Repeats(1, 1_000_001)),
    ("333334 times 3", Fault::Repeats(3, 333_334)),
    ("62501 times 16", Fault::Repeats(16, 62_501)),
    ("3922 times 255", Fault::Repeats(255, 3_922)),
    ("3907 times 256", Fault::Repeats(256, 3_907)),
    ("2^64 - 1 times 1", Fault::Repeats(1, u64::MAX)),
    ("2^64 - 1 times 256", Fault::Repeats(256, u64::MAX)),
    ("2^24 times 256", Fault::Repeats(256, 1 << 24)),
    ("2^32 times 1", Fault::Repeats(1, 1 << 32)),
    ("2^56 times 256", Fault::Repeats(256, 1 << 56)),
    ("2^63 times 2", Fault::Repeats(2, 1 << 63)),
];

/// A call without a fault, and the same with this one alone.
pub fn make(random: &mut Random, fault: Fault) -> (Call, Call) {
    match fault {
        Fault::Item(before, count) => of_item(random, before, count),
        Fault::Bytes(count) => {
            let whole = pattern_of(random, MOST_IN_PATTERN).to_bytes();
            let bytes = [whole.clone(), random.bytes(count)].concat();
            let repeats = random.below(3_907) as u64;
            ((whole, repeats), (bytes, repeats))
        }
        Fault::Repeats(events, repeats) => {
            let bytes = pattern_of(random, events).to_bytes();
            ((bytes.clone(), most_repeats(events)), (bytes, repeats))
        }
    }
}

/// Behind so many events an item that leads to the 256th, or none, and one of this count.
fn of_item(random: &mut Random, before: usize, count: u16) -> (Call, Call) {
    let pattern = pattern_of(random, before);
    let event = make_runs::tick(random);
    let with = |count: u16| {
        let mut pattern = pattern.clone();
        pattern
            .items
            .extend((count > 0).then_some(Item { event, count }));
        pattern.to_bytes()
    };
    let repeats = random.below(3_907) as u64;
    let whole = with((MOST_IN_PATTERN - before) as u16);
    ((whole, repeats), (with(count), repeats))
}

/// These repeats as a word: plain, behind zeros, and for 2^64 − 1 any number that is taken for it.
pub fn word(random: &mut Random, repeats: u64) -> String {
    match random.below(4) {
        0 => "0".repeat(1 + random.below(30)) + &repeats.to_string(),
        1 if repeats == u64::MAX => format!("18446744073709551{}", 616 + random.below(300)),
        2 if repeats == u64::MAX => format!("{}{}", 1 + random.below(9), "0".repeat(25)),
        _ => repeats.to_string(),
    }
}

/// A word that is no number of repeats: one with a sign, a blank, a point, another digit.
pub fn no_number(random: &mut Random) -> String {
    let digits = random.below(2_000).to_string();
    let before = random.pick(&["", "+", "-", " ", "0x", "\u{ff11}", "a"]);
    let behind = random.pick(&[" ", "e3", ".", ",000", "\u{663}", "_", "k"]);
    match random.below(8) {
        0 => String::new(),
        1 => "-".to_string(),
        2 if !before.is_empty() => format!("{before}{digits}"),
        _ => format!("{before}{digits}{behind}"),
    }
}

//! Random records with runs: stretches of equal ticks, rolled in any way, and about a million
//! events in few items. Rooms for the movers.

use crate::item::{Item, Listed, MOST_IN_RUN};
use crate::make;
use crate::movers;
use crate::random::Random;
use crate::record::{Event, Record, Settings, MOST_EVENTS};

pub fn tick(random: &mut Random) -> Event {
    let amount = random.often_extreme(0, 65_535) as u16;
    random.pick(&[Event::Waiting, Event::Idle])(amount)
}

/// The same tick again, or one that is nearly the same: of the other kind, or of an amount that
/// has one bit other.
fn tick_beside(random: &mut Random, last: Event) -> Event {
    let bit = 1 << random.below(16);
    match (last, random.below(3)) {
        (Event::Waiting(amount), 0) => Event::Idle(amount),
        (Event::Idle(amount), 0) => Event::Waiting(amount),
        (Event::Waiting(amount), 1) => Event::Waiting(amount ^ bit),
        (Event::Idle(amount), 1) => Event::Idle(amount ^ bit),
        (same, _) => same,
    }
}

/// Stretches of equal events, as an idle shaper has them, and now and then a mixed one; at most so
/// many events.
pub fn stretches(random: &mut Random, settings: &Settings, most: usize) -> Vec<Event> {
    let mut events = Vec::new();
    for _ in 0..random.below(12) {
        if random.one_in(6) {
            let count = random.below(200);
            events.extend(make::mixed(random, settings, count));
        }
        let event = match (events.last(), random.below(5)) {
            (_, 0) => make::event(random, settings),
            (Some(last), 1 | 2) => tick_beside(random, *last),
            _ => tick(random),
        };
        let longest = random.pick(&[1, 2, 3, 4, 30, 300]);
        events.resize(events.len() + 1 + random.below(longest), event);
    }
    events.truncate(most);
    events
}

/// A whole record of such stretches.
pub fn record(random: &mut Random) -> Record {
    let settings = make::settings(random);
    let events = stretches(random, &settings, 1_000);
    Record { settings, events }
}

/// The runs longest, cut at one place, cut anywhere, or some of them gone.
pub fn split(random: &mut Random, record: &Record) -> Listed {
    let rolled = movers::rolled(record);
    match random.below(5) {
        0 => rolled,
        1 => cut_once(random, &rolled),
        2 => cut_anywhere(random, &rolled, 1),
        3 => cut_anywhere(random, &rolled, 3),
        _ => some_gone(random, &rolled),
    }
}

/// The same events, the ticks of some runs one by one.
fn some_gone(random: &mut Random, whole: &Listed) -> Listed {
    let mut items = Vec::new();
    for item in &whole.items {
        match random.one_in(2) {
            true => items.push(*item),
            false => items.resize(items.len() + item.events(), Item { count: 1, ..*item }),
        }
    }
    Listed { items, ..*whole }
}

/// The same events, the run of one place cut in two.
fn cut_once(random: &mut Random, whole: &Listed) -> Listed {
    let events = whole.events();
    let at = random.below(events + 1);
    joined(&whole.piece(0, at), &whole.piece(at, events))
}

/// The same events, one in so many items cut into parts of any count.
fn cut_anywhere(random: &mut Random, whole: &Listed, one_in: usize) -> Listed {
    let mut items = Vec::new();
    for item in &whole.items {
        let mut left = item.count;
        while left > 0 {
            let most = random.pick(&[1, 2, left]).min(left);
            let count = match random.one_in(one_in) {
                true => 1 + random.below(usize::from(most)) as u16,
                false => left,
            };
            items.push(Item { count, ..*item });
            left -= count;
        }
    }
    Listed { items, ..*whole }
}

fn joined(first: &Listed, second: &Listed) -> Listed {
    Listed {
        settings: first.settings,
        items: [&first.items[..], &second.items].concat(),
    }
}

/// A whole record of stretches, rolled in any way.
pub fn listed(random: &mut Random) -> Listed {
    let record = record(random);
    split(random, &record)
}

/// The same that has a run.
pub fn with_run(random: &mut Random) -> Listed {
    loop {
        let listed = listed(random);
        if listed.items.iter().any(|item| item.is_run()) {
            return listed;
        }
    }
}

/// The bytes of one that is damaged, or not.
pub fn damaged(random: &mut Random) -> Vec<u8> {
    let mut bytes = listed(random).to_bytes();
    make::damage(random, &mut bytes);
    bytes
}

/// A whole record of so many items, half of them runs of a few ticks.
pub fn long(random: &mut Random, items: usize) -> Listed {
    let settings = make::settings(random);
    let mut item = || {
        let run = random.one_in(2);
        Item {
            event: match run {
                true => tick(random),
                false => make::event(random, &settings),
            },
            count: match run {
                true => random.between(2, 40) as u16,
                false => 1,
            },
        }
    };
    let items = (0..items).map(|_| item()).collect();
    Listed { settings, items }
}

/// Numbers of equal ticks at the ends of the longest runs.
pub const LONG: [usize; 7] = [65_534, 65_535, 65_536, 65_537, 131_070, 131_071, 131_072];

/// A whole record with so many equal ticks among other events.
pub fn long_stretch(random: &mut Random, ticks: usize) -> Record {
    let settings = make::settings(random);
    let mut events = stretches(random, &settings, 20);
    let tick = tick(random);
    events.extend(vec![tick; ticks]);
    events.extend(stretches(random, &settings, 20));
    Record { settings, events }
}

/// So many ticks in runs of many, then one item of this count.
pub fn filled(random: &mut Random, events: usize, last: u16) -> Listed {
    let mut items = Vec::new();
    let mut left = events;
    while left > 0 {
        let most = left.min(MOST_IN_RUN);
        let count = most - random.pick(&[0, 0, 1, 2]).min(most - 1);
        items.push(Item {
            event: tick(random),
            count: count as u16,
        });
        left -= count;
    }
    items.push(Item {
        event: tick(random),
        count: last,
    });
    Listed {
        settings: make::settings(random),
        items,
    }
}

/// A whole record of a million events in few items.
pub fn million(random: &mut Random) -> Listed {
    let last = random.pick(&[1, 2, MOST_IN_RUN]);
    filled(random, MOST_EVENTS - last, last as u16)
}

/// Nearly a million events, exactly that, or more: the last item passes it, or stands behind it.
/// Perhaps bytes follow.
pub fn near_million(random: &mut Random) -> Vec<u8> {
    let last: usize = random.pick(&[1, 2, 3, MOST_IN_RUN - 1, MOST_IN_RUN]);
    let end = MOST_EVENTS + random.pick(&[0, 0, 1, 2, last, last + 1]) - 1;
    let mut bytes = filled(random, end - last, last as u16).to_bytes();
    if random.one_in(3) {
        let count = 1 + random.below(10);
        bytes.extend(random.bytes(count));
    }
    if random.one_in(4) {
        let at = bytes.len() - 1 - random.below(10);
        bytes[at] ^= 1 << random.below(8);
    }
    bytes
}

/// The sorts of room that bytes are moved into.
pub const ROOMS: [&str; 5] = [
    "no room",
    "a room of a byte less",
    "a room of less",
    "a room of as much",
    "a room of more",
];

/// The length of a room of this sort for so many bytes.
pub fn room(random: &mut Random, sort: usize, bytes: usize) -> usize {
    match sort {
        0 => 0,
        1 => bytes.saturating_sub(1),
        2 => random.below(bytes.max(1)),
        3 => bytes,
        _ => bytes + 1 + random.below(40),
    }
}

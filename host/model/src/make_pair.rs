//! Random pairs of record files, for `rpr compare`: alike but for one thing,
//! unlike, long, refused.

use crate::make;
use crate::make_broken;
use crate::make_runs;
use crate::random::Random;
use crate::record::{Event, Record, Settings, EVENT_LENGTH, HEADER_LENGTH, MOST_EVENTS};

/// The bytes of both files.
pub type Pair = (Vec<u8>, Vec<u8>);

/// A way to make pairs. The number says how often it was taken before: a way with a few
/// cases takes them in turn.
pub type Way = (&'static str, fn(&mut Random, usize) -> Pair);

/// The ways that a run takes in turn, again and again.
pub const WAYS: &[Way] = &[
    ("equal", equal),
    ("one kind other", |random, _| changed(random, other_kind)),
    ("one number other", |random, _| {
        changed(random, other_number)
    }),
    ("one event other", |random, _| changed(random, other_event)),
    ("an event inserted", inserted),
    ("an event cut", |random, turn| {
        swapped(inserted(random, turn))
    }),
    ("the tail cut", tail_cut),
    ("mtu other", |random, _| {
        one_setting(random, |settings, other| settings.mtu = other.mtu)
    }),
    ("loLimit other", |random, _| {
        one_setting(random, |settings, other| settings.lo_limit = other.lo_limit)
    }),
    ("hiLimit other", |random, _| {
        one_setting(random, |settings, other| settings.hi_limit = other.hi_limit)
    }),
    ("unlike", |random, _| (whole(random), whole(random))),
    ("the first refused", |random, turn| {
        (make::refused(random, turn), whole(random))
    }),
    ("the second refused", |random, turn| {
        (whole(random), make::refused(random, turn))
    }),
    ("both refused", |random, turn| {
        (
            make::refused(random, turn),
            make::refused(random, turn / make::FAULTS.len()),
        )
    }),
    ("empty", |random, turn| {
        by_turns(turn, Vec::new(), whole(random))
    }),
    ("header alone", header_alone),
    ("long", long),
    ("long, a fault at a window's end", long_fault),
];

/// The ways that are taken in turn with these: records with runs.
const IN_RUNS: &[Way] = &[
    ("runs in the first", |random, turn| {
        in_runs(random, turn, [true, false])
    }),
    ("runs in the second", |random, turn| {
        in_runs(random, turn, [false, true])
    }),
    ("runs in both", |random, turn| {
        in_runs(random, turn, [true, true])
    }),
    ("a broken run in the first", |random, turn| {
        (make_broken::in_turn(random, turn), whole(random))
    }),
    ("a broken run in the second", |random, turn| {
        (whole(random), make_broken::in_turn(random, turn))
    }),
    ("long, runs in both", long_runs),
    ("long in runs, a fault", |random, turn| {
        let (mut first, second) = long_runs(random, turn);
        make::damage(random, &mut first);
        by_turns(turn, first, second)
    }),
];

/// The ways that are taken once: records of a million events, and what may stand behind.
const MILLIONS: &[Way] = &[
    ("a million, equal", |random, _| twice(&million(random))),
    ("a million, every event other", million_other),
    ("a million, the other a header alone", |random, _| {
        let full = million(random);
        (full.to_bytes(), full.piece(0, 0).to_bytes())
    }),
    ("a million, the other all but the last", |random, _| {
        let full = million(random);
        (full.piece(0, MOST_EVENTS - 1).to_bytes(), full.to_bytes())
    }),
    ("an event over a million, first", |random, _| {
        (over(random, &Event::Idle(1).to_bytes()), whole(random))
    }),
    ("a byte over a million, second", |random, _| {
        (whole(random), over(random, &[0]))
    }),
    ("a fault behind the million, both", |random, _| {
        let kind = [EVENT_LENGTH as u8, 0, 4, 0, 0, 0];
        (
            over(random, &kind),
            over(random, &Event::Send(0).to_bytes()),
        )
    }),
    ("a fault behind the million, the other 2", |random, _| {
        (over(random, &Event::Send(0).to_bytes()), vec![0])
    }),
    ("a fault in the millionth and a byte", million_fault),
];
const MILLIONS_IN_RUNS: &[Way] = &[("a million in runs, the other unrolled", |random, _| {
    let runs = make_runs::million(random);
    (runs.to_bytes(), runs.unrolled().to_bytes())
})];

/// The ways that are taken in turn, and those that are taken once.
pub fn ways() -> [Vec<Way>; 2] {
    [vec![WAYS, IN_RUNS], vec![MILLIONS, MILLIONS_IN_RUNS]].map(|lists| lists.concat())
}

/// The program reads 30,000 bytes at a time: the header, 4,997 events and the front of one
/// more, and then 5,000 events each time. Plain C reads 5,000 behind the header. Lengths
/// beside the ends of these windows, and places at them.
const LENGTHS: [usize; 12] = [
    4_996, 4_997, 4_998, 4_999, 5_000, 5_001, 9_996, 9_997, 9_998, 10_000, 10_001, 15_000,
];
const ENDS: [usize; 9] = [0, 4_996, 4_997, 4_998, 4_999, 5_000, 9_997, 9_999, 10_000];

fn twice(record: &Record) -> Pair {
    (record.to_bytes(), record.to_bytes())
}

fn swapped((first, second): Pair) -> Pair {
    (second, first)
}

/// This one as the first file, as the second, as both, by turns.
fn by_turns(turn: usize, one: Vec<u8>, other: Vec<u8>) -> Pair {
    match turn % 3 {
        0 => (one, other),
        1 => (other, one),
        _ => (one.clone(), one),
    }
}

fn whole(random: &mut Random) -> Vec<u8> {
    make::some(random).to_bytes()
}

fn equal(random: &mut Random, _: usize) -> Pair {
    twice(&make::some(random))
}

type Change = fn(&mut Random, &Settings, Event) -> Event;

/// A record, and the same with one event changed.
fn changed(random: &mut Random, change: Change) -> Pair {
    let first = make::some(random);
    let mut second = first.clone();
    let place = random.below(first.events.len());
    second.events[place] = change(random, &first.settings, first.events[place]);
    (first.to_bytes(), second.to_bytes())
}

/// The same number under another kind.
fn other_kind(random: &mut Random, settings: &Settings, event: Event) -> Event {
    let (_, number) = event.parts();
    let kinds = [Event::Waiting, Event::Idle, Event::Send];
    let some = if settings.allows_size(u32::from(number)) {
        &kinds[..]
    } else {
        &kinds[..2]
    };
    loop {
        let other = random.pick(some)(number);
        if other != event {
            return other;
        }
    }
}

/// The same kind with another number.
fn other_number(random: &mut Random, settings: &Settings, event: Event) -> Event {
    loop {
        let other = make::event(random, settings);
        if other.parts().0 == event.parts().0 && other != event {
            return other;
        }
    }
}

fn other_event(random: &mut Random, settings: &Settings, event: Event) -> Event {
    loop {
        let other = make::event(random, settings);
        if other != event {
            return other;
        }
    }
}

/// The second has an event more, anywhere.
fn inserted(random: &mut Random, _: usize) -> Pair {
    let first = make::some(random);
    let mut second = first.clone();
    let place = random.below(first.events.len() + 1);
    let event = make::event(random, &first.settings);
    second.events.insert(place, event);
    (first.to_bytes(), second.to_bytes())
}

fn tail_cut(random: &mut Random, turn: usize) -> Pair {
    let longer = make::some(random);
    let shorter = longer.piece(0, random.below(longer.events.len()));
    let pair = (shorter.to_bytes(), longer.to_bytes());
    if turn % 2 == 1 {
        swapped(pair)
    } else {
        pair
    }
}

/// The same events under settings that differ in one alone. Sends fit the lesser mtu.
fn one_setting(random: &mut Random, take: fn(&mut Settings, &Settings)) -> Pair {
    loop {
        let first = make::settings(random);
        let mut second = first;
        take(&mut second, &make::settings(random));
        if second != first && second.valid() {
            let fitting = if first.mtu < second.mtu {
                first
            } else {
                second
            };
            let mut record = make::record_of(random, fitting, 60);
            record.settings = first;
            let bytes = record.to_bytes();
            record.settings = second;
            return (bytes, record.to_bytes());
        }
    }
}

fn header_alone(random: &mut Random, turn: usize) -> Pair {
    let record = make::some(random);
    by_turns(turn, record.piece(0, 0).to_bytes(), record.to_bytes())
}

/// Pieces of one record, the second with some events changed where windows end.
fn long(random: &mut Random, turn: usize) -> Pair {
    let record = make::mixed_record(random, LENGTHS[LENGTHS.len() - 1]);
    let length = LENGTHS[turn % LENGTHS.len()];
    let other = random.pick(&LENGTHS);
    let of_second = random.pick(&[length, other]);
    let mut second = record.piece(0, of_second);
    for place in ENDS.into_iter().chain([of_second - 1]) {
        if place < of_second && random.one_in(2) {
            second.events[place] = other_event(random, &record.settings, second.events[place]);
        }
    }
    (record.piece(0, length).to_bytes(), second.to_bytes())
}

/// One of two long files has a size out of range, a kind that is none or half an event
/// where a window ends.
fn long_fault(random: &mut Random, turn: usize) -> Pair {
    let (mut bytes, other) = long(random, LENGTHS.len() - 1);
    let at = HEADER_LENGTH + EVENT_LENGTH * random.pick(&ENDS);
    match turn % 3 {
        0 => bytes[at..at + EVENT_LENGTH].copy_from_slice(&Event::Send(15).to_bytes()),
        1 => bytes[at + 2] = 4,
        _ => bytes.truncate(at + 1 + random.below(EVENT_LENGTH - 1)),
    }
    if turn / 3 % 2 == 1 {
        (other, bytes)
    } else {
        (bytes, other)
    }
}

/// The same events but for one or a tail, by turns, each side's in runs of any sort or one by one.
fn in_runs(random: &mut Random, turn: usize, sides: [bool; 2]) -> Pair {
    let first = make_runs::with_run(random).unrolled();
    let mut second = first.clone();
    let place = random.below(first.events.len());
    match turn % 3 {
        0 => {}
        1 => second.events[place] = other_event(random, &first.settings, first.events[place]),
        _ => second.events.truncate(place),
    }
    let mut bytes = |record: &Record, runs: bool| match runs {
        true => make_runs::split(random, record).to_bytes(),
        false => record.to_bytes(),
    };
    (bytes(&first, sides[0]), bytes(&second, sides[1]))
}

/// The same events in two ways of runs, of more bytes than the program reads at a time.
fn long_runs(random: &mut Random, turn: usize) -> Pair {
    let first = make_runs::long(random, LENGTHS[turn % LENGTHS.len()]);
    let mut record = first.unrolled();
    let place = random.below(record.events.len());
    record.events[place] = other_event(random, &record.settings, record.events[place]);
    let second = make_runs::split(random, &record);
    (first.to_bytes(), second.to_bytes())
}

fn million(random: &mut Random) -> Record {
    make::mixed_record(random, MOST_EVENTS)
}

fn million_other(random: &mut Random, _: usize) -> Pair {
    let first = million(random);
    let mut second = first.clone();
    for event in &mut second.events {
        *event = other_event(random, &first.settings, *event);
    }
    (first.to_bytes(), second.to_bytes())
}

/// A record of a million events, and these bytes behind it.
fn over(random: &mut Random, behind: &[u8]) -> Vec<u8> {
    [&million(random).to_bytes()[..], behind].concat()
}

/// The fault in the last event comes before the byte behind it.
fn million_fault(random: &mut Random, _: usize) -> Pair {
    let mut bytes = over(random, &[0]);
    let at = HEADER_LENGTH + EVENT_LENGTH * (MOST_EVENTS - 1);
    bytes[at..at + EVENT_LENGTH].copy_from_slice(&Event::Send(15).to_bytes());
    (whole(random), bytes)
}

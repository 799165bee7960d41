//! The movers, by the sentences of the request: "A mover turns an old record into the new form,
//! from the front, always taking the longest run it can, and back."

mod items;

use items::bytes;
use model::host::{roll, unroll};
use model::item::{Item, Listed};
use model::make;
use model::make_runs;
use model::movers;
use model::random::Random;
use model::record::{read_items, Event, Form, Record, Settings, MOST_EVENTS};

const SETTINGS: Settings = Settings {
    mtu: 64,
    lo_limit: 100,
    hi_limit: 300,
};

fn record(events: &[Event]) -> Record {
    let (settings, events) = (SETTINGS, events.to_vec());
    Record { settings, events }
}

fn listed(bytes: &[u8]) -> Listed {
    read_items(bytes, Form::Either).unwrap()
}

/// The events and counts that a record rolls to.
fn counts(record: &Record) -> Vec<(Event, u16)> {
    let rolled = movers::roll(&record.to_bytes()).unwrap();
    let items = listed(&rolled).items.into_iter();
    items.map(|item| (item.event, item.count)).collect()
}

#[test]
fn bytes_worked_out_by_hand() {
    for (old, new) in [
        ("", ""),
        ("060002003200", "060002003200"),
        ("060002003200 060002003200", "0a000400020032000200"),
        (
            "060001009600 060001009600 060001009600",
            "0a000400010096000300",
        ),
        ("060003003c00 060003003c00", "060003003c00 060003003c00"),
        ("060001003200 060002003200", "060001003200 060002003200"),
        ("060001003200 060001003300", "060001003200 060001003300"),
        ("060001003200 060001003201", "060001003200 060001003201"),
        (
            "060001000100 060001000100 060002000100 060003003c00 060002000100 060002000100",
            "0a000400010001000200 060002000100 060003003c00 0a000400020001000200",
        ),
        (
            "060001000100 060003003c00 060001000100",
            "060001000100 060003003c00 060001000100",
        ),
    ] {
        assert_eq!(movers::roll(&bytes(old)), Ok(bytes(new)), "{old}");
        assert_eq!(movers::unroll(&bytes(new)), Ok(bytes(old)), "{new}");
    }
}

/// "at most 65,535; a tick left alone stays a plain tick"
#[test]
fn the_longest_runs_from_the_front() {
    let tick = Event::Idle(5);
    for (ticks, expected) in [
        (1, vec![1]),
        (2, vec![2]),
        (65_534, vec![65_534]),
        (65_535, vec![65_535]),
        (65_536, vec![65_535, 1]),
        (65_537, vec![65_535, 2]),
        (131_070, vec![65_535, 65_535]),
        (131_071, vec![65_535, 65_535, 1]),
        (131_072, vec![65_535, 65_535, 2]),
    ] {
        let expected: Vec<(Event, u16)> = expected.iter().map(|count| (tick, *count)).collect();
        assert_eq!(counts(&record(&vec![tick; ticks])), expected, "{ticks}");
        // A send before the ticks and another behind change nothing.
        let mut among = vec![tick; ticks];
        among.insert(0, Event::Send(16));
        among.push(Event::Send(16));
        let send = [(Event::Send(16), 1)];
        let expected = [&send[..], &expected, &send].concat();
        assert_eq!(counts(&record(&among)), expected, "{ticks}");
    }
    let sends = record(&vec![Event::Send(16); 70_000]);
    assert_eq!(counts(&sends), vec![(Event::Send(16), 1); 70_000]);
}

#[test]
fn a_million_equal_ticks() {
    let full = record(&vec![Event::Waiting(0); MOST_EVENTS]).to_bytes();
    let rolled = movers::roll(&full).unwrap();
    assert_eq!(rolled.len(), 14 + 16 * 10);
    let mut expected = vec![65_535; 15];
    expected.push(16_975);
    let found = listed(&rolled).items;
    let found: Vec<u16> = found.iter().map(|item| item.count).collect();
    assert_eq!(found, expected);
    assert_eq!(movers::unroll(&rolled), Ok(full.clone()));
    let over = |mut bytes: Vec<u8>| {
        bytes.push(0);
        bytes
    };
    let (full, rolled) = (over(full), over(rolled));
    assert_eq!(roll(&full, &[7; 200]), (9, vec![7; 200]));
    assert_eq!(roll(&rolled, &[7; 200]), (2, vec![7; 200]));
    assert_eq!(unroll(&rolled, &[7; 200]), (9, vec![7; 200]));
}

/// A record of stretches now and then, else of any sort.
fn any_record(random: &mut Random) -> Record {
    match random.one_in(3) {
        true => make::record(random, 60),
        false => make_runs::record(random),
    }
}

/// "Old to new to old gives the same bytes."
#[test]
fn old_to_new_to_old() {
    let mut random = Random::new(1);
    let mut shorter = 0;
    for _ in 0..5_000 {
        let old = any_record(&mut random).to_bytes();
        let new = movers::roll(&old).unwrap();
        assert_eq!(movers::unroll(&new), Ok(old.clone()));
        assert!(new.len() <= old.len());
        assert!(listed(&new).longest());
        shorter += usize::from(new.len() < old.len());
    }
    assert!(shorter > 2_000, "{shorter}");
}

/// "New to old to new gives the same bytes exactly when the runs were already longest."
#[test]
fn new_to_old_to_new() {
    let mut random = Random::new(2);
    let (mut same, mut other) = (0, 0);
    for _ in 0..10_000 {
        let new = make_runs::listed(&mut random);
        let bytes = new.to_bytes();
        let again = movers::roll(&movers::unroll(&bytes).unwrap()).unwrap();
        assert_eq!(again == bytes, new.longest(), "{new:?}");
        match again == bytes {
            true => same += 1,
            false => other += 1,
        }
    }
    assert!(same > 2_000 && other > 2_000, "{same} {other}");
}

/// The same where runs are of 65,535 and just less.
#[test]
fn new_to_old_to_new_at_the_largest_count() {
    let tick = |event, count| Item { event, count };
    let same = Event::Idle(3);
    for (first, second, expected) in [
        (65_535, 65_535, true),
        (65_535, 2, true),
        (65_535, 1, true),
        (65_534, 1, false),
        (65_534, 65_535, false),
        (2, 65_535, false),
        (1, 65_535, false),
        (1, 1, false),
    ] {
        for (other, expected) in [
            (same, expected),
            (Event::Idle(4), true),
            (Event::Waiting(3), true),
        ] {
            let items = vec![tick(same, first), tick(other, second)];
            let settings = SETTINGS;
            let new = Listed { settings, items };
            let bytes = new.to_bytes();
            let again = movers::roll(&movers::unroll(&bytes).unwrap()).unwrap();
            assert_eq!(again == bytes, expected, "{first} {second} {other:?}");
            assert_eq!(new.longest(), expected, "{first} {second} {other:?}");
        }
    }
}

/// Each way to write these events as items.
fn every_way(events: &[Event]) -> Vec<Vec<Item>> {
    let Some(event) = events.first() else {
        return vec![Vec::new()];
    };
    let equal = events.iter().take_while(|next| *next == event).count();
    let most = match event {
        Event::Send(_) => 1,
        _ => equal,
    };
    let mut ways = Vec::new();
    for count in 1..=most {
        for rest in every_way(&events[count..]) {
            let (event, count) = (*event, count as u16);
            ways.push([&[Item { event, count }], &rest[..]].concat());
        }
    }
    ways
}

/// Of all ways to write a record the mover takes the one that has the longer run at the first
/// item where another differs; it is the only one whose runs are longest. Every record of up to 7
/// events.
#[test]
fn the_way_with_the_longest_runs() {
    let kinds = [Event::Waiting(0), Event::Idle(0), Event::Send(16)];
    for number in 0..=7 {
        for code in 0..kinds.len().pow(number) {
            let places = (0..number).map(|place| code / kinds.len().pow(place) % kinds.len());
            let events: Vec<Event> = places.map(|kind| kinds[kind]).collect();
            let settings = SETTINGS;
            let ways = every_way(&events).into_iter();
            let ways: Vec<Listed> = ways.map(|items| Listed { settings, items }).collect();
            let counts = |way: &Listed| way.items.iter().map(|item| item.count).collect::<Vec<_>>();
            let first = ways.iter().max_by_key(|way| counts(way)).unwrap();
            let rolled = movers::roll(&record(&events).to_bytes());
            assert_eq!(rolled, Ok(first.to_bytes()), "{events:?}");
            let longest: Vec<&Listed> = ways.iter().filter(|way| way.longest()).collect();
            assert_eq!(longest, [first], "{events:?}");
        }
    }
}

//! Reading records: the refusals and their order.

use model::make;
use model::random::Random;
use model::record::{read, Event, Form, Record, Settings, MOST_EVENTS};
use model::refusal::Refusal;

fn record(mtu: u32, lo_limit: u32, hi_limit: u32, events: &[Event]) -> Vec<u8> {
    let settings = Settings {
        mtu,
        lo_limit,
        hi_limit,
    };
    let events = events.to_vec();
    Record { settings, events }.to_bytes()
}

fn refusal(bytes: &[u8]) -> u8 {
    read(bytes, Form::Either).err().map_or(0, Refusal::number)
}

fn joined(first: &[u8], second: &[u8]) -> Vec<u8> {
    [first, second].concat()
}

#[test]
fn settings_at_the_ends_of_their_ranges() {
    for (mtu, lo, hi) in [
        (64, 64, 65),
        (64, 65_536, 65_537),
        (9_216, 9_216, 9_217),
        (9_216, 65_536, 1_048_576),
    ] {
        assert_eq!(refusal(&record(mtu, lo, hi, &[])), 0);
    }
    for (mtu, lo, hi) in [
        (63, 64, 65),
        (9_217, 9_217, 9_218),
        (64, 63, 65),
        (64, 65_537, 65_538),
        (64, 64, 64),
        (64, 64, 1_048_577),
        (64, u32::MAX, 0),
        (0, 0, 0),
    ] {
        assert_eq!(refusal(&record(mtu, lo, hi, &[])), 1);
    }
}

#[test]
fn every_cut_is_2_but_between_events() {
    let whole = record(64, 100, 300, &[Event::Waiting(1), Event::Send(16)]);
    for length in 0..=whole.len() {
        let between = length >= 14 && (length - 14) % 6 == 0;
        let expected = if between { 0 } else { 2 };
        assert_eq!(refusal(&whole[..length]), expected, "{length} bytes");
    }
}

#[test]
fn headers_and_events_of_another_length_or_kind() {
    let whole = record(64, 100, 300, &[Event::Waiting(1)]);
    for (at, values) in [
        (0, vec![0, 6, 13, 15]),
        (1, vec![1]),
        (2, vec![0, 1, 3, 15, 17]),
        (3, vec![1]),
        (14, vec![0, 5, 7, 14]),
        (15, vec![1]),
        (16, vec![0, 4, 5, 16]),
        (17, vec![1]),
    ] {
        for value in values {
            let mut bytes = whole.clone();
            bytes[at] = value;
            assert_eq!(refusal(&bytes), 2, "byte {at} is {value}");
        }
    }
    assert_eq!(refusal(&joined(&whole, &whole)), 2);
}

#[test]
fn frame_sizes() {
    for (size, expected) in [(0, 3), (15, 3), (16, 0), (64, 0), (65, 3), (65_535, 3)] {
        assert_eq!(
            refusal(&record(64, 100, 300, &[Event::Send(size)])),
            expected
        );
    }
}

#[test]
fn the_earliest_fault_counts() {
    let size = Event::Send(15).to_bytes();
    let kind = [6, 0, 4, 0, 0, 0];
    let good = record(64, 100, 300, &[Event::Idle(5)]);
    assert_eq!(refusal(&[&good[..], &size, &kind].concat()), 3);
    assert_eq!(refusal(&[&good[..], &kind, &size].concat()), 2);
    assert_eq!(refusal(&joined(&record(63, 100, 300, &[]), &kind)), 1);
    assert_eq!(refusal(&joined(&record(63, 100, 300, &[]), &size)), 1);
}

#[test]
fn a_million_events_and_no_byte_more() {
    let full = record(64, 100, 300, &vec![Event::Waiting(1); MOST_EVENTS]);
    assert_eq!(read(&full, Form::Either).unwrap().events.len(), MOST_EVENTS);
    assert_eq!(refusal(&joined(&full, &[0])), 9);
    assert_eq!(refusal(&joined(&full, &Event::Send(16).to_bytes())), 9);
    assert_eq!(refusal(&joined(&full, &Event::Send(15).to_bytes())), 9);
    let mut early = joined(&full, &[0]);
    early[14 + 6 * 5 + 2] = 9;
    assert_eq!(refusal(&early), 2);
    let mut last = joined(&full, &[0]);
    let at = full.len() - 6;
    last[at..at + 6].copy_from_slice(&Event::Send(15).to_bytes());
    assert_eq!(refusal(&last), 3);
    assert_eq!(refusal(&full[..full.len() - 1]), 2);
}

#[test]
fn a_written_record_reads_back() {
    let mut random = Random::new(1);
    for _ in 0..2_000 {
        let record = make::record(&mut random, 60);
        assert_eq!(read(&record.to_bytes(), Form::Either), Ok(record));
    }
}

#[test]
fn damaged_records_reach_each_refusal() {
    let mut random = Random::new(2);
    let mut reached = [0; 16];
    for _ in 0..5_000 {
        reached[usize::from(refusal(&make::damaged(&mut random, 40)))] += 1;
    }
    for number in [0, 1, 2, 3] {
        assert!(reached[number] > 100, "{number}: {}", reached[number]);
    }
}

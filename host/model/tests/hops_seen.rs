//! What a run must have seen of hops and the ring.

use model::hops::{every_alone, Hops};
use model::make_call::{self, Habit};
use model::make_station;
use model::random::Random;
use model::station::range::every_fault;
use model::station::Station;
use model::station_call::Call;
use std::collections::BTreeSet;

/// What is seen in a call.
fn seen(station: &Station, call: Call) -> Vec<String> {
    let mut hops = Hops::default();
    let mut sights = hops.missing();
    let mut after = station.clone();
    let (answer, _) = call.apply(&mut after, &call.other_slice(0));
    hops.look(&after, &call, answer);
    let missing = hops.missing();
    sights.retain(|sight| !missing.contains(sight));
    sights
}

/// The same, on a fresh station of a ring of so many.
fn seen_on(stations: u32, call: Call) -> Vec<String> {
    seen(&make_station::station(&[(30, stations)]), call)
}

fn none() -> Vec<String> {
    Vec::new()
}

#[test]
fn what_is_seen_in_offers() {
    let transit = |size: u64, hops: u64| Call::Transit([1, size, hops, 0]);
    let edge = "transit frame taken with the most hops, on";
    for (stations, ring) in [
        (2, "a ring of 2"),
        (6, "another ring"),
        (63, "a ring of 63"),
    ] {
        let most = u64::from(stations) - 1;
        assert_eq!(
            seen_on(stations, transit(16, most)),
            [format!("{edge} {ring}")]
        );
        let more = format!("transit frame refused with one hop more, on {ring}");
        let more = [more, "13 alone".to_string()];
        assert_eq!(seen_on(stations, transit(16, most + 1)), more);
    }
    assert_eq!(seen_on(6, transit(16, 4)), none());
    assert_eq!(seen_on(6, transit(16, 7)), ["13 alone"]);
    assert_eq!(seen_on(6, transit(15, 7)), ["3 before 13: transit frame"]);
    assert_eq!(seen_on(6, transit(15, 64)), none());
    let client = |class: u64| seen_on(6, Call::Client([class, 16, 6]));
    let more = "client frame refused with one hop more, on another ring";
    assert_eq!(client(0), [more, "13 before 6"]);
    assert_eq!(client(3), ["3 before 13: client frame"]);
    let mut full = make_station::station(&[(20, 64), (30, 6)]);
    assert_eq!(transit(64, 5).apply(&mut full, &[]).0, 0);
    Call::Transit([0, 64, 5, 0]).apply(&mut full, &[]);
    assert_eq!(seen(&full, Call::Transit([0, 16, 7, 0])), ["13 before 4"]);
}

#[test]
fn what_is_seen_in_fairness_frames() {
    let hear = |ttl: u8, base: u8, last: u8, rate: [u8; 2]| {
        let [high, low] = rate;
        Call::Hear(vec![ttl, base, 2, 0, 0x5e, 0, 0, last, 0, 0, high, low])
    };
    let most = seen_on(63, hear(194, 0xa0, 2, [0, 5]));
    let edge = "fairness frame taken with the most hops, on a ring of 63";
    assert_eq!(most, [edge]);
    let full = seen_on(63, hear(193, 0xa0, 2, [255, 255]));
    let edge = "FULL_RATE frame refused with one hop more, on a ring of 63";
    assert_eq!(full, [edge, "13 alone"]);
    let own = seen_on(2, hear(254, 0xa0, 1, [0, 5]));
    let edge = "fairness frame refused with one hop more, on a ring of 2";
    assert_eq!(own, [edge, "13 before 11"]);
    let other_ringlet = seen_on(6, hear(200, 0x20, 2, [0, 5]));
    assert_eq!(other_ringlet, ["2 before 13: fairness frame"]);
    assert_eq!(seen_on(6, hear(192, 0xa0, 2, [0, 5])), none());
    assert_eq!(seen_on(6, Call::Hear(vec![250])), none());
}

/// What is seen where a station tells.
#[test]
fn what_is_seen_in_what_is_told() {
    let mut station = make_station::station(&[(30, 6)]);
    let tell = |station: &Station| seen(station, Call::Tell(12));
    assert_eq!(tell(&station), none());
    station.downstream_congested = true;
    let heard = |station: &mut Station, hops: u64, rate: u64| {
        station.received.ttl = 256 - hops;
        station.received.rate = rate;
    };
    heard(&mut station, 5, 7);
    assert_eq!(
        tell(&station),
        ["FULL_RATE told at the last hop, on another ring"]
    );
    heard(&mut station, 4, 7);
    assert_eq!(
        tell(&station),
        ["received rate told one hop before the last, on another ring"]
    );
    heard(&mut station, 3, 7);
    assert_eq!(tell(&station), none());
    station.locally_congested = true;
    station.own_rate = 7;
    heard(&mut station, 5, 7);
    assert_eq!(tell(&station), ["own rate told at the last hop"]);
    heard(&mut station, 5, 6);
    assert_eq!(
        tell(&station),
        ["FULL_RATE told at the last hop, congested both ways"]
    );
}

/// Random calls on random stations see all that must be seen.
#[test]
fn random_calls_see_all() {
    let mut random = Random::new(17);
    let mut hops = Hops::default();
    assert_eq!(hops.missing().len(), 3 * 9 + 2 + 2 + 3 + 6);
    for _ in 0..300 {
        let mut station = make_station::of(make_station::settings(&mut random));
        let habit = Habit::new(&mut random);
        for _ in 0..500 {
            let call = make_call::call(&mut random, &station, &habit);
            let (answer, _) = call.apply(&mut station, &call.other_slice(0));
            hops.look(&station, &call, answer);
        }
    }
    assert_eq!(hops.missing(), none());
}

/// What must be broken alone: the rules about the ring, and each place where one may be.
#[test]
fn what_is_broken_alone() {
    let names = every_fault();
    let mut rules = vec!["stations below", "stations above", "receivedTtl below"];
    rules.extend(["control hops above", "primary hops above"]);
    rules.extend(["secondary hops above", "stage hops above"]);
    assert!(rules.iter().all(|rule| names.contains(&rule.to_string())));
    let all = every_alone();
    assert_eq!(all.len(), 4 + 3 * 5 + 1 + 2);
    assert_eq!(BTreeSet::from_iter(&all).len(), all.len());
}

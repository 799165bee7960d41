//! What a run must have seen of the methods.

use model::make_call::{self, Habit};
use model::make_method;
use model::make_station;
use model::methods::Methods;
use model::random::Random;
use model::station::method::Row;
use model::station::Station;
use model::station_call::Call;

/// What is seen in a call.
fn seen(station: &Station, call: Call) -> Vec<String> {
    let mut methods = Methods::default();
    let mut sights = methods.missing();
    methods.look(station, &call);
    let missing = methods.missing();
    sights.retain(|sight| !missing.contains(sight));
    sights
}

/// A congested station with this localFairRate, so many intervals after the last change.
fn congested(test: bool, fair: u64, since: u64) -> Station {
    let mut station = make_station::station(&[(31, 1)]);
    Call::Transit([1, 64, 1, 0]).apply(&mut station, &[]);
    station.settings.low_threshold = if test { 0 } else { 64 };
    station.locally_congested = true;
    station.local_fair_rate = fair;
    station.since = since;
    station
}

fn aged(test: bool, fair: u64, since: u64) -> Vec<String> {
    seen(&congested(test, fair, since), Call::Age)
}

const HOLD: &str = "Hold, with a round trip of 3 intervals";
const DOWN: &str = "Down, with a round trip of 3 intervals";
const UP: [&str; 2] = ["Up, with a round trip of 3 intervals", "Up, with rampUp 64"];
const LEAVE: [&str; 2] = [
    "Leave, with a round trip of 3 intervals",
    "Leave, with rampUp 64",
];

/// The sights of an interval, in any order.
fn sees(sights: Vec<String>, expected: &[&str]) {
    let mut sights: Vec<&str> = sights.iter().map(|sight| &sight[..]).collect();
    let mut expected = expected.to_vec();
    sights.sort_unstable();
    expected.sort_unstable();
    assert_eq!(sights, expected);
}

#[test]
fn what_is_seen_while_the_test_is_false() {
    let with = |row: [&'static str; 2], edge: &'static str| [row[0], row[1], edge];
    sees(
        aged(false, 10_000, 0),
        &with(LEAVE, "left at unreservedRate itself"),
    );
    let early = "left at rampUp - 1 below, before the time had passed";
    sees(aged(false, 9_937, 1), &with(LEAVE, early));
    let late = "left at rampUp - 1 below, when the time had passed";
    sees(aged(false, 9_937, 2), &with(LEAVE, late));
    sees(aged(false, 9_938, 0), &LEAVE);
    let at = "held at rampUp below, before the time had passed";
    sees(aged(false, 9_936, 0), &[HOLD, at]);
    let nearly = "held one interval before the time had passed, the test false";
    sees(aged(false, 9_936, 1), &[HOLD, at, nearly]);
    sees(aged(false, 9_936, 2), &with(UP, "raised at rampUp below"));
    let past = "held at rampUp + 1 below, before the time had passed";
    sees(aged(false, 9_935, 0), &[HOLD, past]);
    sees(
        aged(false, 9_935, 2),
        &with(UP, "raised at rampUp + 1 below"),
    );
    sees(aged(false, 5_000, 2), &UP);
}

#[test]
fn what_is_seen_while_the_test_is_true() {
    let by = "Down, with rampDn 64";
    sees(aged(true, 5_000, 0), &[HOLD]);
    let nearly = "held one interval before the time had passed, the test true";
    sees(aged(true, 5_000, 1), &[HOLD, nearly]);
    sees(aged(true, 5_000, 2), &[DOWN, by]);
    let near = "held less than rampUp below, the test true";
    sees(aged(true, 9_937, 0), &[HOLD, near]);
    let lowered = "lowered less than rampUp below";
    sees(aged(true, 9_937, 2), &[DOWN, by, lowered]);
    let from = "lowered from unreservedRate";
    sees(aged(true, 10_000, 2), &[DOWN, by, lowered, from]);
    sees(aged(true, 0, 2), &[DOWN, "lowered from 0"]);
    sees(aged(true, 63, 2), &[DOWN, "lowered by 0, from rampDn - 1"]);
    sees(aged(true, 64, 2), &[DOWN, by, "lowered by 1, from rampDn"]);
}

#[test]
fn what_is_seen_while_not_congested() {
    let mut station = congested(true, 10_000, 0);
    station.locally_congested = false;
    let enter = "Enter, with a round trip of 3 intervals";
    for (rate, edge) in [
        (9_999, "1 less than unreservedRate"),
        (10_000, "unreservedRate"),
        (10_001, "1 more than unreservedRate"),
    ] {
        station.counters.add = rate;
        station.stored.add = 64 * rate;
        let edge = format!("entered where lpAddRate is {edge}");
        sees(seen(&station, Call::Age), &[enter, &edge]);
    }
    station.stored.add = 0;
    station.since = 1;
    sees(
        seen(&station, Call::Age),
        &[enter, "entered where since was not 0"],
    );
    station.settings.low_threshold = 64;
    let rest = "Rest, with a round trip of 3 intervals";
    sees(
        seen(&station, Call::Age),
        &[rest, "not congested where since was not 0"],
    );
    station.settings.round_trip = 1_000;
    station.since = 0;
    let rest = "Rest, with a round trip of 1,000 intervals";
    sees(seen(&station, Call::Age), &[rest]);
}

#[test]
fn what_is_seen_in_other_calls_and_of_the_other_method() {
    let told = "own rate told by the conservative method, the test false";
    sees(seen(&congested(false, 5_000, 0), Call::Tell(12)), &[told]);
    sees(seen(&congested(true, 5_000, 0), Call::Tell(12)), &[]);
    sees(seen(&congested(false, 5_000, 0), Call::Select), &[]);
    let aggressive = |since: u64, fair: u64| {
        let mut station = make_station::station(&[]);
        station.since = since;
        station.local_fair_rate = fair;
        seen(&station, Call::Age)
    };
    let some = "aggressive interval where since was not 0";
    let last = "aggressive interval where since was the round trip less 1";
    let above = "aggressive interval where localFairRate was above unreservedRate";
    sees(aggressive(0, 10_000), &[]);
    sees(aggressive(1, 10_000), &[some]);
    sees(aggressive(2, 10_000), &[some, last]);
    sees(aggressive(0, 10_001), &[above]);
}

/// Random calls on random stations, and intervals of stations made for the edges, see all.
#[test]
fn random_intervals_see_all() {
    let mut random = Random::new(34);
    let mut methods = Methods::default();
    assert_eq!(methods.missing().len(), 1 + 3 + 20 + 6 * 5 - 1 + 6 * 3);
    let mut rows = [0; 6];
    for _ in 0..400 {
        let words = make_station::settings(&mut random);
        let mut station = make_station::of(words);
        let mut habit = Habit::new(&mut random);
        for _ in 0..400 {
            if random.one_in(60) {
                habit = Habit::new(&mut random);
            }
            let call = make_call::call(&mut random, &station, &habit);
            methods.look(&station, &call);
            if call == Call::Age && words[31] == 1 {
                rows[station.row() as usize] += 1;
            }
            call.apply(&mut station, &call.other_slice(0));
            if random.one_in(10) {
                let edge = make_method::station(&mut random, &station);
                methods.look(&edge, &Call::Age);
                methods.look(&edge, &Call::Tell(12));
            }
        }
    }
    assert_eq!(methods.missing(), Vec::<String>::new());
    assert!(
        Row::ALL
            .map(|row| rows[row as usize])
            .iter()
            .all(|row| *row > 10),
        "{rows:?}"
    );
}

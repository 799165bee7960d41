//! What holds over any calls: changes apart, localFairRate within unreservedRate, and an
//! aggressive station that knows nothing of the other method.

use model::apart::{Apart, Shown};
use model::make_call::{self, Habit};
use model::make_damage;
use model::make_method;
use model::make_station;
use model::random::Random;
use model::station::aging::Rates;
use model::station::layout::{read, write};
use model::station::settings::Method;
use model::station::{calls, Station};
use model::station_call::Call;

/// A fresh conservative station that holds a frame, so that the threshold decides the test.
fn small(round_trip: u32, unreserved: u32) -> Station {
    let mut station = make_station::station(&make_method::small(round_trip, unreserved));
    assert_eq!(calls::offer_transit(&mut station, 2, 16, 1, 0), 0);
    station
}

/// An interval with this test and this own rate.
fn interval(station: &mut Station, test: bool, add: u64) {
    station.settings.low_threshold = if test { 0 } else { 16 };
    station.counters.add = add;
    station.stored.add = 16 * add;
    station.age();
}

fn shown(station: &Station) -> Shown {
    let words = station.reading();
    Shown::of(|at| words[at])
}

/// Every order of 12 tests: a change while congested comes a round trip or more after the one
/// before, which may be entering or a step of 0.
#[test]
fn changes_apart() {
    let mut steps = [0; 2];
    for round_trip in 1..=5 {
        for (unreserved, add) in [(15, 9), (40, 17), (40, 90), (200, 100), (200, 0)] {
            let start = small(round_trip, unreserved);
            for order in 0..1_u32 << 12 {
                let mut station = start.clone();
                let mut apart = Apart::new(station.settings, shown(&station));
                let mut changed = 0;
                for at in 1..=12 {
                    let (flag, fair) = (station.locally_congested, station.local_fair_rate);
                    let test = order >> (at - 1) & 1 == 1;
                    interval(&mut station, test, add);
                    apart.go(test, shown(&station)).unwrap();
                    let both = flag && station.locally_congested;
                    if both && station.local_fair_rate != fair {
                        assert!(at - changed >= round_trip, "{order:b} {round_trip}");
                        steps[usize::from(station.local_fair_rate > fair)] += 1;
                    }
                    if station.since == 0 {
                        changed = at;
                    }
                }
            }
        }
    }
    assert!(steps.iter().all(|steps| *steps > 1_000), "{steps:?}");
}

/// Every small localFairRate, every time, both tests, congested and not: the table once more,
/// as a list of what must hold, and nothing above what is unreserved.
#[test]
fn every_small_number() {
    for round_trip in 1..=4 {
        for unreserved in [1, 15, 16, 17, 33, 70] {
            for fair in 0..=u64::from(unreserved) {
                for since in 0..u64::from(round_trip) {
                    for add in [0, 8, 16, 40, 100] {
                        let mut station = small(round_trip, unreserved);
                        station.local_fair_rate = fair;
                        station.since = since;
                        every_case(&station, add);
                    }
                }
            }
        }
    }
}

/// Both tests, congested and not.
fn every_case(lent: &Station, add: u64) {
    let (unreserved, fair) = (lent.settings.unreserved_rate, lent.local_fair_rate);
    let passed = lent.since == lent.settings.round_trip - 1;
    for (flag, test) in [(false, true), (false, false), (true, true), (true, false)] {
        let mut station = lent.clone();
        station.locally_congested = flag;
        interval(&mut station, test, add);
        let left = flag && !test && fair + 16 > unreserved;
        let entered = !flag && test;
        assert_eq!(station.locally_congested, entered || flag && !left);
        let step = flag && !left && passed;
        let expected = match (entered, left, step) {
            (true, _, _) => add.min(unreserved),
            (_, true, _) => unreserved,
            (_, _, true) if test => fair - fair / 16,
            (_, _, true) => fair + (unreserved - fair) / 16,
            _ => fair,
        };
        assert_eq!(station.local_fair_rate, expected);
        assert!(expected <= unreserved);
        let since = match (entered || left || step, flag) {
            (true, _) => 0,
            (false, true) => lent.since + 1,
            (false, false) => lent.since,
        };
        assert_eq!(station.since, since);
    }
}

/// A random station, fresh or lent far from there.
fn any(random: &mut Random, method: u32, wild: bool) -> Station {
    let mut words = make_station::settings(random);
    words[31] = method;
    let station = make_station::of(words);
    if !wild {
        return station;
    }
    let steps = make_damage::every_step();
    loop {
        let bytes = make_damage::wild(random, &write(&station), &steps);
        let wild = make_method::station(random, &read(&bytes).unwrap());
        if wild.settings.method as u32 == method {
            return wild;
        }
    }
}

/// "show that the conservative localFairRate never exceeds unreservedRate": over any calls, from
/// a start and lent. From a start a station that is not congested is at unreservedRate.
#[test]
fn never_above_what_is_unreserved() {
    let mut random = Random::new(21);
    let mut congested = 0;
    for at in 0..240 {
        let started = at % 2 == 0;
        let mut station = any(&mut random, 1, !started);
        let unreserved = station.settings.unreserved_rate;
        let habit = Habit::new(&mut random);
        for _ in 0..300 {
            let call = make_call::call(&mut random, &station, &habit);
            call.apply(&mut station, &call.other_slice(0));
            assert!(station.local_fair_rate <= unreserved);
            assert!(station.since < station.settings.round_trip);
            congested += u32::from(station.locally_congested);
            if started && !station.locally_congested {
                assert_eq!(station.local_fair_rate, unreserved);
            }
            assert_eq!(read(&write(&station)).as_ref(), Ok(&station));
        }
    }
    assert!(congested > 5_000, "{congested}");
}

/// Intervals of random lives from a start show what the method is for.
#[test]
fn lives_are_apart() {
    let mut random = Random::new(22);
    let mut steps = [0; 2];
    for _ in 0..400 {
        let mut station = any(&mut random, 1, false);
        let mut apart = Apart::new(station.settings, shown(&station));
        let mut habit = Habit::new(&mut random);
        for _ in 0..500 {
            if random.one_in(60) {
                habit = Habit::new(&mut random);
            }
            let call = make_call::call(&mut random, &station, &habit);
            let test = station.test();
            call.apply(&mut station, &call.other_slice(0));
            if call == Call::Age {
                apart.go(test, shown(&station)).unwrap();
            }
        }
        steps = [0, 1].map(|at| steps[at] + apart.steps[at]);
    }
    assert!(steps.iter().all(|steps| *steps > 50), "{steps:?}");
}

/// "the aggressive one neither reads nor changes it": two stations that differ in since alone, or
/// in the settings of the other method too, answer alike and end alike.
#[test]
fn an_aggressive_station_knows_nothing_of_since() {
    let mut random = Random::new(23);
    let mut ages = 0;
    for at in 0..240 {
        let mut one = any(&mut random, 0, at % 2 == 0);
        one.settings.round_trip = one.settings.round_trip.max(2);
        let mut other = one.clone();
        other.since = (one.since + 1) % one.settings.round_trip;
        if random.one_in(2) {
            other.settings.round_trip = 1_000;
            other.settings.ramp_dn = random.pick(&[16, 512]);
        }
        let kept = [&one, &other].map(|station| (station.since, station.settings));
        let habit = Habit::new(&mut random);
        for _ in 0..200 {
            let call = make_call::call(&mut random, &one, &habit);
            let room = call.other_slice(7);
            assert_eq!(call.apply(&mut one, &room), call.apply(&mut other, &room));
            ages += u32::from(call == Call::Age);
            assert_eq!(
                kept,
                [&one, &other].map(|after| (after.since, after.settings))
            );
            let alike = Station {
                since: one.since,
                settings: one.settings,
                ..other.clone()
            };
            assert_eq!(alike, one);
        }
    }
    assert!(ages > 3_000, "{ages}");
}

/// "With the other method chosen, document 01 holds unaltered": localFairRate jumps between
/// lpAddRate, above what is unreserved too, and unreservedRate.
#[test]
fn the_aggressive_method_is_unaltered() {
    let mut random = Random::new(24);
    let [mut calm, mut congested, mut above] = [0; 3];
    for _ in 0..2_000 {
        let mut station = any(&mut random, 0, true);
        assert_eq!(station.settings.method, Method::Aggressive);
        let test = station.secondary.bytes() > station.settings.low_threshold;
        station.age();
        let fair = match test {
            true => station.stored.add / station.settings.lp_coef,
            false => station.settings.unreserved_rate,
        };
        assert_eq!(
            (station.locally_congested, station.local_fair_rate),
            (test, fair)
        );
        calm += u32::from(!test);
        congested += u32::from(test);
        above += u32::from(fair > station.settings.unreserved_rate);
    }
    let counts = [calm, congested, above];
    assert!(counts.iter().all(|count| *count > 0), "{counts:?}");
}

/// A reading with this localFairRate, which is lpAddRate, the allowed rate and the own rate too.
fn at(congested: bool, fair: u64) -> Shown {
    Shown {
        add: fair,
        fair,
        allowed: fair,
        own: fair,
        congested,
    }
}

/// Whether a station from its start may show this, test by test: a round trip of 3, 100 unreserved.
fn may_show(steps: &[(bool, Shown)]) -> bool {
    let mut apart = Apart::new(small(3, 100).settings, at(false, 100));
    let mut go = |(test, next): &(bool, Shown)| apart.go(*test, *next).is_ok();
    steps.iter().all(&mut go)
}

/// A station that is congested when first seen may be lent: its time isn't known, nor judged.
#[test]
#[should_panic(expected = "is not shown")]
fn congested_when_first_seen() {
    Apart::new(small(3, 100).settings, at(true, 64));
}

/// A round trip after entering, steps by the part alone, in the direction of the test and not left
/// out.
#[test]
fn steps_that_are_not_apart() {
    let entered = (true, at(true, 64));
    let stepped = |test: bool, fair: u64| {
        let held = [entered; 3];
        may_show(&[&held[..], &[(test, at(true, fair))]].concat())
    };
    assert!(stepped(true, 60) && stepped(false, 66));
    assert!(!stepped(true, 64) && !stepped(false, 64));
    assert!(![59, 61, 65, 100].iter().any(|fair| stepped(true, *fair)));
    assert!(!stepped(false, 60));
    // An interval sooner.
    assert!(!may_show(&[entered, entered, (true, at(true, 60))]));
}

/// "so does a step of 0": from 15, which the test leaves at 15 a round trip after entering, the
/// rate is raised to 20 another one later, no sooner and no later.
#[test]
fn a_step_of_0_counts() {
    let raised_after = |held: usize| {
        let (low, calm) = ((true, at(true, 15)), (false, at(true, 15)));
        let steps = [&[low; 4][..], &vec![calm; held], &[(false, at(true, 20))]];
        may_show(&steps.concat())
    };
    let after = (0..7).filter(|held| raised_after(*held));
    assert!(after.eq([2]));
}

/// Entering at lpAddRate within what is unreserved, exactly where the test is true; leaving at 15
/// below but not at 16, to unreservedRate, not while the test is true; and rates that are not
/// localFairRate's.
#[test]
fn ways_in_and_out_that_are_none() {
    assert!(may_show(&[(true, at(true, 100))]));
    assert!(!may_show(&[(true, at(true, 101))]));
    let entered = |add: u64, fair: u64| {
        let next = at(true, fair);
        may_show(&[(true, Shown { add, ..next })])
    };
    assert!(entered(64, 64) && entered(0, 0) && entered(101, 100));
    assert!(!entered(63, 64) && !entered(65, 64) && !entered(101, 99) && !entered(64, 100));
    assert!(!may_show(&[(false, at(true, 64))]));
    assert!(!may_show(&[(true, at(false, 100))]));
    let near =
        |fair: u64, test: bool, next: Shown| may_show(&[(true, at(true, fair)), (test, next)]);
    assert!(near(85, false, at(false, 100)));
    assert!(!near(84, false, at(false, 100)) && !near(85, true, at(false, 100)));
    assert!(!near(85, false, at(true, 85)) && !near(85, false, at(false, 85)));
    for (allowed, own) in [(63, 64), (100, 64), (64, 65)] {
        let shown = Shown {
            allowed,
            own,
            ..at(true, 64)
        };
        assert!(!may_show(&[(true, shown)]));
    }
}

/// Stations made for the edges stay in range, whatever they are made of.
#[test]
fn stations_at_an_edge_are_in_range() {
    let mut random = Random::new(25);
    for at in 0..3_000 {
        let method = at % 2;
        let station = any(&mut random, method, at % 3 == 0);
        let mut edge = make_method::station(&mut random, &station);
        assert_eq!(read(&write(&edge)).as_ref(), Ok(&edge));
        edge.stored = Rates::default();
        assert_eq!(read(&write(&edge)).as_ref(), Ok(&edge));
    }
}

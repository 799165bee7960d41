//! Lent stations that break a rule of the methods, and how damage makes them.

mod lent;

use lent::{refused, sound, with};
use model::lent_call::apply;
use model::make_damage::{self, take, Step};
use model::make_station;
use model::methods::{alone, every_alone, taken};
use model::random::Random;
use model::station::layout::{
    put_word, read, setting, word, write, LOCAL_FAIR_RATE, SETTINGS, SINCE,
};
use model::station::range::{bounds, faults, in_range};
use model::station_call::Call;
use std::collections::BTreeSet;

/// A station of this method, with this round trip.
fn of_method(method: u32, round_trip: u32) -> Vec<u8> {
    write(&make_station::station(&[(31, method), (32, round_trip)]))
}

/// No call refuses them with 1.
fn accepted(bytes: &[u8]) {
    assert!(in_range(bytes), "{:?}", faults(bytes));
    for call in Call::one_of_each() {
        assert_ne!(
            apply(&call, bytes, &call.other_slice(7)).answer,
            1,
            "{call}"
        );
    }
}

/// "`since` is 0 to round trip − 1 in range, under both methods".
#[test]
fn since_with_each_round_trip() {
    for method in [0, 1] {
        for round_trip in (1..=20).chain([255, 256, 257, 999, 1_000]) {
            let bytes = of_method(method, round_trip);
            let round_trip = u64::from(round_trip);
            for since in [0, round_trip / 2, round_trip - 1] {
                accepted(&with(&bytes, SINCE, since));
            }
            for since in [round_trip, round_trip + 1, 1_000, 65_536, 0xffff_ffff] {
                refused(&with(&bytes, SINCE, since), "since");
            }
        }
    }
}

/// "the conservative localFairRate never exceeds unreservedRate (a lent one above it: 1)"; the
/// aggressive one is at most 2,147,483,647.
#[test]
fn the_fair_rate_with_each_method() {
    const MOST: u64 = 2_147_483_647;
    for unreserved in [1, 64, 10_000, 2_147_483_647] {
        for method in [0, 1] {
            let changes = [(26, unreserved), (31, method)];
            let bytes = write(&make_station::station(&changes));
            let most = match method {
                0 => MOST,
                _ => u64::from(unreserved),
            };
            for fair in [0, 1, u64::from(unreserved), most] {
                accepted(&with(&bytes, LOCAL_FAIR_RATE, fair));
            }
            for fair in [most + 1, MOST + 1, 0xffff_ffff] {
                refused(&with(&bytes, LOCAL_FAIR_RATE, fair), "localFairRate");
            }
            let above = with(&bytes, LOCAL_FAIR_RATE, u64::from(unreserved) + 1);
            let expected = method == 0 && u64::from(unreserved) < MOST;
            assert_eq!(in_range(&above), expected, "{unreserved} {method}");
        }
    }
}

/// A round trip, a method and an unreservedRate that the state no longer fits.
#[test]
fn settings_that_the_state_no_longer_fits() {
    let mut random = Random::new(31);
    let mut station = make_station::station(&[(32, 9)]);
    station.since = 5;
    station.local_fair_rate = 20_000;
    let aggressive = write(&station);
    accepted(&aggressive);
    let mut with = |bytes: &[u8], step: Step| {
        let mut bytes = bytes.to_vec();
        take(&mut random, &mut bytes, step);
        bytes
    };
    // The last ends of the round trip: 6, which still fits, and 5.
    accepted(&with(&aggressive, Step::Setting(32, 4)));
    refused(&with(&aggressive, Step::Setting(32, 5)), "since");
    let fitted = read(&with(&aggressive, Step::Fitted(32, 5))).unwrap();
    assert_eq!((fitted.settings.round_trip, fitted.since), (5, 4));
    // The method becomes the conservative one.
    refused(&with(&aggressive, Step::Setting(31, 0)), "localFairRate");
    let fitted = read(&with(&aggressive, Step::Fitted(31, 0))).unwrap();
    assert_eq!(fitted.local_fair_rate, 10_000);
    // What is unreserved, under both: localFairRate is 10,050, the allowed rates are 10,000.
    station.local_fair_rate = 10_050;
    station.settings.unreserved_rate = 11_000;
    for (method, fits) in [(0, true), (1, false)] {
        let mut bytes = write(&station);
        put_word(&mut bytes, SETTINGS + 4 * 31, method);
        accepted(&with(&bytes, Step::Setting(26, 8)));
        let less = with(&bytes, Step::Setting(26, 9));
        assert_eq!((setting(&less, 26), in_range(&less)), (10_049, fits));
        if !fits {
            refused(&less, "localFairRate");
        }
    }
}

/// What a step of the methods leaves out of range, the only thing; none where it is in range.
fn expected(step: Step, bytes: &[u8]) -> Option<Vec<&'static str>> {
    let most = setting(bytes, 26) == 2_147_483_647;
    Some(match step {
        Step::Method(_, 1 | 2) => vec!["since"],
        Step::Method(1, 4) => vec!["localFairRate"],
        Step::Method(0, 4) if most => vec!["localFairRate"],
        Step::Method(_, 5) => vec!["roundTrip below"],
        Step::Method(_, 6) => vec!["roundTrip above"],
        Step::Method(_, 7..) => vec!["rampDn"],
        Step::Method(..) => vec![],
        Step::Fitted(31, 1 | 3 | 5) => vec!["method above"],
        _ => return None,
    })
}

/// Each step of the methods breaks its rule alone, wherever it starts from, and all that must be
/// seen is.
#[test]
fn damage_that_breaks_one_rule() {
    let mut random = Random::new(32);
    let mut mosts = 0;
    let steps = make_damage::every_step();
    for station in sound(&mut random, 100) {
        let mut seen = BTreeSet::new();
        for step in &steps {
            let mut bytes = station.clone();
            take(&mut random, &mut bytes, *step);
            let Some(expected) = expected(*step, &bytes) else {
                continue;
            };
            let faults = faults(&bytes);
            assert_eq!(faults, expected, "{step:?}");
            match &faults[..] {
                [fault] => seen.extend(alone(&bytes, fault)),
                _ => seen.extend(taken(&bytes)),
            }
        }
        let mut missing = every_alone();
        missing.retain(|sight| !seen.contains(sight));
        // One more than the most that may be unreserved is no rate, by either method.
        let most = setting(&station, 26) == 2_147_483_647;
        let above = "localFairRate is 1 more than unreservedRate, aggressive";
        let expected: &[&str] = if most { &[above] } else { &[] };
        assert_eq!(missing, expected);
        mosts += u32::from(most);
    }
    assert!(mosts > 0);
}

/// What is seen of a fault: nothing where the number is another one, or the fault of no method.
#[test]
fn what_is_seen_alone() {
    let bytes = of_method(0, 3);
    assert_eq!(alone(&with(&bytes, SINCE, 4), "since"), None);
    assert_eq!(alone(&bytes, "creditM"), None);
    assert_eq!(taken(&bytes), None);
    let since = "since is the round trip, aggressive";
    assert_eq!(alone(&with(&bytes, SINCE, 3), "since").unwrap(), since);
    let fair = with(&of_method(1, 3), LOCAL_FAIR_RATE, 10_001);
    let above = "localFairRate is 1 more than unreservedRate, conservative";
    assert_eq!(alone(&fair, "localFairRate").unwrap(), above);
    // Past the most of all rates, which the aggressive method refuses too: no rule of the methods.
    let changes = [(26, 2_147_483_647), (31, 0)];
    let most = write(&make_station::station(&changes));
    let past = with(&most, LOCAL_FAIR_RATE, 2_147_483_648);
    assert_eq!(faults(&past), ["localFairRate"]);
    assert_eq!(alone(&past, "localFairRate"), None);
    let all = every_alone();
    assert_eq!(all.len(), 3 + 2 * (2 + 4 + 2 + 1));
    assert_eq!(BTreeSet::from_iter(&all).len(), all.len());
}

/// Stations made wild keep to the range, and come to its ends under both methods.
#[test]
fn wild_stations_come_to_the_ends() {
    let mut random = Random::new(33);
    let mut ends = [[0; 3]; 2];
    for bytes in sound(&mut random, 500) {
        let station = read(&bytes).unwrap();
        let method = station.settings.method as usize;
        let unreserved = station.settings.unreserved_rate;
        let last = station.settings.round_trip - 1;
        ends[method][0] += u32::from(last > 0 && station.since == last);
        ends[method][1] += u32::from(station.local_fair_rate == unreserved);
        ends[method][2] += u32::from(station.local_fair_rate > unreserved);
        assert_eq!(word(&bytes, SINCE), station.since);
    }
    assert!(ends[0].iter().all(|count| *count > 5), "{ends:?}");
    assert!(ends[1][..2].iter().all(|count| *count > 5), "{ends:?}");
    assert_eq!(ends[1][2], 0);
}

/// A setting that is out of range itself binds no other number to none.
#[test]
fn bounds_of_settings_out_of_range() {
    let bound = |bytes: &[u8], name: &str| {
        let bounds = bounds(bytes);
        let bound = bounds.iter().find(|bound| bound.name == name).unwrap();
        (bound.least, bound.most)
    };
    for (round_trip, most) in [(0, 0), (1, 0), (1_001, 1_000), (0xffff_ffff, 0xffff_fffe)] {
        let bytes = with(&of_method(0, 3), SETTINGS + 4 * 32, round_trip);
        assert_eq!(bound(&bytes, "since"), (0, most));
    }
    for (method, most) in [(0, 2_147_483_647), (1, 10_000), (2, 2_147_483_647)] {
        let bytes = with(&of_method(0, 3), SETTINGS + 4 * 31, method);
        assert_eq!(bound(&bytes, "localFairRate"), (0, most));
    }
}

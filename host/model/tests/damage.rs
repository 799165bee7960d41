//! Damage, and calls on stations out of range: the order of the refusals.

use model::lent_call::{apply, After};
use model::make_damage::{self, damage, take, Step};
use model::make_station;
use model::random::Random;
use model::station::layout::{put_word, read, write, RECEIVED_TTL, SETTINGS, STATION_LENGTH};
use model::station::range::{every_fault, faults, in_range, most_stored};
use model::station::reading::NAMES;
use model::station::settings::{self, LP_COEFS};
use model::station_call::Call;
use std::collections::BTreeSet;

fn plain() -> Vec<u8> {
    write(&make_station::station(&[]))
}

/// The plain station with a received ttl of 192.
fn bad() -> Vec<u8> {
    let mut bytes = plain();
    put_word(&mut bytes, RECEIVED_TTL, 192);
    bytes
}

/// The answer of a call that must leave everything as it was.
fn refused(call: &Call, station: &[u8]) -> u64 {
    let other = call.other_slice(7);
    let after = apply(call, station, &other);
    assert_eq!((&after.station[..], &after.other), (station, &other));
    after.answer
}

#[test]
fn a_station_out_of_range_is_1_for_each_call() {
    for call in Call::one_of_each() {
        assert_eq!(refused(&call, &bad()), 1, "{call}");
        assert_ne!(apply(&call, &plain(), &call.other_slice(7)).answer, 1);
    }
}

/// "the order is 2, 1, 3, 11", with "13, right after 3 and before 11"
#[test]
fn one_comes_before_the_later_ones() {
    let own = |ttl: u8| vec![ttl, 0xa0, 2, 0, 0x5e, 0, 0, 1, 0, 0, 0, 5];
    let far = |ttl: u8| vec![ttl, 0xa0, 0, 0, 0, 0, 0, 9, 0, 0, 0, 5];
    let calls = [
        (Call::Tick([2, 0, 0]), 3),
        (Call::Client([3, 20, 1]), 3),
        (Call::Client([0, 20, 1]), 6 | 1 << 32),
        (Call::Transit([0, 20, 1, 1]), 3),
        (Call::Control(15), 3),
        (Call::Hear(far(192)), 3),
        (Call::Client([2, 20, 63]), 13),
        (Call::Transit([1, 20, 63, 1]), 13),
        (Call::Hear(far(193)), 13),
        (Call::Hear(own(193)), 13),
        (Call::Hear(own(194)), 11),
    ];
    for (call, later) in calls {
        assert_eq!(refused(&call, &plain()), later, "{call}");
        assert_eq!(refused(&call, &bad()), 1, "{call}");
    }
}

#[test]
fn two_comes_before_one() {
    for call in Call::one_of_each() {
        for length in [0, 1_790, 1_805, 1_807] {
            let mut bytes = bad();
            bytes.resize(length, 0);
            assert_eq!(refused(&call, &bytes), 2, "{call}");
        }
    }
    let frame = |at: usize, byte: u8| {
        let mut frame = vec![200, 0xa0, 0, 0, 0, 0, 0, 9, 0, 0, 0, 5];
        frame[at] = byte;
        Call::Hear(frame)
    };
    let calls = [
        Call::Tell(11),
        Call::Show(125),
        Call::Hear(vec![0; 11]),
        frame(1, 0x80),
        frame(1, 0x20),
        frame(8, 0x20),
    ];
    for call in calls {
        assert_eq!(refused(&call, &bad()), 2, "{call}");
        assert_eq!(refused(&call, &plain()), 2, "{call}");
    }
}

/// "a ringlet bit equal to the station's own: 2": the number that stands there, in range
/// or not.
#[test]
fn the_ringlet_of_a_station_out_of_range() {
    for (ringlet, answers) in [(0, [2, 1]), (1, [1, 2]), (2, [1, 1]), (257, [1, 1])] {
        let mut bytes = bad();
        put_word(&mut bytes, SETTINGS + 4 * 2, ringlet);
        for (bit, answer) in [0x20, 0xa0].into_iter().zip(answers) {
            let frame = vec![200, bit, 0, 0, 0, 0, 0, 9, 0, 0, 0, 5];
            assert_eq!(refused(&Call::Hear(frame), &bytes), answer);
        }
    }
}

#[test]
fn carried_out_the_bytes_are_the_new_ones() {
    let mut model = make_station::station(&[]);
    for call in Call::one_of_each() {
        let other = call.other_slice(7);
        let before = write(&model);
        let (answer, other_after) = call.apply(&mut model, &other);
        let expected = After {
            answer,
            station: write(&model),
            other: other_after,
        };
        assert_eq!(apply(&call, &before, &other), expected, "{call}");
    }
}

/// Each step changes the plain station, but those that set what is there already.
#[test]
fn every_step() {
    let mut random = Random::new(4);
    let (mut same, mut inside, mut outside) = (0, 0, 0);
    let steps = make_damage::every_step();
    for step in &steps {
        let mut bytes = plain();
        take(&mut random, &mut bytes, *step);
        match (bytes == plain(), in_range(&bytes)) {
            (true, _) => same += 1,
            (_, true) => inside += 1,
            (_, false) => outside += 1,
        }
    }
    assert_eq!(same + inside + outside, steps.len());
    assert!(
        same < 90 && inside > 100 && outside > 100,
        "{same} {inside} {outside}"
    );
}

/// With the rest made to fit, each rule about the settings is broken alone.
#[test]
fn settings_alone_out_of_range() {
    let mut random = Random::new(6);
    let mut alone = BTreeSet::new();
    for step in make_damage::every_step() {
        let mut bytes = plain();
        take(&mut random, &mut bytes, step);
        if let (Step::Fitted(..), [fault]) = (step, &faults(&bytes)[..]) {
            alone.insert(fault.clone());
        }
    }
    let all: BTreeSet<String> = settings::every_fault().into_iter().collect();
    assert_eq!(alone, all);
}

/// The steps of a stored number's range: the largest is accepted, the next is 1 for each
/// call, and nothing else is wrong then.
#[test]
fn each_stored_number_alone_out_of_range() {
    let mut random = Random::new(7);
    for lp_coef in LP_COEFS {
        let sound = write(&make_station::station(&[(28, lp_coef as u32)]));
        for at in 0..4 {
            let mut bytes = sound.clone();
            take(&mut random, &mut bytes, Step::Bound(9 + at, 2));
            let largest = read(&bytes).unwrap().stored.list()[at];
            assert_eq!(largest, lp_coef * 2_147_483_648 - 1);
            for call in Call::one_of_each() {
                assert_ne!(apply(&call, &bytes, &call.other_slice(7)).answer, 1);
            }
            take(&mut random, &mut bytes, Step::Bound(9 + at, 3));
            assert_eq!(faults(&bytes), [NAMES[17 + at]]);
            for call in Call::one_of_each() {
                assert_eq!(refused(&call, &bytes), 1, "{call}");
            }
        }
    }
}

/// Another rest below lpCoef leaves the rate shown, and every rest comes.
#[test]
fn each_rest_of_a_stored_number() {
    let mut random = Random::new(8);
    let mut station = make_station::station(&[(28, 16)]);
    station.stored.fw = 37 * 16 + 5;
    let mut rests = BTreeSet::new();
    for which in (0..4).chain([3; 200]) {
        let mut bytes = write(&station);
        take(&mut random, &mut bytes, Step::Rest(5, which));
        let read = read(&bytes).unwrap();
        assert_eq!(read.shown().fw, 37);
        let rest = read.stored.fw % 16;
        assert!([0, 1, 15, rest][which] == rest);
        rests.insert(rest);
    }
    assert!(rests.into_iter().eq(0..16));
}

/// The least lpCoef that a stored number still fits, and half of it.
#[test]
fn an_lp_coef_that_just_fits() {
    let mut random = Random::new(9);
    let mut station = make_station::station(&[(28, 512)]);
    station.stored.add_congested = 64 * 2_147_483_648 - 1;
    let with = |random: &mut Random, step: Step| {
        let mut bytes = write(&station);
        take(random, &mut bytes, step);
        bytes
    };
    let fits = read(&with(&mut random, Step::Setting(28, 6))).unwrap();
    assert_eq!(fits.settings.lp_coef, 64);
    let half = with(&mut random, Step::Setting(28, 7));
    assert_eq!(faults(&half), ["lpAddRateCongested"]);
    let fitted = read(&with(&mut random, Step::Fitted(28, 7))).unwrap();
    assert_eq!(fitted.settings.lp_coef, 32);
    assert_eq!(fitted.stored.add_congested, most_stored(32));
}

/// Stations made wild have stored numbers with every rest, and the largest; an interval
/// leaves each in range.
#[test]
fn wild_stored_numbers() {
    let mut random = Random::new(10);
    let steps = make_damage::every_step();
    let sound = write(&make_station::station(&[(28, 16)]));
    let mut rests = [(); 4].map(|()| BTreeSet::new());
    let mut largest = [false; 4];
    for _ in 0..3_000 {
        let bytes = make_damage::wild(&mut random, &sound, &steps);
        assert!(in_range(&apply(&Call::Age, &bytes, &[]).station));
        let station = read(&bytes).unwrap();
        let lp_coef = station.settings.lp_coef;
        for (at, stored) in station.stored.list().into_iter().enumerate() {
            largest[at] |= stored == most_stored(lp_coef);
            if stored > lp_coef && lp_coef == 16 {
                rests[at].insert(stored % 16);
            }
        }
    }
    assert_eq!(largest, [true; 4]);
    assert!(rests.iter().all(|rests| rests.len() == 16), "{rests:?}");
}

#[test]
fn damage_is_in_range_and_out() {
    let mut random = Random::new(5);
    let steps = make_damage::every_step();
    let names = every_fault();
    let mut in_range = 0;
    for _ in 0..4_000 {
        let other = write(&make_station::of(make_station::settings(&mut random)));
        let mut bytes = plain();
        damage(&mut random, &mut bytes, &other, &steps);
        assert_eq!(bytes.len(), STATION_LENGTH);
        let faults = faults(&bytes);
        assert!(faults.iter().all(|fault| names.contains(fault)));
        in_range += u32::from(faults.is_empty());
    }
    assert!((800..3_000).contains(&in_range), "{in_range}");
}

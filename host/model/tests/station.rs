//! Settings, starting, ticks, and the refusals of each call.

use model::make_station::{self, words, PLAIN};
use model::random::Random;
use model::station::settings::to_bytes;
use model::station::{calls, Station};

fn started(words: &[u32]) -> (u64, Option<Station>) {
    let mut station = None;
    let answer = calls::start(&to_bytes(words), &mut station);
    (answer, station)
}

fn plain() -> Station {
    make_station::station(&[])
}

/// The answer of a call that must leave the station as it was.
fn refused(station: &Station, call: impl FnOnce(&mut Station) -> u64) -> u64 {
    let mut lent = station.clone();
    let answer = call(&mut lent);
    assert_eq!(&lent, station);
    answer
}

/// "Credit starts at loLimit"; "own rate by its formula, other rates at unreservedRate".
#[test]
fn a_fresh_station() {
    let (answer, station) = started(&PLAIN);
    assert_eq!(answer, 0);
    let mut expected = [0; 31];
    expected[..5].copy_from_slice(&[100; 5]);
    expected[21..25].copy_from_slice(&[10_000, 10_000, 10_000, 1_250]);
    expected[27] = 255;
    assert_eq!(station.unwrap().reading(), expected);
    let (_, station) = started(&words(&[(26, 2_147_483_647), (23, 1), (24, 1)]));
    assert_eq!(station.unwrap().own_rate, 65_534);
}

#[test]
fn starting_again_makes_the_station_fresh() {
    let mut station = Some(plain());
    calls::tick(station.as_mut().unwrap(), 1, 1, 1);
    assert_ne!(station, Some(plain()));
    assert_eq!(calls::start(&to_bytes(&PLAIN), &mut station), 0);
    assert_eq!(station, Some(plain()));
    calls::tick(station.as_mut().unwrap(), 1, 1, 1);
    let before = station.clone();
    assert_eq!(calls::start(&to_bytes(&words(&[(3, 63)])), &mut station), 1);
    assert_eq!(station, before);
}

/// Each word at the ends of its range, and just past them.
#[test]
fn ranges_of_the_settings() {
    let ends: [(usize, &[u32], &[u32]); 19] = [
        (0, &[0, 65_535], &[65_536, u32::MAX]),
        (1, &[0, u32::MAX], &[]),
        (2, &[0, 1], &[2, u32::MAX]),
        (3, &[64, 100], &[0, 63, 101, 9_217]),
        (19, &[64, 1_048_576], &[0, 63, 1_048_577]),
        (20, &[64, 1_048_576], &[0, 63, 1_048_577]),
        (21, &[128, 1_048_576], &[0, 127, 1_048_577]),
        (22, &[0, 256], &[257, u32::MAX]),
        (23, &[1, 255], &[0, 256]),
        (24, &[1, 1_024], &[0, 1_025]),
        (25, &[1, 10_000], &[0, 10_001]),
        (26, &[1, 2_147_483_647], &[0, 2_147_483_648, u32::MAX]),
        (27, &[1, 2, 4, 8, 16], &[0, 3, 5, 15, 17, 32]),
        (28, &[16, 32, 64, 128, 256, 512], &[0, 8, 15, 100, 1_024]),
        (29, &[16, 32, 64, 128, 256, 512], &[0, 8, 15, 100, 1_024]),
        (30, &[2, 3, 62, 63], &[0, 1, 64, 258, u32::MAX]),
        (31, &[0, 1], &[2, 256, 65_537, u32::MAX]),
        (32, &[1, 2, 999, 1_000], &[0, 1_001, 65_537, u32::MAX]),
        (33, &[16, 32, 64, 128, 256, 512], &[0, 8, 24, 100, 1_024]),
    ];
    for (at, good, bad) in ends {
        for word in good {
            assert_eq!(started(&words(&[(at, *word)])).0, 0, "word {at}: {word}");
        }
        for word in bad {
            let (answer, station) = started(&words(&[(at, *word)]));
            assert_eq!((answer, station), (1, None), "word {at}: {word}");
        }
    }
}

#[test]
fn ranges_of_the_shapers() {
    for at in [4, 7, 10, 13, 16] {
        for (lo, hi, amount) in [(64, 65, 0), (65_536, 65_537, 65_535), (64, 1_048_576, 1)] {
            let words = words(&[(at, lo), (at + 1, hi), (at + 2, amount)]);
            assert_eq!(started(&words).0, 0);
        }
        for (lo, hi, amount) in [
            (63, 300, 0),
            (65_537, 65_538, 0),
            (100, 100, 0),
            (100, 99, 0),
            (100, 1_048_577, 0),
            (100, 300, 65_536),
            (u32::MAX, 0, 0),
        ] {
            let words = words(&[(at, lo), (at + 1, hi), (at + 2, amount)]);
            assert_eq!(started(&words).0, 1);
        }
    }
}

/// "mtu 64 to 9,216", with limits and queues to match.
#[test]
fn the_largest_mtu() {
    for (mtu, secondary, expected) in [(9_216, 18_432, 0), (9_216, 18_431, 1), (9_217, 20_000, 1)] {
        let mut words = words(&[(3, mtu), (19, 9_217), (20, 9_217), (21, secondary)]);
        for lo_limit in [4, 7, 10, 13, 16] {
            words[lo_limit..lo_limit + 2].copy_from_slice(&[9_217, 9_218]);
        }
        assert_eq!(started(&words).0, expected);
    }
}

/// "another length is 2", before 1.
#[test]
fn settings_of_another_length() {
    for length in [0, 1, 30, 31, 33, 35, 68] {
        assert_eq!(started(&vec![0; length]), (2, None));
    }
    for length in [31, 33] {
        assert_eq!(started(&PLAIN[..length]), (2, None));
    }
    let mut station = None;
    assert_eq!(calls::start(&[0; 135], &mut station), 2);
    assert_eq!(started(&[0; 34]), (1, None));
}

#[test]
fn random_settings_are_in_range_and_nearly() {
    let mut random = Random::new(3);
    let mut answers = [0; 2];
    for _ in 0..5_000 {
        assert_eq!(started(&make_station::settings(&mut random)).0, 0);
        let near = make_station::settings_near(&mut random);
        answers[started(&near).0 as usize] += 1;
    }
    assert!(answers[0] > 500 && answers[1] > 1_000, "{answers:?}");
}

fn credits(station: &Station) -> [u64; 5] {
    let mut credits = [0; 5];
    credits.copy_from_slice(&station.reading()[..5]);
    credits
}

/// "while traffic waits the sum is cut to hiLimit, otherwise to loLimit."
#[test]
fn ticks_and_who_waits() {
    for (waits, expected) in [
        ([0, 0, 0], [100, 100, 100, 100, 100]),
        ([1, 0, 0], [100, 150, 100, 100, 100]),
        ([0, 1, 0], [100, 100, 150, 150, 150]),
        ([0, 0, 1], [100, 100, 100, 150, 150]),
        ([1, 1, 1], [100, 150, 150, 150, 150]),
    ] {
        let mut station = plain();
        assert_eq!(calls::tick(&mut station, waits[0], waits[1], waits[2]), 0);
        assert_eq!(credits(&station), expected);
        for _ in 0..9 {
            calls::tick(&mut station, waits[0], waits[1], waits[2]);
        }
        let full = expected.map(|credit| if credit > 100 { 300 } else { 100 });
        assert_eq!(credits(&station), full);
        calls::tick(&mut station, 0, 0, 0);
        assert_eq!(credits(&station), [100; 5]);
    }
}

/// "M waits when the control queue holds a frame"; D "when [...] the stage or secondary
/// queue holds a frame."
#[test]
fn what_the_station_holds_waits() {
    let mut station = plain();
    calls::offer_control(&mut station, 16);
    calls::tick(&mut station, 0, 0, 0);
    assert_eq!(credits(&station), [150, 100, 100, 100, 100]);
    let mut station = plain();
    calls::offer_transit(&mut station, 1, 16, 1, 0);
    calls::tick(&mut station, 0, 0, 0);
    assert_eq!(credits(&station), [100, 100, 100, 100, 150]);
    let mut station = plain();
    calls::tick(&mut station, 1, 0, 0);
    calls::offer_client(&mut station, 0, 64, 1);
    calls::tick(&mut station, 0, 0, 0);
    assert_eq!(credits(&station), [100, 100, 100, 100, 150]);
    let mut station = plain();
    calls::offer_transit(&mut station, 0, 16, 1, 0);
    calls::tick(&mut station, 0, 0, 0);
    assert_eq!(credits(&station), [100; 5]);
}

/// "C's amount is the smaller of its setting and floor(allowedRate / (ageCoef × ticks
/// per interval))."
#[test]
fn the_amount_of_c() {
    for (unreserved, amount) in [
        (39, 0),
        (40, 1),
        (79, 1),
        (1_999, 49),
        (2_000, 50),
        (9_999, 50),
    ] {
        let mut station = make_station::station(&[(26, unreserved)]);
        calls::tick(&mut station, 0, 0, 1);
        assert_eq!(credits(&station)[3], 100 + amount);
    }
}

#[test]
fn codes_of_a_tick() {
    for wrong in [2, 256, 1 << 32, u64::MAX] {
        let station = plain();
        assert_eq!(refused(&station, |lent| calls::tick(lent, wrong, 0, 0)), 3);
        assert_eq!(refused(&station, |lent| calls::tick(lent, 0, wrong, 0)), 3);
        assert_eq!(refused(&station, |lent| calls::tick(lent, 0, 0, wrong)), 3);
    }
}

/// "3 | a frame [...] or coded choice [...] is outside its range", before 4, 5 and 6.
#[test]
fn frames_outside_their_range() {
    let station = plain();
    for (class, size, hops) in [
        (3, 64, 1),
        (u64::MAX, 64, 1),
        (2, 15, 1),
        (2, 65, 1),
        (2, 65_600, 1),
        (2, u64::MAX, 1),
        (2, 64, 0),
        (2, 64, 64),
        (2, 64, 256 + 1),
    ] {
        let client = |lent: &mut Station| calls::offer_client(lent, class, size, hops);
        assert_eq!(refused(&station, client), 3);
        let transit = |lent: &mut Station| calls::offer_transit(lent, class, size, hops, 0);
        assert_eq!(refused(&station, transit), 3);
    }
    for size in [0, 15, 65, 65_552, u64::MAX] {
        assert_eq!(
            refused(&station, |lent| calls::offer_control(lent, size)),
            3
        );
    }
    // "only B and C may be marked fairness eligible"
    for (class, eligible) in [(0, 1), (0, 2), (1, 2), (2, 1 << 32)] {
        let transit = |lent: &mut Station| calls::offer_transit(lent, class, 64, 1, eligible);
        assert_eq!(refused(&station, transit), 3);
    }
}

#[test]
fn rooms_of_another_length() {
    let station = plain();
    for length in [0, 1, 11, 13, 24, 123, 125] {
        let room = vec![7; length];
        assert_eq!(calls::write_frame(&station, &room), (2, room.clone()));
        assert_eq!(calls::show(&station, &room), (2, room));
    }
    assert_eq!(calls::write_frame(&station, &[7; 12]).0, 0);
    let (answer, room) = calls::show(&station, &[7; 124]);
    assert_eq!(
        (answer, &room[..4], &room[96..100]),
        (0, &[100, 0, 0, 0][..], &[226, 4, 0, 0][..])
    );
}

//! "With a steady rate, s must not stand still unless the shown rate equals it."

use model::make_station;
use model::random::Random;
use model::station::aging::{shown, smooth};
use model::station::range::most_stored;
use model::station::settings::LP_COEFS;
use model::station::{calls, Station, MOST_RATE};
use model::steady::{Smoothed, Steady, Way, BY_FRAMES, LENT};

/// What an interval makes of a stored number, and what is shown before and after.
fn interval(stored: u64, rate: u64, lp_coef: u64) -> (u64, u64, u64) {
    let next = smooth(stored, rate, lp_coef);
    (next, shown(stored, lp_coef), shown(next, lp_coef))
}

/// The stored number after so many intervals.
fn after(intervals: u64, stored: u64, rate: u64, lp_coef: u64) -> u64 {
    (0..intervals).fold(stored, |stored, _| smooth(stored, rate, lp_coef))
}

/// The fewest k with a distance below 2^k.
fn bits(distance: u64) -> u64 {
    (0..).find(|k| distance < 1 << k).unwrap()
}

/// One interval: the stored number stands, rises or falls by what the rate shown lacks or
/// has too much, and the rate shown passes neither the rate nor its old self.
fn holds_at_once(stored: u64, rate: u64, lp_coef: u64) {
    let (next, before, after) = interval(stored, rate, lp_coef);
    let case = format!("s {stored}, rate {rate}, lpCoef {lp_coef}");
    assert_eq!(next == stored, before == rate, "{case}");
    assert_eq!(next + before, stored + rate, "{case}");
    assert!(
        after >= before.min(rate) && after <= before.max(rate),
        "{case}"
    );
}

/// After k × lpCoef intervals the rate shown is the rate.
fn arrives(stored: u64, rate: u64, lp_coef: u64) {
    let distance = shown(stored, lp_coef).abs_diff(rate);
    let end = after(bits(distance) * lp_coef, stored, rate, lp_coef);
    assert_eq!(
        shown(end, lp_coef),
        rate,
        "s {stored}, rate {rate}, lpCoef {lp_coef}"
    );
}

/// Every small stored number with every small rate.
#[test]
fn small_numbers() {
    for lp_coef in [16, 32, 64] {
        for stored in 0..20 * lp_coef {
            for rate in 0..20 {
                holds_at_once(stored, rate, lp_coef);
                arrives(stored, rate, lp_coef);
            }
        }
    }
}

/// The ends of every range, and numbers anywhere in it.
#[test]
fn large_numbers() {
    let mut random = Random::new(11);
    for lp_coef in LP_COEFS {
        let most = most_stored(lp_coef);
        let mut cases = vec![
            (0, MOST_RATE),
            (0, 1),
            (most, 0),
            (most, MOST_RATE - 1),
            (most, MOST_RATE),
        ];
        cases.extend((0..40).map(|_| {
            let stored = random.often_extreme(0, i128::from(most));
            let rate = random.often_extreme(0, i128::from(MOST_RATE));
            (stored as u64, rate as u64)
        }));
        for (stored, rate) in cases {
            holds_at_once(stored, rate, lp_coef);
            arrives(stored, rate, lp_coef);
            assert!(shown(after(31 * lp_coef, stored, rate, lp_coef), lp_coef) == rate);
        }
    }
}

/// An interval of a source that sends so many bytes at each. The station's ageCoef is 1.
fn send(station: &mut Station, size: u64) {
    for _ in 0..2 {
        assert_eq!(calls::tick(station, 0, 0, 1), 0);
    }
    assert_eq!(calls::offer_client(station, 2, size, 1), 1 << 32);
    assert_eq!(calls::select(station) >> 48, size);
    assert_eq!(station.counters.add, size);
    assert_eq!(calls::age(station), 0);
}

/// "Operators saw a steady source of 100 show as 37 for hours."
#[test]
fn a_steady_source_of_100_shows_as_100() {
    let words = [(3, 100), (15, 100), (18, 100), (25, 1), (27, 1)];
    let mut station = make_station::station(&words);
    let mut rates = Vec::new();
    for _ in 0..7 * 64 {
        send(&mut station, 100);
        rates.push(station.reading()[17]);
    }
    assert!(rates.is_sorted());
    assert!((37..=100).all(|rate| rates.contains(&rate)));
    assert_eq!((rates[447], station.stored.add), (100, 6_400));
    for _ in 0..10_000 {
        send(&mut station, 100);
        assert_eq!((station.reading()[17], station.stored.add), (100, 6_400));
    }
    // It falls to 20, to the last remainder that shows as 20, and stays.
    for _ in 0..7 * 64 {
        send(&mut station, 20);
    }
    assert_eq!(
        (station.reading()[17], station.stored.add),
        (20, 20 * 64 + 63)
    );
}

fn smoothed(stored: u64, shown: u64) -> Smoothed {
    Smoothed { stored, shown }
}

/// A way is gone by the rule; one that stops short, passes the rate or comes too late isn't.
#[test]
fn ways_that_are_no_way() {
    let first = smoothed(2_368, 37);
    let mut way = Way::new(100, 64, first);
    assert_eq!(way.bound, 6 * 64);
    assert_eq!(way.go(smoothed(2_431, 37)), Ok(()));
    assert_eq!(way.go(smoothed(2_494, 38)), Ok(()));
    let says = |next: Smoothed, what: &str| {
        let fault = Way::new(100, 64, first).go(next).unwrap_err();
        assert!(fault.starts_with(what), "{fault}");
    };
    says(first, "the stored number must stand still");
    says(smoothed(2_367, 36), "the rate shown must not pass");
    says(smoothed(6_464, 101), "the rate shown must not pass");
    let there = smoothed(6_400, 100);
    assert_eq!(Way::new(100, 64, there).go(there), Ok(()));
    assert!(Way::new(100, 64, there).go(smoothed(6_401, 100)).is_err());
    let mut late = Way::new(100, 64, first);
    let mut steps = (1..=6 * 64).map(|step| late.go(smoothed(2_368 + step, 37)));
    assert_eq!(steps.position(|step| step.is_err()), Some(6 * 64 - 1));
}

/// The ways by the rule, a step past their bound.
fn gone(stored: u64, rate: u64, lp_coef: u64) -> Way {
    let now = |stored: u64| smoothed(stored, shown(stored, lp_coef));
    let mut way = Way::new(rate, lp_coef, now(stored));
    let mut stored = stored;
    for _ in 0..=way.bound {
        stored = smooth(stored, rate, lp_coef);
        way.go(now(stored)).unwrap();
    }
    way
}

/// Each kind of way must come up with each lpCoef, for each of the four, to its end.
#[test]
fn what_must_come_up() {
    let mut steady = Steady::default();
    let all = steady.missing().len();
    assert_eq!(all, 6 * 4 * (2 * 2 + 5));
    steady.look(&[Way::new(100, 16, smoothed(0, 0)); 4], LENT, 16);
    assert_eq!(steady.missing().len(), all);
    for lp_coef in LP_COEFS {
        let most = most_stored(lp_coef);
        let cases = [(0, 100), (100 * lp_coef, 20)];
        let lent = [(5 * lp_coef, 6), (0, MOST_RATE), (most, 0)];
        for (stored, rate) in cases {
            let ways = [gone(stored, rate, lp_coef); 4];
            for how in BY_FRAMES {
                steady.look(&ways, how, lp_coef);
            }
        }
        for (stored, rate) in cases.into_iter().chain(lent) {
            assert_ne!(steady.missing(), Vec::<String>::new());
            steady.look(&[gone(stored, rate, lp_coef); 4], LENT, lp_coef);
        }
    }
    assert_eq!(steady.missing(), Vec::<String>::new());
}

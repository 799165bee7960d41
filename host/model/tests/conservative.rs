//! The conservative method: each row of its table, and what both methods share.

use model::make_station;
use model::station::aging::Rates;
use model::station::calls;
use model::station::settings::Method;
use model::station::Station;

/// Low threshold 128, weight 2, unit 4, unreservedRate 10,000, rampUp 64, a round trip of 3
/// intervals, rampDn 64.
fn conservative(changes: &[(usize, u32)]) -> Station {
    let mut all = vec![(31, 1)];
    all.extend(changes);
    make_station::station(&all)
}

/// 150 bytes in the secondary queue, over the threshold; or none.
fn with_test(mut station: Station, test: bool) -> Station {
    for _ in 0..if test { 3 } else { 0 } {
        assert_eq!(calls::offer_transit(&mut station, 1, 50, 1, 0), 0);
    }
    assert_eq!(station.test(), test);
    station
}

/// A congested one, lent with this localFairRate and so many intervals since the last change.
fn congested(test: bool, fair: u64, since: u64) -> Station {
    let mut station = with_test(conservative(&[]), test);
    station.locally_congested = true;
    station.local_fair_rate = fair;
    station.allowed_rate = fair;
    station.since = since;
    station
}

/// After an interval: the flag, localFairRate and the intervals since the last change.
fn after(station: &Station) -> (u64, u64, u64) {
    let mut station = station.clone();
    assert_eq!(calls::age(&mut station), 0);
    let words = station.reading();
    (words[25], words[21], station.since)
}

/// "enter congestion at lpAddRate": the new one, as it is shown.
#[test]
fn entering() {
    let mut lent = with_test(conservative(&[]), true);
    lent.counters.add = 64_000;
    assert_eq!(after(&lent), (1, 1_000, 0));
    lent.since = 2;
    lent.local_fair_rate = 7;
    assert_eq!(after(&lent), (1, 1_000, 0));
    calls::age(&mut lent);
    // Own rate, and allowedRate by the flag.
    assert_eq!(lent.reading()[21..26], [1_000, 1_000, 10_000, 125, 1]);
    assert_eq!(lent.advertised().rate, 125);
}

/// "cut to unreservedRate"
#[test]
fn entering_is_cut() {
    let mut lent = with_test(conservative(&[]), true);
    for (rate, fair) in [
        (9_999, 9_999),
        (10_000, 10_000),
        (10_001, 10_000),
        (2_147_483_647, 10_000),
    ] {
        lent.counters = Rates::each([rate; 4]);
        lent.stored = Rates::each([64 * rate; 4]);
        assert_eq!(after(&lent), (1, fair, 0), "{rate}");
    }
}

/// Not congested, and the test is false: nothing changes, and the allowed rate ramps.
#[test]
fn not_congested() {
    let mut lent = with_test(conservative(&[]), false);
    assert_eq!(after(&lent), (0, 10_000, 0));
    lent.local_fair_rate = 799;
    lent.allowed_rate = 799;
    lent.since = 2;
    assert_eq!(after(&lent), (0, 799, 2));
    calls::age(&mut lent);
    let ramped = 799 + 9_201 / 64;
    assert_eq!(lent.reading()[21..26], [799, ramped, 10_000, 99, 0]);
    assert_eq!(lent.advertised().rate, 65_535);
}

/// "leave congestion, at unreservedRate, if the distance to it is less than rampUp", without
/// waiting.
#[test]
fn leaving() {
    for since in 0..3 {
        for fair in [9_937, 9_938, 9_999, 10_000] {
            assert_eq!(after(&congested(false, fair, since)), (0, 10_000, 0));
        }
    }
    assert_eq!(after(&congested(false, 9_936, 0)), (1, 9_936, 1));
    let mut lent = congested(false, 9_937, 0);
    calls::age(&mut lent);
    assert_eq!(lent.reading()[21..26], [10_000, 9_937, 10_000, 1_250, 0]);
    assert_eq!(lent.advertised().rate, 65_535);
    // The test is true: it does not leave, however near.
    for (since, expected) in [(0, (1, 10_000, 1)), (2, (1, 9_844, 0))] {
        assert_eq!(after(&congested(true, 10_000, since)), expected);
    }
}

/// "reduce localFairRate by its rampDn-th part, rounded down"; "so does a step of 0".
#[test]
fn lowering() {
    for (fair, lowered) in [
        (1_000, 985),
        (10_000, 9_844),
        (128, 126),
        (127, 126),
        (65, 64),
        (64, 63),
        (63, 63),
        (1, 1),
        (0, 0),
    ] {
        assert_eq!(after(&congested(true, fair, 2)), (1, lowered, 0), "{fair}");
    }
    let mut lent = congested(true, 1_000, 2);
    calls::age(&mut lent);
    assert_eq!(lent.reading()[21..26], [985, 985, 10_000, 123, 1]);
}

/// No lower bound: neither lpAddRate nor anything else.
#[test]
fn lowering_goes_below_the_own_rate() {
    let mut lent = congested(true, 1_000, 2);
    lent.counters.add = 64_000;
    lent.stored.add = 64 * 5_000;
    assert_eq!(after(&lent), (1, 985, 0));
}

/// "raise it by the rampUp-th part of that distance, rounded down"
#[test]
fn raising() {
    for (fair, raised) in [
        (1_000, 1_140),
        (0, 156),
        (9_872, 9_874),
        (9_873, 9_874),
        (9_935, 9_936),
        (9_936, 9_937),
    ] {
        assert_eq!(after(&congested(false, fair, 2)), (1, raised, 0), "{fair}");
    }
    let mut lent = congested(false, 1_000, 2);
    calls::age(&mut lent);
    assert_eq!(lent.reading()[21..26], [1_140, 1_140, 10_000, 142, 1]);
}

/// The round trip has not passed.
#[test]
fn holding() {
    for test in [true, false] {
        for fair in [0, 63, 64, 1_000, 9_936] {
            for since in [0, 1] {
                let held = (1, fair, since + 1);
                assert_eq!(after(&congested(test, fair, since)), held);
            }
        }
    }
}

/// A step at each interval with a round trip of 1, at each third with 3, at the thousandth with
/// 1,000.
#[test]
fn the_round_trip() {
    for round_trip in [1, 2, 3, 7, 1_000] {
        let mut lent = with_test(conservative(&[(32, round_trip)]), true);
        lent.locally_congested = true;
        lent.local_fair_rate = 6_400;
        let mut fair = 6_400;
        for interval in 1..=3 * round_trip {
            calls::age(&mut lent);
            if interval % round_trip == 0 {
                fair -= fair / 64;
            }
            assert_eq!(lent.local_fair_rate, fair, "{interval} of {round_trip}");
        }
    }
}

/// "entry counts as a change, so does a step of 0": the next one is a round trip later.
#[test]
fn what_counts_as_a_change() {
    let mut lent = with_test(conservative(&[(29, 16), (33, 16)]), true);
    lent.counters.add = 64 * 17;
    // Entering at 17, then 16, 15, and 15 again by a step of 0.
    let mut rates = Vec::new();
    for _ in 0..13 {
        calls::age(&mut lent);
        rates.push((lent.local_fair_rate, lent.since));
    }
    let expected = [17, 16, 15, 15].map(|rate| [0, 1, 2].map(|since| (rate, since)));
    assert_eq!(rates[..12], expected.concat());
    assert_eq!(rates[12], (15, 0));
    // The queue empties right after a step of 0: it is raised three intervals later.
    lent.settings.low_threshold = 150;
    let raised = [0; 3].map(|_| {
        calls::age(&mut lent);
        lent.local_fair_rate
    });
    assert_eq!(raised, [15, 15, 15 + 9_985 / 16]);
}

/// "until it leaves, the station counts as locally congested for allowedRate and advertising".
#[test]
fn it_is_congested_until_it_leaves() {
    let mut lent = with_test(conservative(&[]), true);
    lent.counters.add = 64_000;
    calls::age(&mut lent);
    lent.settings.low_threshold = 150;
    let frame = |rate: u8| [200, 0xa0, 0, 0, 0, 0, 0, 9, 0, 0, 0, rate];
    while lent.local_fair_rate < 9_937 {
        let own = lent.own_rate;
        assert_eq!(lent.allowed_rate, lent.local_fair_rate);
        assert_eq!(lent.advertised().rate, own);
        // Congested both ways: the own rate where it is at most the received one.
        let mut both = lent.clone();
        assert_eq!(calls::read_frame(&mut both, &frame(124)), 0);
        assert_eq!(both.advertised().rate, 124);
        assert_eq!((both.advertised().ttl, own > 124), (199, true));
        calls::age(&mut lent);
        assert!(lent.locally_congested && !lent.test());
    }
    calls::age(&mut lent);
    assert!(!lent.locally_congested);
    assert_eq!(lent.advertised().rate, 65_535);
}

/// What an interval does to all but the flag, localFairRate and since goes by these alone.
#[test]
fn what_both_methods_share() {
    for test in [true, false] {
        for since in 0..3 {
            let mut one = congested(test, 5_000, since);
            one.counters = Rates::each([64_000, 3, 2_000, 1]);
            one.stored = Rates::each([70, 640_000, 99, 5]);
            let frame = [200, 0xa0, 0, 0, 0, 0, 0, 9, 0, 0, 0, 44];
            calls::read_frame(&mut one, &frame);
            let mut other = one.clone();
            other.settings.method = Method::Aggressive;
            calls::age(&mut one);
            calls::age(&mut other);
            assert_eq!(other.since, since);
            let unreserved = 10_000;
            for station in [&one, &other] {
                let fair = station.local_fair_rate;
                let allowed = match station.locally_congested {
                    true => fair.min(unreserved),
                    false => 5_000 + 5_000 / 64,
                };
                assert_eq!(
                    (station.allowed_rate, station.own_rate),
                    (allowed, fair / 8)
                );
            }
            other.settings.method = Method::Conservative;
            other.since = one.since;
            other.local_fair_rate = one.local_fair_rate;
            other.locally_congested = one.locally_congested;
            other.allowed_rate = one.allowed_rate;
            other.own_rate = one.own_rate;
            assert_eq!(one, other);
        }
    }
}

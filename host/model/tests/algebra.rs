//! Summaries against the shaper run event by event, and the laws of join.

use model::make;
use model::random::Random;
use model::record::{Record, Settings};
use model::refusal::Refusal;
use model::summary::{run, Summary};

/// Each starting credit from 0 to hiLimit.
fn check_every_credit(record: &Record) {
    let summary = Summary::of_record(record).unwrap();
    assert!(summary.in_range(), "{record:?}");
    for start in 0..=i128::from(record.settings.hi_limit) {
        let end = run(&record.settings, &record.events, start);
        assert_eq!(summary.settle(start), Ok(end), "{record:?} from {start}");
    }
}

#[test]
fn a_summary_is_the_event_by_event_credit_from_every_start() {
    let mut random = Random::new(3);
    for _ in 0..3_000 {
        let mtu = random.between(64, 70) as u32;
        let lo_limit = mtu + random.below(40) as u32;
        let hi_limit = lo_limit + 1 + random.below(300) as u32;
        let settings = Settings {
            mtu,
            lo_limit,
            hi_limit,
        };
        check_every_credit(&make::record_of(&mut random, settings, 12));
    }
}

#[test]
fn random_records_are_of_every_sort() {
    let mut random = Random::new(4);
    let (mut never, mut permitted, mut dependent) = (0, 0, 0);
    for _ in 0..2_000 {
        let record = make::record(&mut random, 100);
        let summary = Summary::of_record(&record).unwrap();
        match summary.need {
            0 => permitted += 1,
            need if need == summary.never() => never += 1,
            _ => dependent += 1,
        }
    }
    assert!(never > 200, "{never}");
    assert!(permitted > 200, "{permitted}");
    assert!(dependent > 200, "{dependent}");
}

/// "Join is associative [...] for in-range summaries of the same settings; both
/// groupings give 9 or neither does."
#[test]
fn join_is_associative() {
    let mut random = Random::new(5);
    let (mut joined, mut refused) = (0, 0);
    for _ in 0..50_000 {
        let settings = make::settings(&mut random);
        let one = make::summary_of(&mut random, settings);
        let two = make::summary_of(&mut random, settings);
        let three = make::summary_of(&mut random, settings);
        assert!(one.in_range() && two.in_range() && three.in_range());
        let left = one.join(&two).and_then(|sum| sum.join(&three));
        let right = two.join(&three).and_then(|sum| one.join(&sum));
        assert_eq!(left, right, "{one:?} {two:?} {three:?}");
        match left {
            Ok(sum) => {
                assert!(sum.in_range());
                joined += 1;
            }
            Err(refusal) => {
                assert_eq!(refusal, Refusal::Events);
                refused += 1;
            }
        }
    }
    assert!(joined > 10_000 && refused > 1_000, "{joined} {refused}");
}

/// "with the empty summary neutral"
#[test]
fn the_empty_summary_is_neutral() {
    let mut random = Random::new(6);
    for _ in 0..20_000 {
        let settings = make::settings(&mut random);
        let summary = make::summary_of(&mut random, settings);
        let empty = Summary::empty(settings);
        assert_eq!(summary.join(&empty), Ok(summary));
        assert_eq!(empty.join(&summary), Ok(summary));
    }
}

#[test]
fn pieces_join_to_the_whole() {
    let mut random = Random::new(7);
    for _ in 0..3_000 {
        let record = make::record(&mut random, 60);
        let whole = Summary::of_record(&record).unwrap();
        let cut = random.below(record.events.len() + 1);
        let first = Summary::of_record(&record.piece(0, cut)).unwrap();
        let second = Summary::of_record(&record.piece(cut, record.events.len())).unwrap();
        assert_eq!(first.join(&second), Ok(whole));
    }
}

/// "joined summaries have different settings"; "the order is 2, 1, 3, 11, 10, 9".
#[test]
fn refusals_of_join_in_order() {
    let settings = Settings {
        mtu: 64,
        lo_limit: 100,
        hi_limit: 300,
    };
    let mut full = Summary::empty(settings);
    full.events = 1_000_000;
    let mut one = Summary::empty(settings);
    one.events = 1;
    assert_eq!(full.join(&one), Err(Refusal::Events));
    assert_eq!(one.join(&full), Err(Refusal::Events));
    let mut other = one;
    other.settings.mtu = 65;
    assert_eq!(full.join(&other), Err(Refusal::Settings));
    other.settings.mtu = 63;
    assert_eq!(full.join(&other), Err(Refusal::Range));
    assert_eq!(other.join(&full), Err(Refusal::Range));
}

#[test]
fn settled_ends_are_credits() {
    let mut random = Random::new(8);
    for _ in 0..50_000 {
        let settings = make::settings(&mut random);
        let summary = make::summary_of(&mut random, settings);
        let hi = i128::from(settings.hi_limit);
        let start = random.often_extreme(0, hi);
        if let Some(end) = summary.settle(start).unwrap() {
            assert!((0..=hi).contains(&end), "{summary:?} from {start}");
        }
        assert_eq!(summary.settle(hi + 1), Err(Refusal::Range));
        assert_eq!(summary.settle(-1), Err(Refusal::Range));
    }
}

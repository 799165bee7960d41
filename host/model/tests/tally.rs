//! What a run must have reached.

use model::tally::{Tally, OF_HEARTBEATS, OF_RECORDS, OF_RINGS, OF_STATIONS};

/// A tally that has each pair once, and so many calls carried out.
fn reached(carried_out: usize) -> Tally {
    let mut tally = Tally::new(OF_STATIONS);
    for (function, refusals) in OF_STATIONS {
        for refusal in *refusals {
            tally.count(function, refusal.parse().unwrap(), false);
        }
    }
    for _ in 0..carried_out {
        tally.count("rpr_age", 0, false);
    }
    tally
}

#[test]
fn half_of_the_calls_and_every_pair() {
    assert_eq!(reached(34).calls(), 68);
    assert_eq!(reached(34).faults(), Vec::<String>::new());
    assert_eq!(reached(33).faults(), ["only 33 of 67 calls carried out"]);
    let faults = Tally::new(OF_STATIONS).faults();
    assert_eq!(faults.len(), 34);
    assert_eq!(faults[0], "rpr_start: refusal 2 never reached");
}

#[test]
fn a_pair_that_is_not_in_the_table() {
    let mut tally = reached(40);
    tally.count("rpr_age", 3, false);
    tally.count("rpr_offer_client", 4, false);
    tally.count("rpr_offer_control", 13, false);
    let faults = [
        "rpr_age: 3 isn't possible",
        "rpr_offer_client: 4 isn't possible",
        "rpr_offer_control: 13 isn't possible",
    ];
    assert_eq!(tally.faults(), faults);
}

/// 18 calls, and each refusal number is in the table of at least one of them.
#[test]
fn the_table() {
    let all = [OF_RECORDS, OF_RINGS, OF_STATIONS, OF_HEARTBEATS].concat();
    assert_eq!(all.len(), 18);
    for number in 1..=13 {
        let given = |pairs: &(&str, &[&str])| pairs.1.contains(&&number.to_string()[..]);
        assert!(all.iter().any(given), "{number}");
    }
}

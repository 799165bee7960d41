//! Random patterns and repeats: each rule broken alone, how often each answer comes up, and what a
//! run must have seen.

mod items;

use items::bytes;
use model::heartbeat::MOST_IN_PATTERN;
use model::heartbeats::Heartbeats;
use model::host::heartbeat;
use model::make_broken;
use model::make_heartbeat::{self, EVERY};
use model::random::Random;
use model::text;
use std::collections::BTreeMap;

/// The number that a call is refused with, or 0.
fn refusal((pattern, repeats): &make_heartbeat::Call) -> u64 {
    heartbeat(pattern, *repeats) & 255
}

/// The call without the fault is not refused.
#[test]
fn each_rule_broken_alone() {
    let mut random = Random::new(1);
    for (name, fault) in EVERY {
        for _ in 0..30 {
            let (whole, call) = make_heartbeat::make(&mut random, *fault);
            assert_eq!(refusal(&whole), 0, "{name}");
            assert_eq!(refusal(&call), fault.number(), "{name}");
        }
    }
}

/// 256 events done and any byte is 3; else the item's own fault comes before a run that passes the
/// 256th.
#[test]
fn each_fault_of_a_run_at_the_256th_event() {
    let mut random = Random::new(2);
    for broken in make_broken::EVERY {
        for left in 0..4 {
            let events = MOST_IN_PATTERN - left;
            let bytes = make_broken::behind(&mut random, events, broken.fault);
            let number = match broken.fault {
                make_broken::Fault::Million(_, count) if usize::from(count) <= left => 0,
                make_broken::Fault::Million(..) => 3,
                _ if left == 0 => 3,
                _ => 2,
            };
            assert_eq!(refusal(&(bytes, 1)), number, "{}, {left}", broken.name);
        }
    }
}

/// How often each answer comes up in 20,000 calls: refused, permitted or not.
#[test]
fn every_answer_comes_up_often() {
    let mut random = Random::new(3);
    let mut counts: BTreeMap<String, u32> = BTreeMap::new();
    for _ in 0..20_000 {
        let (pattern, repeats) = make_heartbeat::any(&mut random);
        let answer = heartbeat(&pattern, repeats);
        let name = match (answer & 255, answer >> 8 & 255) {
            (0, permitted) => format!("permitted {permitted}"),
            (number, _) => format!("refused {number}"),
        };
        *counts.entry(name).or_default() += 1;
    }
    let least = [
        ("permitted 0", 3_000),
        ("permitted 1", 6_000),
        ("refused 1", 500),
        ("refused 2", 500),
        ("refused 3", 500),
        ("refused 9", 1_000),
    ];
    assert_eq!(counts.len(), least.len(), "{counts:?}");
    for (name, least) in least {
        assert!(counts[name] > least, "{name}: {counts:?}");
    }
}

/// What is seen in a call.
fn seen(pattern: &[u8], repeats: u64) -> Vec<String> {
    let mut heartbeats = Heartbeats::default();
    let mut sights = heartbeats.missing();
    heartbeats.look(pattern, repeats);
    let missing = heartbeats.missing();
    sights.retain(|sight| !missing.contains(sight));
    sights
}

const LAST: &str = "the last round that is permitted";
const ONE_MORE: &str = "one round more than is permitted";

#[test]
fn what_is_seen_in_a_call() {
    // loLimit 100 and hiLimit 300: round 6 is the first that is not permitted.
    let falls = bytes("060001003200 060003003c00");
    assert_eq!(seen(&falls, 1), ["one round, and below loLimit"]);
    assert_eq!(seen(&falls, 4), [""; 0]);
    assert_eq!(seen(&falls, 5), [LAST]);
    assert_eq!(seen(&falls, 6), [ONE_MORE]);
    let most = "1000000 events, not permitted";
    assert_eq!(seen(&falls, 500_000), [most]);
    assert_eq!(seen(&falls, 500_001), [""; 0]);
    // Round 2 is.
    let second = bytes("060001000100 060003001000");
    assert_eq!(seen(&second, 2), ["lost in the second round"]);
    let never = bytes("060003001000 060003001000 060003001000");
    assert_eq!(seen(&never, 1), ["lost in the first round"]);
    let none = "no repeats of what is lost in the first round";
    assert_eq!(seen(&never, 0), [none]);
    let fewer = "as many repeats as may be, of fewer events";
    assert_eq!(seen(&never, 333_333), ["lost in the first round", fewer]);
    // 1 more each round, up to 284 behind round 184.
    let rises = bytes("060001001100 060003001000");
    assert_eq!(seen(&rises, 1), ["one round, and above loLimit"]);
    assert_eq!(seen(&rises, 500_000), ["1000000 events, permitted"]);
    let run = bytes("0a000400020000000001");
    let at = "one round, and at loLimit";
    let with = "256 events with a run";
    assert_eq!(seen(&run, 1), [at, with, "a run of 256 alone"]);
    let without = bytes(&"060002000000".repeat(256));
    assert_eq!(seen(&without, 1), [at, "256 events without a run"]);
    let empty = "an empty pattern 2^64 - 1 times";
    assert_eq!(seen(&bytes(""), u64::MAX), [empty]);
}

/// mtu and loLimit 2,000, hiLimit 10,000.
#[test]
fn what_is_seen_after_1000_rounds() {
    let header = "0e00 1000 d007 d0070000 10270000";
    let pattern = |items: &str| text::decode(format!("{header} {items}").as_bytes());
    // A tick of 1,999 and a send of 2,000: rounds 1 to 1,999 are permitted.
    let falls = pattern("06000100cf07 06000300d007").unwrap();
    let late = "the credit falls in the 1000th round or later";
    assert_eq!(seen(&falls, 999), [""; 0]);
    assert_eq!(seen(&falls, 1_000), [late]);
    assert_eq!(seen(&falls, 1_999), [LAST, late]);
    let lost = "lost after 1000 rounds";
    assert_eq!(seen(&falls, 2_000), [lost, ONE_MORE]);
    let rises = pattern("060001001100 060003001000").unwrap();
    let late = "the credit rises in the 1000th round or later";
    assert_eq!(seen(&rises, 1_000), [late]);
    // loLimit 64 and hiLimit 1,048,576: a tick of 1.
    let slowly = text::decode(b"0e00 1000 4000 40000000 00001000 060001000100").unwrap();
    assert_eq!(seen(&slowly, 599_999), [late]);
    let later = "the credit rises in the 600000th round or later";
    assert_eq!(seen(&slowly, 600_000), [late, later]);
}

/// Random calls see all that must be seen.
#[test]
fn random_calls_see_all() {
    let mut random = Random::new(4);
    let mut heartbeats = Heartbeats::default();
    for _ in 0..20_000 {
        let (pattern, repeats) = make_heartbeat::any(&mut random);
        heartbeats.look(&pattern, repeats);
    }
    assert_eq!(heartbeats.missing(), Vec::<String>::new());
}

//! What `rpr compare` prints: texts worked out by hand.

use model::compare::{compare, Side};
use model::make_pair::WAYS;
use model::make_runs;
use model::random::Random;
use model::record::{Event, MOST_EVENTS};
use model::text;

/// mtu 64, loLimit 100, hiLimit 300, as in the proved examples.
const HEADER: &str = "0e00 1000 4000 64000000 2c010000";
/// The events of the document's example: waiting 150, send 60, send 64, idle 50.
const EVENTS: [&str; 4] = [
    "060001009600",
    "060003003c00",
    "060003004000",
    "060002003200",
];
const SUMMARY: &str = "events 4\naccrued 200\nsent 124\nceiling 100\nneed 11\n\
                       start 100 permitted end 100\n";
const EMPTY: &str = "events 0\naccrued 0\nsent 0\nceiling 300\nneed 0\n\
                     start 100 permitted end 100\n";

fn record(header: &str, events: &[&str]) -> Vec<u8> {
    let hex = format!("{header} {}", events.join(" "));
    text::decode(hex.as_bytes()).unwrap()
}

/// The document's record with one event replaced.
fn with(place: usize, event: &str) -> Vec<u8> {
    let mut events = EVENTS;
    events[place] = event;
    record(HEADER, &events)
}

fn example() -> Vec<u8> {
    record(HEADER, &EVENTS)
}

/// What is printed for two records: these lines, then the two summaries.
fn assert_prints(first: &[u8], second: &[u8], lines: &str, summaries: [&str; 2]) {
    let printed = compare(first, second);
    let [one, other] = summaries;
    assert_eq!(printed.text, format!("{lines}first\n{one}second\n{other}"));
    assert_eq!(printed.refused, None);
}

fn assert_refuses(first: &[u8], second: &[u8], side: Side, number: u8) {
    let printed = compare(first, second);
    assert_eq!(printed.text, format!("refused {number}\n"));
    let refused = printed
        .refused
        .map(|(side, refusal)| (side, refusal.number()));
    assert_eq!(refused, Some((side, number)));
}

/// "equal records give an empty list"
#[test]
fn equal_records() {
    assert_prints(&example(), &example(), "", [SUMMARY, SUMMARY]);
}

#[test]
fn a_kind_alone_differs() {
    let other = "events 4\naccrued 200\nsent 124\nceiling 226\nneed 11\n\
                 start 100 permitted end 176\n";
    let second = with(3, "060001003200");
    let line = "event 3: idle 50, waiting 50\n";
    assert_prints(&example(), &second, line, [SUMMARY, other]);
}

#[test]
fn a_number_alone_differs() {
    let other = "events 4\naccrued 200\nsent 125\nceiling 100\nneed 12\n\
                 start 100 permitted end 100\n";
    let second = with(1, "060003003d00");
    let line = "event 1: send 60, send 61\n";
    assert_prints(&example(), &second, line, [SUMMARY, other]);
    let line = "event 1: send 61, send 60\n";
    assert_prints(&second, &example(), line, [other, SUMMARY]);
}

#[test]
fn kind_and_number_differ() {
    let other = "events 4\naccrued 215\nsent 60\nceiling 100\nneed 0\n\
                 start 100 permitted end 100\n";
    let second = with(2, "060001000f00");
    let line = "event 2: send 64, waiting 15\n";
    assert_prints(&example(), &second, line, [SUMMARY, other]);
}

#[test]
fn each_setting_alone() {
    let summary = |ceiling, start, end| {
        format!(
            "events 1\naccrued 150\nsent 0\nceiling {ceiling}\nneed 0\n\
             start {start} permitted end {end}\n"
        )
    };
    let tick = &EVENTS[..1];
    for (header, line, other) in [
        (
            "0e00 1000 4100 64000000 2c010000",
            "mtu 64, 65\n",
            summary(300, 100, 250),
        ),
        (
            "0e00 1000 4000 65000000 2c010000",
            "loLimit 100, 101\n",
            summary(300, 101, 251),
        ),
        (
            "0e00 1000 4000 64000000 c8000000",
            "hiLimit 300, 200\n",
            summary(200, 100, 200),
        ),
    ] {
        let (first, second) = (record(HEADER, tick), record(header, tick));
        let own = summary(300, 100, 250);
        assert_prints(&first, &second, line, [&own, &other]);
    }
}

/// "Settings that differ are printed first; the events are compared all the same, each
/// summary under its own settings."
#[test]
fn all_settings_and_events() {
    let first = record(HEADER, &["060003003c00"]);
    let header = "0e00 1000 8000 80000000 90010000";
    let second = record(header, &["060001003c00", "060003006400"]);
    let lines = "mtu 64, 128\nloLimit 100, 128\nhiLimit 300, 400\n\
                 event 0: send 60, waiting 60\nsecond only, event 1: send 100\n";
    let one = "events 1\naccrued 0\nsent 60\nceiling 240\nneed 101\nstart 100 not permitted\n";
    let other = "events 2\naccrued 60\nsent 100\nceiling 300\nneed 69\n\
                 start 128 permitted end 88\n";
    assert_prints(&first, &second, lines, [one, other]);
}

#[test]
fn the_events_of_the_longer_one() {
    let shorter = record(HEADER, &EVENTS[..2]);
    let p2 = "events 2\naccrued 150\nsent 60\nceiling 240\nneed 0\nstart 100 permitted end 190\n";
    let lines = "first only, event 2: send 64\nfirst only, event 3: idle 50\n";
    assert_prints(&example(), &shorter, lines, [SUMMARY, p2]);
    let lines = "second only, event 2: send 64\nsecond only, event 3: idle 50\n";
    assert_prints(&shorter, &example(), lines, [p2, SUMMARY]);
}

/// "Compare by position only."
#[test]
fn an_event_at_the_front_moves_all_behind_it() {
    let first = record(HEADER, &["060001000100", "060002000200"]);
    let second = record(HEADER, &["060003001000", "060001000100", "060002000200"]);
    let lines = "event 0: waiting 1, send 16\nevent 1: idle 2, waiting 1\n\
                 second only, event 2: idle 2\nfirst\n";
    assert!(compare(&first, &second).text.starts_with(lines));
}

#[test]
fn a_header_alone() {
    let header = record(HEADER, &[]);
    assert_prints(&header, &header, "", [EMPTY, EMPTY]);
    let lines = "first only, event 0: waiting 150\nfirst only, event 1: send 60\n\
                 first only, event 2: send 64\nfirst only, event 3: idle 50\n";
    assert_prints(&example(), &header, lines, [SUMMARY, EMPTY]);
}

#[test]
fn an_empty_file() {
    assert_refuses(&[], &example(), Side::First, 2);
    assert_refuses(&example(), &[], Side::Second, 2);
    assert_refuses(&[], &[], Side::First, 2);
}

/// "as for one record, the first file's before the second's"
#[test]
fn the_first_files_refusal_before_the_seconds() {
    let mut over = record(HEADER, &[]);
    over.extend(Event::Waiting(1).to_bytes().repeat(MOST_EVENTS));
    assert_eq!(compare(&over, &example()).refused, None);
    over.push(0);
    let refused = [
        (1, record("0e00 1000 3f00 64000000 2c010000", &[])),
        (2, example()[..37].to_vec()),
        (3, with(1, "060003000f00")),
        (9, over),
    ];
    for (number, one) in &refused {
        assert_refuses(one, &example(), Side::First, *number);
        assert_refuses(&example(), one, Side::Second, *number);
        for (_, other) in &refused {
            assert_refuses(one, other, Side::First, *number);
        }
    }
}

/// "summaries, A1 and A3 give the same answers on either form".
#[test]
fn records_with_runs() {
    let run = record(HEADER, &["060003003c00", "0a000400020032000300"]);
    let ticks = ["060003003c00", "060002003200", "060001003200"];
    let other = record(HEADER, &ticks);
    let lines = "event 2: idle 50, waiting 50\nfirst only, event 3: idle 50\nfirst\n";
    assert!(compare(&run, &other).text.starts_with(lines));
    let mut random = Random::new(2);
    for _ in 0..300 {
        let listed = make_runs::with_run(&mut random);
        let (new, old) = (listed.to_bytes(), listed.unrolled().to_bytes());
        assert_eq!(compare(&new, &old), compare(&old, &old));
        assert_eq!(compare(&new, &example()), compare(&old, &example()));
        assert_eq!(compare(&example(), &new), compare(&example(), &old));
    }
}

/// Pairs that differ in one thing have that line alone.
#[test]
fn made_pairs_differ_as_their_way_says() {
    let mut random = Random::new(1);
    for turn in 0..200 {
        for (way, begin) in [
            ("one kind other", "event "),
            ("one number other", "event "),
            ("one event other", "event "),
            ("mtu other", "mtu "),
            ("loLimit other", "loLimit "),
            ("hiLimit other", "hiLimit "),
        ] {
            let (_, make) = WAYS.iter().find(|(name, _)| *name == way).unwrap();
            let (first, second) = make(&mut random, turn);
            let text = compare(&first, &second).text;
            assert!(text.starts_with(begin), "{way}: {text}");
            assert_eq!(text.lines().nth(1), Some("first"), "{way}: {text}");
        }
    }
}

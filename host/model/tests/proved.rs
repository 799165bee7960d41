//! P1 to P6 and the printed example.

use model::command::{self, Given, Shown};
use model::record::{Event, Record, Settings};
use model::summary::{run, Summary};

const SETTINGS: Settings = Settings {
    mtu: 64,
    lo_limit: 100,
    hi_limit: 300,
};

fn summary(events: &[Event]) -> Summary {
    let record = Record {
        settings: SETTINGS,
        events: events.to_vec(),
    };
    Summary::of_record(&record).unwrap()
}

/// "P1 empty: ceiling 300, need 0."
#[test]
fn p1() {
    let p1 = summary(&[]);
    assert_eq!((p1.ceiling, p1.need, p1.events), (300, 0, 0));
}

/// "P2 waiting tick 150, send 60: accrued 150, sent 60, ceiling 240, need 0."
#[test]
fn p2() {
    let p2 = summary(&[Event::Waiting(150), Event::Send(60)]);
    assert_eq!(
        (p2.accrued, p2.sent, p2.ceiling, p2.need),
        (150, 60, 240, 0)
    );
}

/// "P3 P2 then send 64: ceiling 176, need 11. From 11 permitted, from 10 not."
#[test]
fn p3() {
    let events = [Event::Waiting(150), Event::Send(60), Event::Send(64)];
    let p3 = summary(&events);
    assert_eq!((p3.ceiling, p3.need), (176, 11));
    assert_eq!(p3.settle(11), Ok(Some(37)));
    assert_eq!(p3.settle(10), Ok(None));
    assert_eq!(run(&SETTINGS, &events, 11), Some(37));
    assert_eq!(run(&SETTINGS, &events, 10), None);
}

/// "P4 send 60 twice: ceiling 180, need 161."
#[test]
fn p4() {
    let p4 = summary(&[Event::Send(60); 2]);
    assert_eq!((p4.ceiling, p4.need), (180, 161));
}

/// "P5 send 64 five times: need 301."
#[test]
fn p5() {
    let p5 = summary(&[Event::Send(64); 5]);
    assert_eq!((p5.ceiling, p5.need), (-20, 301));
    assert!(p5.in_range());
}

/// "P6 credit 100 doesn't permit, 101 does."
#[test]
fn p6() {
    assert_eq!(run(&SETTINGS, &[Event::Send(64)], 100), None);
    assert_eq!(run(&SETTINGS, &[Event::Send(64)], 101), Some(37));
    assert_eq!(summary(&[Event::Send(64)]).settle(100), Ok(None));
    assert_eq!(summary(&[Event::Send(64)]).settle(101), Ok(Some(37)));
}

const HEX: &str = "0e00 1000 4000 64000000 2c010000 060001009600 060003003c00 \
                   060003004000 060002003200";
const PRINTED: &str = "events 4\naccrued 200\nsent 124\nceiling 100\nneed 11\n\
                       start 100 permitted end 100\n";

/// What is printed of this text.
fn printed(input: &str) -> String {
    let file = (String::new(), input.as_bytes().to_vec());
    let said = command::summarize(&file, Given::Text, Shown::Lines);
    String::from_utf8(said.output).unwrap()
}

#[test]
fn printed_example() {
    assert_eq!(printed(HEX), PRINTED);
}

#[test]
fn blanks_and_line_ends_are_skipped_anywhere() {
    let spread: String = HEX
        .chars()
        .flat_map(|digit| [digit, '\t', '\r', '\n'])
        .collect();
    assert_eq!(printed(&spread), PRINTED);
    assert_eq!(printed(&HEX.replace(' ', "")), PRINTED);
    assert_eq!(printed(&HEX.to_uppercase()), PRINTED);
}

#[test]
fn other_text_or_an_odd_digit_is_2_before_all_else() {
    let bad_setting = "0e00 1000 3f00 64000000 2c010000";
    assert_eq!(printed(bad_setting), "refused 1\n");
    for tail in ["0", "g", "0x", ".", "\u{b}", "é"] {
        let input = format!("{bad_setting} {tail}");
        assert_eq!(printed(&input), "refused 2\n");
        let input = format!("{tail} {bad_setting}");
        assert_eq!(printed(&input), "refused 2\n");
    }
    assert_eq!(printed(""), "refused 2\n");
    assert_eq!(printed(" \n"), "refused 2\n");
}

#[test]
fn not_permitted_when_need_is_larger_than_the_start() {
    let header = "0e00 1000 4000 64000000 2c010000";
    let one = format!("{header} 060001000100 060003001000");
    assert!(printed(&one).ends_with("need 100\nstart 100 permitted end 85\n"));
    let none = format!("{header} 060001000000 060003001000");
    assert!(printed(&none).ends_with("need 101\nstart 100 not permitted\n"));
}

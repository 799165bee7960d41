//! What the command does: messages, statuses and bytes worked out by hand.

use model::command::{compare, join, moved, summarize, File, Given, Mover, Said, Shown};
use model::host;
use model::record::{Event, Record, Settings, MOST_EVENTS};
use model::summary::Summary;
use model::text;

const SETTINGS: Settings = Settings {
    mtu: 64,
    lo_limit: 100,
    hi_limit: 300,
};
const HEADER: &str = "0e00 1000 4000 64000000 2c010000";
const EVENTS: [Event; 4] = [
    Event::Waiting(150),
    Event::Send(60),
    Event::Send(64),
    Event::Idle(50),
];
const LINES: &str = "events 4\naccrued 200\nsent 124\nceiling 100\nneed 11\n\
                     start 100 permitted end 100\n";
const NOT_HEX: &str = "hex is expected, and this is other text; --bytes reads bytes";

fn file(name: &str, bytes: &[u8]) -> File {
    (name.to_string(), bytes.to_vec())
}

fn record(events: &[Event]) -> Vec<u8> {
    let (settings, events) = (SETTINGS, events.to_vec());
    Record { settings, events }.to_bytes()
}

/// A summary of these numbers: events, accrued, sent, ceiling, need.
fn sheet([events, accrued, sent, ceiling, need]: [i128; 5]) -> Vec<u8> {
    host::to_bytes(&Summary {
        settings: SETTINGS,
        events,
        accrued,
        sent,
        ceiling,
        need,
    })
}

/// So many waiting ticks of 0.
fn ticks(events: i128) -> Vec<u8> {
    sheet([events, 0, 0, 300, 0])
}

/// The same under a larger mtu.
fn other_settings(mut sheet: Vec<u8>) -> Vec<u8> {
    sheet[0] = 65;
    sheet
}

fn joined(sheets: &[&[u8]], shown: Shown) -> Said {
    let names = ["one", "two", "three", "four"];
    let files: Vec<File> = names.iter().zip(sheets).map(|(n, s)| file(n, s)).collect();
    join(&files, shown).unwrap()
}

fn assert_done(said: &Said, output: &[u8]) {
    assert_eq!(
        String::from_utf8_lossy(&said.output),
        String::from_utf8_lossy(output)
    );
    assert_eq!((said.error.as_str(), said.status), ("", 0));
}

/// The run ends so, with `refused N` on standard output.
fn assert_refused(said: &Said, name: &str, number: u8, words: &str) {
    assert_eq!(said.output, format!("refused {number}\n").into_bytes());
    assert_says_refused(said, name, number, words);
}

/// Nothing stands on standard output where a record would.
fn assert_not_moved(said: &Said, name: &str, number: u8, words: &str) {
    assert!(said.output.is_empty());
    assert_says_refused(said, name, number, words);
}

fn assert_says_refused(said: &Said, name: &str, number: u8, words: &str) {
    assert_eq!(
        said.error,
        format!("rpr: {name}: refused {number}: {words}\n")
    );
    assert_eq!(said.status, 1);
}

#[test]
fn a_record_as_text_and_as_bytes() {
    let bytes = record(&EVENTS);
    let hex = file("x", text::encode(&bytes).as_bytes());
    assert_done(
        &summarize(&hex, Given::Text, Shown::Lines),
        LINES.as_bytes(),
    );
    let bytes = file("x", &bytes);
    assert_done(
        &summarize(&bytes, Given::Bytes, Shown::Lines),
        LINES.as_bytes(),
    );
    let mut expected = vec![64, 0, 0, 0, 100, 0, 0, 0, 44, 1, 0, 0, 4, 0, 0, 0];
    for word in [200_u64, 124, 100, 11] {
        expected.extend(word.to_le_bytes());
    }
    assert_done(&summarize(&hex, Given::Text, Shown::Sheet), &expected);
    assert_done(&summarize(&bytes, Given::Bytes, Shown::Sheet), &expected);
}

#[test]
fn a_sheet_has_a_negative_ceiling_in_twos_complement() {
    let bytes = file("x", &record(&[Event::Send(64); 5]));
    let said = summarize(&bytes, Given::Bytes, Shown::Sheet);
    assert_eq!(
        said.output[32..40],
        [236, 255, 255, 255, 255, 255, 255, 255]
    );
    assert_eq!(said.output[40..48], [45, 1, 0, 0, 0, 0, 0, 0]);
}

#[test]
fn text_that_is_not_hex_says_so() {
    for tail in [
        "zz",
        "0",
        "060003000f00 zz",
        "060003000f00 0",
        "\0",
        "\u{feff}",
    ] {
        let input = file("night.hex", format!("{HEADER} {tail}").as_bytes());
        let said = summarize(&input, Given::Text, Shown::Lines);
        assert_refused(&said, "night.hex", 2, NOT_HEX);
    }
}

#[test]
fn refusals_of_a_record() {
    let whole = "the bytes are not a whole record";
    for (hex, number, words) in [
        ("", 2, whole),
        ("0e00 1000 4000 64000000 2c0100", 2, whole),
        ("0e00 1000 3f00 64000000 2c010000 zz", 2, NOT_HEX),
        (
            "0e00 1000 3f00 64000000 2c010000 00",
            1,
            "a setting is outside its range",
        ),
        ("0e00 1000 4000 64000000 2c010000 060004000000", 2, whole),
        (
            "0e00 1000 4000 64000000 2c010000 060003000f00 06",
            3,
            "the size of a send is outside its range",
        ),
    ] {
        let said = summarize(&file("a", hex.as_bytes()), Given::Text, Shown::Lines);
        assert_refused(&said, "a", number, words);
        let sheet = summarize(&file("a", hex.as_bytes()), Given::Text, Shown::Sheet);
        assert_eq!((sheet.error, sheet.status), (said.error, 1));
        assert!(sheet.output.is_empty());
    }
    let mut over = record(&vec![Event::Idle(1); MOST_EVENTS]);
    over.push(0);
    let said = summarize(&file("a", &over), Given::Bytes, Shown::Lines);
    assert_refused(&said, "a", 9, "over 1,000,000 events");
}

#[test]
fn records_moved_and_refused() {
    let ticks = [Event::Idle(5), Event::Idle(5), Event::Send(60)];
    let (old, new) = (record(&ticks), {
        let run = "0a000400020005000200 060003003c00";
        text::decode(format!("{HEADER} {run}").as_bytes()).unwrap()
    });
    assert_done(&moved(&file("a", &old), Mover::Roll), &new);
    assert_done(&moved(&file("a", &new), Mover::Unroll), &old);
    assert_done(&moved(&file("a", &old), Mover::Unroll), &old);
    let whole = "the bytes are not a whole record";
    let whole_old = "the bytes are not a whole record without runs";
    assert_not_moved(&moved(&file("a", &new), Mover::Roll), "a", 2, whole_old);
    for (mover, whole) in [(Mover::Roll, whole_old), (Mover::Unroll, whole)] {
        let name = mover.name();
        let said = moved(&file(name, &old[..old.len() - 1]), mover);
        assert_not_moved(&said, name, 2, whole);
        let said = moved(&file(name, &record(&[Event::Send(65)])), mover);
        let size = "the size of a send is outside its range";
        assert_not_moved(&said, name, 3, size);
        let mut over = record(&vec![Event::Idle(1); MOST_EVENTS]);
        over.push(0);
        let said = moved(&file(name, &over), mover);
        assert_not_moved(&said, name, 9, "over 1,000,000 events");
    }
}

#[test]
fn one_summary_alone() {
    let one = sheet([4, 200, 124, 100, 11]);
    assert_done(&joined(&[&one], Shown::Lines), LINES.as_bytes());
    assert_done(&joined(&[&one], Shown::Sheet), &one);
    assert!(join(&[], Shown::Lines).is_none());
}

/// P2, then two sends, then an idle tick: not the larger of the needs, nor one ceiling.
#[test]
fn joined_in_the_order_given() {
    let (p2, send, idle) = (
        sheet([2, 150, 60, 240, 0]),
        sheet([1, 0, 64, 236, 101]),
        sheet([1, 50, 0, 100, 0]),
    );
    assert_done(
        &joined(&[&p2, &send, &idle], Shown::Lines),
        LINES.as_bytes(),
    );
    let other = "events 4\naccrued 200\nsent 124\nceiling 36\nneed 301\n\
                 start 100 not permitted\n";
    let said = joined(&[&p2, &idle, &send], Shown::Lines);
    assert_done(&said, other.as_bytes());
}

#[test]
fn a_file_that_is_not_48_bytes() {
    let good = ticks(1);
    for length in [0, 1, 47, 49, 96] {
        let bad = vec![0; length];
        let words = "not the 48 bytes of a summary";
        assert_refused(&joined(&[&bad], Shown::Lines), "one", 2, words);
        assert_refused(&joined(&[&good, &bad], Shown::Lines), "two", 2, words);
    }
}

#[test]
fn a_summary_out_of_its_range() {
    let words = "the summary is outside its range";
    let good = ticks(1);
    for bad in [
        vec![0; 48],
        vec![255; 48],
        sheet([0, 0, 0, 301, 0]),
        sheet([0, 0, 0, 300, 302]),
        sheet([1_000_001, 0, 0, 300, 0]),
        sheet([1, 65_536, 0, 300, 0]),
        sheet([1, 0, 9_217, -9_217, 301]),
        sheet([1, 0, 60, 241, 101]),
        sheet([1, 0, 60, 240, 59]),
        sheet([1, 0, 60, -1, 300]),
    ] {
        assert_refused(&joined(&[&bad], Shown::Lines), "one", 3, words);
        assert_refused(
            &joined(&[&good, &bad, &good], Shown::Lines),
            "two",
            3,
            words,
        );
    }
    let edges = [sheet([1, 0, 60, 240, 60]), sheet([1, 65_535, 0, 300, 301])];
    for edge in &edges {
        assert_done(&joined(&[edge], Shown::Sheet), edge);
    }
}

#[test]
fn settings_before_events_and_file_by_file() {
    let many = ticks(700_000);
    let other = other_settings(many.clone());
    let (settings, events) = (
        "its settings are not those of the files before it",
        "over 1,000,000 events with the files before it",
    );
    assert_refused(&joined(&[&many, &other], Shown::Lines), "two", 10, settings);
    assert_refused(&joined(&[&many, &many], Shown::Lines), "two", 9, events);
    let said = joined(&[&ticks(1), &many, &many, &[]], Shown::Lines);
    assert_refused(&said, "three", 9, events);
    let said = joined(&[&many, &other, &[], &[]], Shown::Lines);
    assert_refused(&said, "two", 10, settings);
    let bad = other_settings(sheet([0, 0, 0, 301, 0]));
    let said = joined(&[&many, &bad], Shown::Lines);
    assert_refused(&said, "two", 3, "the summary is outside its range");
}

#[test]
fn a_million_events_in_all() {
    let (half, rest) = (ticks(500_000), ticks(500_001));
    let said = joined(&[&half, &half], Shown::Sheet);
    assert_done(&said, &ticks(1_000_000));
    let said = joined(&[&half, &half, &ticks(0)], Shown::Sheet);
    assert_done(&said, &ticks(1_000_000));
    let said = joined(&[&half, &rest], Shown::Sheet);
    assert!(said.output.is_empty());
    assert_eq!(said.status, 1);
}

#[test]
fn records_the_same_different_and_refused() {
    let record = |events: &[Event]| record(events);
    let (first, second) = (
        file("a", &record(&EVENTS)),
        file("b", &record(&EVENTS[..3])),
    );
    let same = compare(&[first.clone(), file("b", &record(&EVENTS))]);
    assert_eq!((same.error.as_str(), same.status), ("", 0));
    let differ = compare(&[first.clone(), second.clone()]);
    assert_eq!((differ.error.as_str(), differ.status), ("", 1));
    assert!(differ
        .output
        .starts_with(b"first only, event 3: idle 50\nfirst\nevents 4\n"));
    let refused = compare(&[first, file("c d", &second.1[..19])]);
    assert_eq!(refused.output, b"refused 2\n");
    assert_eq!(
        refused.error,
        "rpr: c d: refused 2: the bytes are not a whole record\n"
    );
    assert_eq!(refused.status, 2);
}

//! The case file.

use model::cases;
use model::make;
use model::make_runs;
use model::random::Random;
use model::report::notation;
use model::text;
use std::collections::{BTreeMap, BTreeSet};

const FILE: &str = include_str!("../cases.txt");

fn printed(line: &str) -> String {
    cases::parse(line).unwrap().print().unwrap()
}

#[test]
fn every_case_prints_and_every_refusal_is_there() {
    let mut names = BTreeSet::new();
    let mut outcomes: BTreeMap<String, usize> = BTreeMap::new();
    for case in FILE.lines().filter_map(cases::parse) {
        assert!(names.insert(case.name), "{} comes twice", case.name);
        let text = case.print().unwrap();
        let first = text.lines().nth(1).unwrap().to_string();
        *outcomes.entry(first).or_default() += 1;
    }
    for number in [1, 2, 3, 9, 10] {
        assert!(outcomes.contains_key(&format!("refused {number}")));
    }
    assert!(outcomes.contains_key("events 1000000"));
}

#[test]
fn comments_and_empty_lines_print_nothing() {
    for line in ["", "  ", "# words"] {
        assert!(cases::parse(line).is_none());
    }
}

#[test]
fn steps_repeat_and_pieces_join() {
    let header = "0e00 1000 4000 64000000 2c010000";
    let whole = printed(&format!(
        "x {header} 3*060003004000 2*060001000100060002000100"
    ));
    let pieces = printed(&format!(
        "x {header} 060003004000 | {header} 2*060003004000 \
         060001000100 060002000100 060001000100 | {header} 060002000100"
    ));
    assert_eq!(whole, pieces);
    assert!(whole.starts_with("x\nevents 7\n"));
    assert_eq!(printed("nothing"), "nothing\nrefused 2\n");
}

#[test]
fn the_first_refused_piece_counts_before_a_refused_join() {
    let header = "0e00 1000 4000 64000000 2c010000";
    let other = "0e00 1000 4100 64000000 2c010000";
    assert_eq!(printed(&format!("x {header} | {other}")), "x\nrefused 10\n");
    let line = format!("x {header} | {other} | {header} 060003000f00");
    assert_eq!(printed(&line), "x\nrefused 3\n");
}

#[test]
fn a_word_that_is_no_step_is_named() {
    for word in ["0", "xy", "a*00", "2*", "-1*00"] {
        let line = format!("x {word}");
        let fault = cases::parse(&line).unwrap().print().unwrap_err();
        assert!(fault.contains(word), "{fault}");
    }
}

/// What a case of this name prints, but for its name.
fn outcome(name: &str) -> String {
    let mut cases = FILE.lines().filter_map(cases::parse);
    let case = cases.find(|case| case.name == name).unwrap();
    let text = case.print().unwrap();
    text.strip_prefix(name).unwrap().to_string()
}

/// Runs beside the same ticks one by one, and pieces of one record that is cut inside a run.
#[test]
fn cases_of_the_same_events() {
    let names = FILE.lines().filter_map(cases::parse).map(|case| case.name);
    let (mut unrolled, mut cut) = (0, 0);
    for name in names {
        if let Some(rolled) = name.strip_suffix("-unrolled") {
            assert_eq!(outcome(rolled), outcome(name), "{name}");
            unrolled += 1;
        }
        if name.starts_with("pieces-run-cut-") {
            assert_eq!(outcome("pieces-run-whole"), outcome(name), "{name}");
            cut += 1;
        }
    }
    assert_eq!((unrolled, cut), (30, 6));
}

/// What a differential test prints of a record is a case of the same bytes.
#[test]
fn the_notation_of_any_bytes_reads_back() {
    let mut random = Random::new(1);
    for turn in 0..3_000 {
        let bytes = match turn % 3 {
            0 => make::damaged(&mut random, 40),
            1 => make_runs::damaged(&mut random),
            _ => make_runs::listed(&mut random).to_bytes(),
        };
        let line = format!("x {}", notation(&bytes));
        let case = cases::parse(&line).unwrap();
        assert_eq!(case.bytes(), Ok(bytes), "{line}");
    }
    let header = "0e0010004000640000002c010000";
    let run = "0a000400020032000300";
    let bytes = text::decode(format!("{header}{run}{run}060003003c00{run}06").as_bytes());
    let shown = format!("{header} 2*{run} 060003003c00 {run} 06");
    assert_eq!(notation(&bytes.unwrap()), shown);
}

#[test]
fn the_example_prints_as_the_document_says() {
    let example = FILE
        .lines()
        .find(|line| line.starts_with("example "))
        .unwrap();
    let hex = example.strip_prefix("example ").unwrap();
    let summary = text::summarize(&text::decode(hex.as_bytes()).unwrap());
    assert_eq!(
        printed(example),
        format!("example\n{}", text::show(summary))
    );
}

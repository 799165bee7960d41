//! The command `rpr compare` against the model.
//!
//! `halls SEED PAIRS FOLDER PROGRAM [WORDS..]`: makes random pairs of record files in
//! FOLDER, runs `PROGRAM [WORDS..] FIRST SECOND` on each, and holds standard output,
//! standard error and the exit status to the model, byte for byte.
//!
//! Prints how often each way to make a pair was taken and each outcome came up. Ends
//! with 1 on the first difference, and then leaves the two files, or where a way or an
//! outcome never came up.

use model::command::{self, File, Said};
use model::compare;
use model::make_pair::{self, Way};
use model::random::Random;
use model::record;
use model::refusal::Refusal;
use model::report::Outcome;
use model::trial::{self, Seen};
use std::collections::BTreeSet;
use std::env;
use std::fs;
use std::process::{Command, ExitCode, Output};

const USAGE: &str = "usage: halls SEED PAIRS FOLDER PROGRAM [WORDS..]";

/// What must come up beside every pair of refusals 1, 2 and 3.
const OUTCOMES: &[&str] = &[
    "no difference",
    "mtu differs",
    "loLimit differs",
    "hiLimit differs",
    "kind alone differs",
    "number alone differs",
    "kind and number differ",
    "events in the first only",
    "events in the second only",
    "first refused 1",
    "first refused 2",
    "first refused 3",
    "first refused 9",
    "second refused 1",
    "second refused 2",
    "second refused 3",
    "second refused 9",
    "both to be refused, 9 and 2",
    "both to be refused, 9 and 9",
];

struct Trial {
    random: Random,
    command: Vec<String>,
    names: [String; 2],
    seen: Seen,
}

impl Trial {
    /// Makes a pair, runs the program on it and holds what it says to the model.
    fn run(&mut self, (name, make): &Way, turn: usize) -> Outcome<()> {
        let pair = make(&mut self.random, turn);
        let [first, second] = self.names.clone();
        let files = [(first, pair.0), (second, pair.1)];
        for (file, bytes) in &files {
            fs::write(file, bytes).map_err(|fault| format!("{file}: {fault}"))?;
        }
        let expected = command::compare(&files);
        trial::hold(&expected, &self.program()?).map_err(|fault| {
            let [first, second] = &self.names;
            format!("{name}: {fault}\n  the files are {first} {second}")
        })?;
        self.seen.add(name);
        for outcome in outcomes(&files, &expected) {
            self.seen.add(&outcome);
        }
        Ok(())
    }

    fn program(&self) -> Outcome<Output> {
        let mut command = Command::new(&self.command[0]);
        command.args(&self.command[1..]).args(&self.names);
        let output = command.output();
        output.map_err(|fault| format!("{}: {fault}", self.command[0]))
    }
}

/// Every way and every outcome.
fn required() -> Vec<String> {
    let ways = make_pair::ways().concat();
    let ways = ways.iter().map(|(name, _)| *name);
    let names = ways.chain(OUTCOMES.iter().copied()).map(str::to_string);
    let both = (1..=3).flat_map(|one| (1..=3).map(move |other| both_refused(one, other)));
    names.chain(both).collect()
}

fn both_refused(first: u8, second: u8) -> String {
    format!("both to be refused, {first} and {second}")
}

/// What came up with a pair.
fn outcomes([(_, first), (_, second)]: &[File; 2], said: &Said) -> BTreeSet<String> {
    let number = |bytes| {
        record::read(bytes, compare::FORM)
            .err()
            .map(Refusal::number)
    };
    match (number(first), number(second)) {
        (None, None) => listed(&String::from_utf8_lossy(&said.output)),
        (Some(one), None) => [format!("first refused {one}")].into(),
        (None, Some(other)) => [format!("second refused {other}")].into(),
        (Some(one), Some(other)) => [both_refused(one, other)].into(),
    }
}

/// What the list holds: the lines before the summaries.
fn listed(text: &str) -> BTreeSet<String> {
    let lines = text.lines().take_while(|line| *line != "first");
    let found: BTreeSet<String> = lines.map(|line| difference(line).to_string()).collect();
    if found.is_empty() {
        return ["no difference".to_string()].into();
    }
    found
}

/// What differs by a line of the list.
fn difference(line: &str) -> &'static str {
    let words: Vec<&str> = line.split([' ', ',', ':']).collect();
    match words[..] {
        ["mtu", ..] => "mtu differs",
        ["loLimit", ..] => "loLimit differs",
        ["hiLimit", ..] => "hiLimit differs",
        ["first", "only", ..] => "events in the first only",
        ["second", "only", ..] => "events in the second only",
        ["event", _, _, kind, number, _, other_kind, other_number] => {
            match (kind == other_kind, number == other_number) {
                (false, true) => "kind alone differs",
                (true, false) => "number alone differs",
                _ => "kind and number differ",
            }
        }
        _ => "another line",
    }
}

/// Every pair.
fn run(trial: &mut Trial, pairs: usize) -> Outcome<()> {
    let [ways, once] = make_pair::ways();
    let again = (0..pairs).map(|turn| (&ways[turn % ways.len()], turn / ways.len()));
    for (turn, (way, before)) in again.chain(once.iter().map(|way| (way, 0))).enumerate() {
        trial
            .run(way, before)
            .map_err(|fault| format!("pair {turn}, {fault}"))?;
    }
    for file in &trial.names {
        let _ = fs::remove_file(file);
    }
    Ok(())
}

fn arguments() -> Option<(u64, usize, Trial)> {
    let mut words = env::args().skip(1);
    let seed = words.next()?.parse().ok()?;
    let pairs = words.next()?.parse().ok()?;
    let folder = words.next()?;
    let trial = Trial {
        random: Random::new(seed),
        command: words.collect(),
        names: ["first.rec", "second.rec"].map(|name| format!("{folder}/{name}")),
        seen: Seen::default(),
    };
    (!trial.command.is_empty()).then_some((seed, pairs, trial))
}

fn main() -> ExitCode {
    let Some((seed, pairs, mut trial)) = arguments() else {
        eprintln!("{USAGE}");
        return ExitCode::from(2);
    };
    let difference = run(&mut trial, pairs);
    let name = format!("halls: seed {seed}");
    trial.seen.end(&name, &required(), difference)
}

//! The command `rpr heartbeat` against the model.
//!
//! `heartbeats SEED ROUNDS FOLDER COMMAND`: makes random patterns and repeats, runs COMMAND on
//! each by name, by - and through a pipe, and holds standard output, standard error and the exit
//! status to the model. What is printed must also be what `COMMAND summarize --bytes` prints of
//! the written-out record.
//!
//! Prints how often each thing came up. Ends with 1 on the first difference, or where something
//! never came up. The last round's files stay in FOLDER.

use model::command;
use model::heartbeat;
use model::make_heartbeat::{self, Call, EVERY};
use model::random::Random;
use model::report::Outcome;
use model::trial::{self, Input, Program, Seen};
use std::process::ExitCode;

const USAGE: &str = "usage: heartbeats SEED ROUNDS FOLDER COMMAND";

type Way = (&'static str, fn(&mut Random, usize) -> Call);

/// The ways to make a call, which a run takes in turn.
const WAYS: &[Way] = &[
    ("a whole pattern", |random, _| make_heartbeat::whole(random)),
    ("any pattern", |random, _| make_heartbeat::any(random)),
    ("a damaged pattern", |random, _| {
        make_heartbeat::damaged(random)
    }),
    ("a rule broken", |random, turn| {
        make_heartbeat::make(random, EVERY[turn % EVERY.len()].1).1
    }),
    ("a rule just kept", |random, turn| {
        make_heartbeat::make(random, EVERY[turn % EVERY.len()].1).0
    }),
];

/// How a pattern is brought.
const BROUGHT: [&str; 3] = ["by name", "by -", "through a pipe"];

/// What must come up beside the ways to make a call and to bring it.
const OUTCOMES: &[&str] = &[
    "permitted",
    "not permitted",
    "refused 1",
    "refused 2",
    "refused 3",
    "refused 9",
    "not a number",
    "the written-out record",
];

struct Trial {
    random: Random,
    program: Program,
    seen: Seen,
}

impl Trial {
    /// `rpr heartbeat` on this pattern, brought in any way; what it printed.
    fn held(&mut self, pattern: &[u8], word: &str) -> Outcome<Vec<u8>> {
        let brought = self.random.pick(&BROUGHT);
        let file = self.program.write("pattern", pattern)?;
        let (named, name, input) = match brought {
            "by name" => (file.as_str(), file.as_str(), Input::Nothing),
            "by -" => ("-", "standard input", Input::File(&file)),
            _ => ("-", "standard input", Input::Pipe(pattern)),
        };
        let mut words = vec!["heartbeat", named, word];
        // Behind -- nothing is an option.
        match (self.random.below(4), word.starts_with('-')) {
            (0, _) => words.insert(1, "--"),
            (1, _) | (_, true) => words.insert(2, "--"),
            _ => {}
        }
        let got = self.program.ran(&mut self.random, &words, input)?;
        let expected = command::heartbeat(&(name.to_string(), pattern.to_vec()), word);
        let fault = |fault| format!("rpr {}: {fault}", words.join(" "));
        trial::hold(&expected, &got).map_err(fault)?;
        self.seen.add(brought);
        self.seen.add(&outcome(&expected));
        Ok(got.stdout)
    }

    /// Where it is not refused: `rpr summarize --bytes` prints the same of the written-out record.
    fn written_out(&mut self, (pattern, repeats): &Call, printed: &[u8]) -> Outcome<()> {
        let Ok(read) = heartbeat::repeated(pattern, *repeats) else {
            return Ok(());
        };
        let record = heartbeat::written_out(&read, *repeats).to_bytes();
        let file = self.program.write("written-out", &record)?;
        let words = ["summarize", "--bytes", &file];
        let got = self.program.ran(&mut self.random, &words, Input::Nothing)?;
        if got.stdout != printed {
            let printed = String::from_utf8_lossy(printed);
            let got = String::from_utf8_lossy(&got.stdout);
            return Err(format!("{printed}of the written-out record:\n{got}"));
        }
        self.seen.add("the written-out record");
        Ok(())
    }

    /// A call, and now and then the same pattern with a word that is no number.
    fn round(&mut self, (name, make): &Way, turn: usize) -> Outcome<()> {
        let call = make(&mut self.random, turn);
        let word = make_heartbeat::word(&mut self.random, call.1);
        let printed = self.held(&call.0, &word)?;
        self.written_out(&call, &printed)?;
        if self.random.one_in(4) {
            let word = make_heartbeat::no_number(&mut self.random);
            self.held(&call.0, &word)?;
        }
        self.seen.add(name);
        Ok(())
    }
}

/// What came of it.
fn outcome(said: &command::Said) -> String {
    let refused = said
        .error
        .split(": ")
        .find(|part| part.starts_with("refused"));
    match (said.status, refused) {
        (0, _) => "permitted".to_string(),
        (1, _) => "not permitted".to_string(),
        (_, Some(refused)) => refused.to_string(),
        _ => "not a number".to_string(),
    }
}

/// Every round.
fn run(trial: &mut Trial, rounds: usize) -> Outcome<()> {
    for turn in 0..rounds {
        let way = &WAYS[turn % WAYS.len()];
        let done = trial.round(way, turn / WAYS.len());
        done.map_err(|fault| format!("round {turn}, {}: {fault}", way.0))?;
    }
    Ok(())
}

/// Every way, and every outcome.
fn required() -> Vec<String> {
    let ways = WAYS.iter().map(|(name, _)| *name);
    let names = ways.chain(BROUGHT).chain(OUTCOMES.iter().copied());
    names.map(str::to_string).collect()
}

fn main() -> ExitCode {
    let Some((seed, rounds, program)) = Program::from_words() else {
        eprintln!("{USAGE}");
        return ExitCode::from(2);
    };
    let (random, seen) = (Random::new(seed), Seen::default());
    let mut trial = Trial {
        random,
        program,
        seen,
    };
    let difference = run(&mut trial, rounds);
    let name = format!("heartbeats: seed {seed}");
    trial.seen.end(&name, &required(), difference)
}

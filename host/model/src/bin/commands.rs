//! The commands `rpr summarize` and `rpr join` against the model.
//!
//! `commands SEED ROUNDS FOLDER COMMAND`: makes random records, runs COMMAND on each as bytes and
//! as hex text, by name and through a pipe, cuts those that are whole in pieces and joins the
//! pieces' summaries, and joins random summaries. Standard output, standard error and the exit
//! status must be the model's.
//!
//! Prints how often each thing came up. Ends with 1 on the first difference, or where something
//! never came up. The last round's files stay in FOLDER.

use model::command::{self, File, Given, Mover, Said, Shown};
use model::item::Listed;
use model::random::Random;
use model::record::{self, Form, MOST_EVENTS};
use model::refusal::Refusal;
use model::report::Outcome;
use model::summary::Summary;
use model::trial::{self, Input, Program, Seen};
use model::{host, make, make_broken, make_runs, make_text};
use std::process::{ExitCode, Output};

const USAGE: &str = "usage: commands SEED ROUNDS FOLDER COMMAND";

type Way = (&'static str, fn(&mut Random, usize) -> Vec<u8>);

/// The ways to make a record, which a run takes in turn.
const WAYS: &[Way] = &[
    ("a whole record", |random, _| whole(random)),
    ("a refused record", make::refused),
    ("a record cut short", |random, _| {
        let bytes = whole(random);
        bytes[..random.below(bytes.len())].to_vec()
    }),
    ("a long record", long),
    ("a long record with a fault", long_fault),
    ("a record with runs", |random, _| {
        make_runs::with_run(random).to_bytes()
    }),
    ("a record with a broken run", make_broken::in_turn),
    ("a long record with runs", long_runs),
    ("a long record with runs and a fault", |random, turn| {
        faulty(random, turn, long_runs)
    }),
];

/// The ways that are taken once.
const MILLIONS: &[Way] = &[
    ("a million events", |random, _| {
        make::mixed_record(random, MOST_EVENTS).to_bytes()
    }),
    ("a million events and a byte", |random, _| {
        let mut bytes = make::long_record(random, MOST_EVENTS).to_bytes();
        bytes.push(random.word() as u8);
        bytes
    }),
    ("a million events in runs", |random, _| {
        make_runs::million(random).to_bytes()
    }),
    ("a million events in runs and a byte", |random, _| {
        let mut bytes = make_runs::million(random).to_bytes();
        bytes.push(random.word() as u8);
        bytes
    }),
];

/// Lengths beside those that a program may read at a time: 5,000 events, and blocks of 8 to
/// 64 KiB of bytes and of hex.
const LENGTHS: [usize; 8] = [2_728, 4_999, 5_000, 5_001, 5_459, 10_001, 10_920, 21_840];

/// How an input is brought.
const BROUGHT: [&str; 4] = ["by name", "by -", "as standard input", "through a pipe"];

/// What must come up beside the ways to make a record and to bring it.
const OUTCOMES: &[&str] = &[
    "summarize: done",
    "summarize: refused 1",
    "summarize: refused 2",
    "summarize: refused 3",
    "summarize: refused 9",
    "text that is not hex",
    "join of pieces: done",
    "join: done",
    "join: refused 2",
    "join: refused 3",
    "join: refused 10",
    "join: refused 9",
];

/// The same of each mover.
const MOVED: [&str; 5] = ["done", "refused 1", "refused 2", "refused 3", "refused 9"];

fn whole(random: &mut Random) -> Vec<u8> {
    make::some(random).to_bytes()
}

fn long(random: &mut Random, turn: usize) -> Vec<u8> {
    let length = LENGTHS[turn % LENGTHS.len()];
    make::mixed_record(random, length).to_bytes()
}

fn long_runs(random: &mut Random, turn: usize) -> Vec<u8> {
    make_runs::long(random, LENGTHS[turn % LENGTHS.len()]).to_bytes()
}

fn long_fault(random: &mut Random, turn: usize) -> Vec<u8> {
    faulty(random, turn, long)
}

/// One that is made so, and damaged.
fn faulty(random: &mut Random, turn: usize, make: fn(&mut Random, usize) -> Vec<u8>) -> Vec<u8> {
    loop {
        let mut bytes = make(random, turn);
        make::damage(random, &mut bytes);
        if record::read(&bytes, Form::Either).is_err() {
            return bytes;
        }
    }
}

struct Trial {
    random: Random,
    program: Program,
    seen: Seen,
}

impl Trial {
    /// A record in every form, its pieces, and random summaries.
    fn round(&mut self, (name, make): &Way, turn: usize) -> Outcome<()> {
        let bytes = make(&mut self.random, turn);
        let text = make_text::hex(&mut self.random, turn, &bytes);
        for shown in [Shown::Lines, Shown::Sheet] {
            self.summarized(&bytes, Given::Bytes, shown)?;
            self.summarized(&text, Given::Text, shown)?;
        }
        self.moved(&bytes, Mover::Roll)?;
        self.moved(&bytes, Mover::Unroll)?;
        let found = record::read_items(&bytes, Form::Either);
        // A record's own 2 and that of the text have words of their own: one of them at a time.
        if found != Err(Refusal::Bytes) {
            let mut text = text;
            make_text::spoil(&mut self.random, &mut text);
            self.summarized(&text, Given::Text, Shown::Lines)?;
            self.seen.add("text that is not hex");
        }
        if let Ok(record) = found {
            self.pieces(&record)?;
        }
        self.summaries()?;
        self.seen.add(name);
        Ok(())
    }

    /// `rpr summarize` on this input.
    fn summarized(&mut self, input: &[u8], given: Given, shown: Shown) -> Outcome<Vec<u8>> {
        let mut words = vec!["summarize"];
        words.extend((given == Given::Bytes).then_some("--bytes"));
        words.extend((shown == Shown::Sheet).then_some("--sheet"));
        self.brought(&words, input, |file| command::summarize(file, given, shown))
    }

    /// `rpr roll` or `rpr unroll` on this input.
    fn moved(&mut self, input: &[u8], mover: Mover) -> Outcome<Vec<u8>> {
        self.brought(&[mover.name()], input, |file| command::moved(file, mover))
    }

    /// A command and its options on this input, brought in any way; what it printed.
    fn brought(
        &mut self,
        command: &[&str],
        input: &[u8],
        said: impl Fn(&File) -> Said,
    ) -> Outcome<Vec<u8>> {
        let brought = self.random.pick(&BROUGHT);
        let file = self.program.write("record", input)?;
        let name = match brought {
            "by name" => file.as_str(),
            _ => "standard input",
        };
        let mut words = command[1..].to_vec();
        words.extend(match brought {
            "by name" => Some(file.as_str()),
            "by -" => Some("-"),
            _ => None,
        });
        self.shuffle(&mut words);
        words.insert(0, command[0]);
        let got = match brought {
            "by name" => self.ran(&words, Input::Nothing)?,
            "through a pipe" => self.ran(&words, Input::Pipe(input))?,
            _ => self.ran(&words, Input::File(&file))?,
        };
        let expected = said(&(name.to_string(), input.to_vec()));
        self.hold(command[0], &words, &expected, &got)?;
        self.seen.add(brought);
        Ok(got.stdout)
    }

    /// The record cut in 1 to 20 pieces, inside runs too, each summarized on its own: joined, the
    /// whole's summary.
    fn pieces(&mut self, record: &Listed) -> Outcome<()> {
        let events = record.events();
        let count = self.random.below(20);
        let mut ends: Vec<usize> = (0..count).map(|_| self.random.below(events + 1)).collect();
        ends.extend([0, events]);
        ends.sort();
        let mut files = Vec::new();
        for (place, ends) in ends.windows(2).enumerate() {
            let piece = record.piece(ends[0], ends[1]).to_bytes();
            let sheet = self.summarized(&piece, Given::Bytes, Shown::Sheet)?;
            files.push((
                self.program.write(&format!("piece-{place}"), &sheet)?,
                sheet,
            ));
        }
        let whole = ("whole".to_string(), record.to_bytes());
        for shown in [Shown::Lines, Shown::Sheet] {
            let expected = command::summarize(&whole, Given::Bytes, shown);
            self.joined(&files, shown, expected, "join of pieces")?;
        }
        Ok(())
    }

    /// Random summaries, one of them perhaps out of range, of another length or under other
    /// settings.
    fn summaries(&mut self) -> Outcome<()> {
        let settings = make::settings(&mut self.random);
        let count = 1 + self.random.below(5);
        let mut files = Vec::new();
        for place in 0..count {
            let sheet = self.sheet(settings);
            files.push((
                self.program.write(&format!("sheet-{place}"), &sheet)?,
                sheet,
            ));
        }
        for shown in [Shown::Lines, Shown::Sheet] {
            let expected = command::join(&files, shown).ok_or("no file")?;
            self.joined(&files, shown, expected, "join")?;
        }
        Ok(())
    }

    fn sheet(&mut self, settings: record::Settings) -> Vec<u8> {
        let random = &mut self.random;
        let summary = make::summary_of(random, settings);
        match random.below(12) {
            0 => host::to_bytes(&make::summary_near(random, summary)),
            1 => {
                let other = make::settings_beside(random, settings);
                host::to_bytes(&Summary::empty(other))
            }
            2 => {
                let length = make::wrong_length(random, host::SUMMARY_LENGTH);
                let mut bytes = host::to_bytes(&summary);
                bytes.resize(length, 0);
                bytes
            }
            _ => host::to_bytes(&summary),
        }
    }

    /// `rpr join` on these files.
    fn joined(&mut self, files: &[File], shown: Shown, expected: Said, what: &str) -> Outcome<()> {
        let mut words = vec!["join"];
        words.extend(files.iter().map(|(name, _)| name.as_str()));
        if shown == Shown::Sheet {
            words.insert(1 + self.random.below(files.len() + 1), "--sheet");
        }
        let got = self.ran(&words, Input::Nothing)?;
        self.hold(what, &words, &expected, &got)
    }

    fn hold(&mut self, what: &str, words: &[&str], expected: &Said, got: &Output) -> Outcome<()> {
        let words = words.join(" ");
        trial::hold(expected, got).map_err(|fault| format!("rpr {words}: {fault}"))?;
        let refused = expected.error.split("refused ").nth(1);
        let number = refused.and_then(|words| words.split(':').next());
        let outcome = number.map_or("done".to_string(), |number| format!("refused {number}"));
        self.seen.add(&format!("{what}: {outcome}"));
        Ok(())
    }

    /// The command with these words.
    fn ran(&mut self, words: &[&str], input: Input) -> Outcome<Output> {
        self.program.ran(&mut self.random, words, input)
    }

    fn shuffle(&mut self, words: &mut [&str]) {
        for place in 1..words.len() {
            words.swap(place, self.random.below(place + 1));
        }
    }
}

/// Every round.
fn run(trial: &mut Trial, rounds: usize) -> Outcome<()> {
    let ways = (0..rounds).map(|turn| (&WAYS[turn % WAYS.len()], turn / WAYS.len()));
    for (turn, (way, before)) in ways.chain(MILLIONS.iter().map(|way| (way, 0))).enumerate() {
        let done = trial.round(way, before);
        done.map_err(|fault| format!("round {turn}, {}: {fault}", way.0))?;
    }
    Ok(())
}

/// Every way and every outcome.
fn required() -> Vec<String> {
    let ways = WAYS.iter().chain(MILLIONS).map(|(name, _)| *name);
    let names = ways.chain(BROUGHT).chain(OUTCOMES.iter().copied());
    let mut names: Vec<String> = names.map(str::to_string).collect();
    for mover in [Mover::Roll, Mover::Unroll].map(Mover::name) {
        names.extend(MOVED.map(|outcome| format!("{mover}: {outcome}")));
    }
    names
}

fn main() -> ExitCode {
    let Some((seed, rounds, program)) = Program::from_words() else {
        eprintln!("{USAGE}");
        return ExitCode::from(2);
    };
    let mut trial = Trial {
        random: Random::new(seed),
        program,
        seen: Seen::default(),
    };
    let difference = run(&mut trial, rounds);
    let name = format!("commands: seed {seed}");
    trial.seen.end(&name, &required(), difference)
}

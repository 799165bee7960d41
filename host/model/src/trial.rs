//! Runs of a program, held to the model, and what came up in them.

use crate::command::Said;
use crate::random::Random;
use crate::record::{EVENT_LENGTH, HEADER_LENGTH};
use crate::report::Outcome;
use std::collections::BTreeMap;
use std::env;
use std::fs;
use std::io::Write;
use std::process::{Child, Command, ExitCode, Output, Stdio};
use std::thread;
use std::time::Duration;

/// How often each thing came up.
#[derive(Default)]
pub struct Seen {
    counts: BTreeMap<String, u64>,
}

impl Seen {
    pub fn add(&mut self, name: &str) {
        *self.counts.entry(name.to_string()).or_default() += 1;
    }

    fn count(&self, name: &str) -> u64 {
        self.counts.get(name).copied().unwrap_or(0)
    }

    /// What never came up, and what came up that can't.
    fn faults(&self, required: &[String]) -> Vec<String> {
        let unseen = required.iter().filter(|name| self.count(name) == 0);
        let other = self.counts.keys().filter(|name| !required.contains(name));
        let unseen = unseen.map(|name| format!("never came up: {name}"));
        let other = other.map(|name| format!("isn't possible: {name}"));
        unseen.chain(other).collect()
    }

    /// Prints how often each thing came up. A run fails by its first difference, or by what
    /// did not come up.
    pub fn end(&self, run: &str, required: &[String], difference: Outcome<()>) -> ExitCode {
        for name in required {
            println!("{name}: {}", self.count(name));
        }
        let faults = match difference {
            Err(fault) => vec![fault],
            Ok(()) => self.faults(required),
        };
        for fault in &faults {
            eprintln!("{run}: {fault}");
        }
        match faults.is_empty() {
            true => ExitCode::SUCCESS,
            false => ExitCode::FAILURE,
        }
    }
}

/// Standard output, standard error and the exit status are the model's.
pub fn hold(expected: &Said, got: &Output) -> Outcome<()> {
    same("standard output", &expected.output, &got.stdout)?;
    same("standard error", expected.error.as_bytes(), &got.stderr)?;
    if got.status.code() == Some(expected.status) {
        return Ok(());
    }
    let (got, expected) = (got.status, expected.status);
    Err(format!("ended with {got}, model {expected}"))
}

/// The first line that differs, with both.
fn same(what: &str, expected: &[u8], got: &[u8]) -> Outcome<()> {
    if expected == got {
        return Ok(());
    }
    let equal = expected
        .iter()
        .zip(got)
        .take_while(|(one, other)| one == other);
    let equal = equal.count();
    let begin = expected[..equal].iter().rposition(|byte| *byte == b'\n');
    let begin = begin.map_or(0, |end| end + 1);
    let line = |text: &[u8]| {
        let line = text[begin..].split(|byte| *byte == b'\n').next();
        String::from_utf8_lossy(line.unwrap_or_default()).into_owned()
    };
    let (got, expected) = (line(got), line(expected));
    Err(format!("{what}, byte {equal}: {got:?}, model {expected:?}"))
}

/// What a command has as standard input.
#[derive(Clone, Copy, Debug)]
pub enum Input<'a> {
    Nothing,
    /// The file of this name.
    File(&'a str),
    /// These bytes, in chunks.
    Pipe(&'a [u8]),
}

/// The command under trial, and the folder for its files.
pub struct Program {
    command: String,
    folder: String,
}

impl Program {
    /// The seed, the rounds and the program of the words SEED ROUNDS FOLDER COMMAND.
    pub fn from_words() -> Option<(u64, usize, Program)> {
        let words: Vec<String> = env::args().skip(1).collect();
        let [seed, rounds, folder, command] = &words[..] else {
            return None;
        };
        let (command, folder) = (command.clone(), folder.clone());
        let program = Program { command, folder };
        Some((seed.parse().ok()?, rounds.parse().ok()?, program))
    }

    /// Runs the command with these words.
    pub fn ran(&self, random: &mut Random, words: &[&str], input: Input) -> Outcome<Output> {
        let fault = |fault| format!("{}: {fault}", self.command);
        let mut command = Command::new(&self.command);
        command.args(words).stdin(match input {
            Input::Nothing => Stdio::null(),
            Input::File(name) => open(name)?,
            Input::Pipe(_) => Stdio::piped(),
        });
        command.stdout(Stdio::piped()).stderr(Stdio::piped());
        let mut child = command.spawn().map_err(fault)?;
        if let Input::Pipe(bytes) = input {
            feed(random, &mut child, bytes);
        }
        child.wait_with_output().map_err(fault)
    }

    /// A file of these bytes; its name.
    pub fn write(&self, name: &str, bytes: &[u8]) -> Outcome<String> {
        let file = format!("{}/{name}", self.folder);
        fs::write(&file, bytes).map_err(|fault| format!("{file}: {fault}"))?;
        Ok(file)
    }
}

fn open(name: &str) -> Outcome<Stdio> {
    let file = fs::File::open(name).map_err(|fault| format!("{name}: {fault}"))?;
    Ok(file.into())
}

/// Chunks of random sizes into standard input, with a pause behind some. A command that ends
/// before all is read is held to the model like any other.
fn feed(random: &mut Random, child: &mut Child, mut bytes: &[u8]) {
    let mut pipe = child.stdin.take().expect("a pipe was asked for");
    let most = random.pick(&[1, 7, HEADER_LENGTH, 100 * EVENT_LENGTH, 70_000]);
    let most = most.max(bytes.len() / 500);
    while !bytes.is_empty() {
        let (chunk, rest) = bytes.split_at(bytes.len().min(1 + random.below(most)));
        if pipe.write_all(chunk).is_err() {
            return;
        }
        bytes = rest;
        if random.one_in(20) {
            thread::sleep(Duration::from_micros(200));
        }
    }
}

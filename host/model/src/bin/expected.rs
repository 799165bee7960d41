//! Writes what the programs must print.
//!
//! `expected summarize [--bytes] < INPUT`: what summarize prints for this input, which is hex
//! text, or with --bytes a record's bytes.
//! `expected sheet [--bytes] < INPUT`: the 48 bytes of its summary; of a refusal nothing.
//! `expected roll < RECORD`, `expected unroll < RECORD`: the bytes of this record, moved; of a
//! refusal nothing.
//! `expected heartbeat REPEATS < PATTERN`: what `rpr heartbeat` prints for this pattern.
//! `expected join [--sheet] FILE..`: what join prints for these files of 48 bytes.
//! `expected vectors < CASES`: what the vectors program prints for this case file.
//! `expected ring < CASES`: what each call of this case file answers.
//! `expected walk < CASES`: what a reader finds in the record of each line.
//! `expected station < SCRIPT`: what each call of this script answers.
//! `expected entry < SCRIPT`: what each call of this script answers, and what it leaves.
//! `expected compare FIRST SECOND`: what `rpr compare` prints for these two files.
//! `expected bytes NAME < CASES`: the bytes of the case of this name.
//! `expected night SEED EVENTS`: the bytes of a random record of a shaper that was kept to.

use model::command::{self, File, Given, Mover, Shown};
use model::random::Random;
use model::station_script::Script;
use model::{cases, compare, entry_script, make, ring_cases, walk};
use std::env;
use std::fs;
use std::io::{self, BufRead, Read, Write};
use std::process::ExitCode;

const USAGE: &str = "usage: expected summarize|sheet [--bytes], expected roll|unroll, \
                     expected heartbeat REPEATS, \
                     expected vectors|ring|walk|station|entry, \
                     expected compare FIRST SECOND, expected join [--sheet] FILE.., \
                     expected bytes NAME, expected night SEED EVENTS";

fn input() -> Result<File, String> {
    let mut input = Vec::new();
    let read = io::stdin().lock().read_to_end(&mut input);
    read.map_err(|fault| fault.to_string())?;
    Ok(("standard input".to_string(), input))
}

fn summarize(given: Given, shown: Shown) -> Result<(), String> {
    write_bytes(&command::summarize(&input()?, given, shown).output)
}

fn moved(mover: Mover) -> Result<(), String> {
    write_bytes(&command::moved(&input()?, mover).output)
}

fn heartbeat(repeats: &str) -> Result<(), String> {
    write_bytes(&command::heartbeat(&input()?, repeats).output)
}

fn join(names: &[&str], shown: Shown) -> Result<(), String> {
    let files: Result<Vec<File>, String> = names.iter().map(|name| file(name)).collect();
    let said = command::join(&files?, shown).ok_or(USAGE)?;
    write_bytes(&said.output)
}

fn file(name: &str) -> Result<File, String> {
    let bytes = fs::read(name).map_err(|fault| format!("{name}: {fault}"))?;
    Ok((name.to_string(), bytes))
}

fn vectors() -> Result<(), String> {
    for line in io::stdin().lock().lines() {
        let line = line.map_err(|fault| fault.to_string())?;
        if let Some(case) = cases::parse(&line) {
            write(&case.print()?)?;
        }
    }
    Ok(())
}

/// Each line's call and what it answers.
fn lines(mut print: impl FnMut(&str) -> Result<Option<String>, String>) -> Result<(), String> {
    for line in io::stdin().lock().lines() {
        let line = line.map_err(|fault| fault.to_string())?;
        if let Some(text) = print(&line)? {
            write(&text)?;
        }
    }
    Ok(())
}

fn station() -> Result<(), String> {
    let mut script = Script::default();
    lines(|line| script.print(line))
}

fn entry() -> Result<(), String> {
    let mut script = entry_script::Script::default();
    lines(|line| script.print(line))
}

fn compared(first: &str, second: &str) -> Result<(), String> {
    write(&compare::compare(&file(first)?.1, &file(second)?.1).text)
}

fn night(seed: &str, events: &str) -> Result<(), String> {
    let number = |word: &str| word.parse().map_err(|_| format!("not a number: {word}"));
    let mut random = Random::new(number(seed)?);
    write_bytes(&make::night(&mut random, number(events)? as usize).to_bytes())
}

fn bytes(name: &str) -> Result<(), String> {
    for line in io::stdin().lock().lines() {
        let line = line.map_err(|fault| fault.to_string())?;
        if let Some(case) = cases::parse(&line).filter(|case| case.name == name) {
            return write_bytes(&case.bytes()?);
        }
    }
    Err(format!("no case {name}"))
}

fn write(text: &str) -> Result<(), String> {
    write_bytes(text.as_bytes())
}

fn write_bytes(bytes: &[u8]) -> Result<(), String> {
    let written = io::stdout().lock().write_all(bytes);
    written.map_err(|fault| fault.to_string())
}

fn main() -> ExitCode {
    let arguments: Vec<String> = env::args().skip(1).collect();
    let done = match arguments.iter().map(String::as_str).collect::<Vec<_>>()[..] {
        ["summarize"] => summarize(Given::Text, Shown::Lines),
        ["summarize", "--bytes"] => summarize(Given::Bytes, Shown::Lines),
        ["sheet"] => summarize(Given::Text, Shown::Sheet),
        ["sheet", "--bytes"] => summarize(Given::Bytes, Shown::Sheet),
        ["roll"] => moved(Mover::Roll),
        ["unroll"] => moved(Mover::Unroll),
        ["heartbeat", repeats] => heartbeat(repeats),
        ["vectors"] => vectors(),
        ["ring"] => lines(ring_cases::print),
        ["walk"] => lines(walk::print),
        ["station"] => station(),
        ["entry"] => entry(),
        ["compare", first, second] => compared(first, second),
        ["join", "--sheet", ref names @ ..] => join(names, Shown::Sheet),
        ["join", ref names @ ..] => join(names, Shown::Lines),
        ["bytes", name] => bytes(name),
        ["night", seed, events] => night(seed, events),
        _ => Err(USAGE.to_string()),
    };
    match done {
        Ok(()) => ExitCode::SUCCESS,
        Err(fault) => {
            eprintln!("expected: {fault}");
            ExitCode::from(2)
        }
    }
}

//! The library against the model.
//!
//! `differ record SEED CALLS`, or without `record`: records of both forms, the movers, summaries.
//! `differ ring SEED CALLS`: ringlet choice and path.
//! `differ station SEED CALLS`: the station, with the feature `station`.
//! `differ heartbeat SEED CALLS`: heartbeats, with the feature `heartbeat`.
//!
//! Makes random calls and compares every answer and every lent byte. Ends with 1 on
//! the first difference, when fewer than half of the counted calls were carried out,
//! when a refusal that a function can give was never reached or one that it can't give
//! was, or when something else that must come up never did.

/// The library's calls, from `host/calls.def`. Not every one is compared here.
#[allow(dead_code)]
mod calls {
    include!(concat!(env!("OUT_DIR"), "/calls.rs"));
}
#[cfg(feature = "heartbeat")]
mod edge;
#[cfg(feature = "heartbeat")]
mod heartbeat;
mod record;
mod record_runs;
mod ring;
mod ring_defaults;
#[cfg(feature = "station")]
mod station;

use model::report::Outcome;
use model::tally::Tally;
use std::env;
use std::process::ExitCode;

/// The tally, and what else was never seen, or the first difference.
type Part = fn(u64, u64) -> (Tally, Outcome<Vec<String>>);

/// Fewer calls may be too few to see all that must be seen.
const ENOUGH: u64 = 100_000;

const USAGE: &str = "usage: differ [record|ring|station|heartbeat] SEED CALLS";

fn arguments() -> Option<(Part, u64, u64)> {
    let words: Vec<String> = env::args().skip(1).collect();
    let words: Vec<&str> = words.iter().map(String::as_str).collect();
    let (part, seed, calls): (Part, _, _) = match words[..] {
        [seed, calls] | ["record", seed, calls] => (record::run, seed, calls),
        ["ring", seed, calls] => (ring::run, seed, calls),
        #[cfg(feature = "station")]
        ["station", seed, calls] => (station::run, seed, calls),
        #[cfg(feature = "heartbeat")]
        ["heartbeat", seed, calls] => (heartbeat::run, seed, calls),
        _ => return None,
    };
    Some((part, seed.parse().ok()?, calls.parse().ok()?))
}

/// What a run without a difference lacks.
fn lacking(tally: &Tally, mut unseen: Vec<String>) -> Vec<String> {
    let mut faults = tally.faults();
    let more = unseen.len().saturating_sub(10);
    unseen.truncate(10);
    if more > 0 {
        unseen.push(format!("and {more} more"));
    }
    if !unseen.is_empty() {
        faults.push(format!("never seen: {}", unseen.join("; ")));
    }
    if !faults.is_empty() && tally.calls() < ENOUGH {
        faults.push(format!(
            "too short: fewer than {ENOUGH} calls may not see all"
        ));
    }
    faults
}

fn main() -> ExitCode {
    let Some((part, seed, calls)) = arguments() else {
        eprintln!("{USAGE}");
        return ExitCode::from(2);
    };
    let (tally, outcome) = part(seed, calls);
    println!("{tally}");
    let calls = tally.calls();
    let faults = match outcome {
        Ok(unseen) => lacking(&tally, unseen),
        Err(fault) => vec![fault],
    };
    for fault in &faults {
        eprintln!("differ: seed {seed}, call {calls}: {fault}");
    }
    match faults.is_empty() {
        true => ExitCode::SUCCESS,
        false => ExitCode::FAILURE,
    }
}

//! How often each call was carried out or refused, and what must have been reached.

use std::collections::BTreeMap;
use std::fmt;

/// A function's name, and the refusals that it can give.
pub type Reachable = &'static [(&'static str, &'static [&'static str])];

// The pairs of call and refusal that the paper and HOST make possible. `differ` fails
// where one of them never came up, or where another one did.
//
// 2 | every call that lends a slice: "A slice whose length is not the one named below, or
//   |   not `rpr_station_length()`, is refusal 2"; rpr_summarize also for what isn't a
//   |   whole record, rpr_roll, rpr_unroll and rpr_heartbeat for that alone; rpr_read_frame
//   |   also for "Another length, type, header kind or a ringlet bit equal to the station's
//   |   own". rpr_choose and rpr_path lend none.
// 1 | rpr_start, rpr_summarize, rpr_roll, rpr_unroll, rpr_heartbeat: "a setting"; the nine
//   |   calls on a station: "a lent station's state"; rpr_choose and rpr_path: "2 to 63
//   |   stations (else 1)". A summary's settings are 3 instead: not rpr_join, not rpr_settle.
// 3 | "a frame": the three offers, rpr_read_frame ("ttl 193 to 255, else 3"),
//   |   rpr_summarize, rpr_roll, rpr_unroll (a send's size), rpr_heartbeat (that, and "3 at a
//   |   257th event"); "station index" and "higher bits set": rpr_choose, rpr_path; "summary
//   |   (its settings too)": rpr_join, rpr_settle; "starting credit": rpr_settle; "coded
//   |   choice": rpr_tick, rpr_offer_client, rpr_offer_transit, rpr_choose, rpr_path.
// 13 | rpr_offer_client, rpr_offer_transit, rpr_read_frame: "A fairness frame, a transit frame
//   |   or a client frame whose hops reach the number of stations or more". A control frame has
//   |   1 hop: not rpr_offer_control. rpr_choose and rpr_path "keep their own count". `hops` has
//   |   what must come up.
// 11 | rpr_read_frame: "a fairness frame bears this station's own address".
// 10 | rpr_join: "joined summaries have different settings".
// 9 | rpr_summarize, rpr_roll, rpr_unroll, rpr_join: "over 1,000,000 events"; rpr_heartbeat:
//   |   "when repeats times pattern events exceed 1,000,000".
// 4 | rpr_offer_transit, rpr_offer_control: "a frame's size exceeds the queue's space".
//   |   The stage is no queue: not rpr_offer_client.
// 5 | rpr_offer_client: "the stage already holds a frame".
// 6 | rpr_offer_client: "a needed shaper doesn't permit", the only one with more than its
//   |   number: `shortfalls` has what must come up. rpr_select goes on to the next that
//   |   holds, and to nothing.
// 7 | rpr_offer_client: "the congested fair rate would be passed".
// 8 | rpr_choose: "no usable way". A path not delivered is "no refusal".
// 12 | rpr_roll, rpr_unroll: "room too short".
// rpr_station_length answers "the number of bytes [...], and nothing else".

/// A room of another length is told apart from the other reasons for 2.
pub const OF_RECORDS: Reachable = &[
    ("rpr_summarize", &["2 room", "2", "1", "3", "9"]),
    ("rpr_join", &["2", "3", "10", "9"]),
    ("rpr_settle", &["2", "3"]),
    ("rpr_roll", &["2", "1", "3", "9", "12"]),
    ("rpr_unroll", &["2", "1", "3", "9", "12"]),
];
pub const OF_RINGS: Reachable = &[("rpr_choose", &["1", "3", "8"]), ("rpr_path", &["1", "3"])];
pub const OF_HEARTBEATS: Reachable = &[("rpr_heartbeat", &["2", "1", "3", "9"])];
pub const OF_STATIONS: Reachable = &[
    ("rpr_start", &["2", "1"]),
    ("rpr_tick", &["2", "1", "3"]),
    ("rpr_offer_client", &["2", "1", "3", "13", "5", "6", "7"]),
    ("rpr_offer_transit", &["2", "1", "3", "13", "4"]),
    ("rpr_offer_control", &["2", "1", "3", "4"]),
    ("rpr_select", &["2", "1"]),
    ("rpr_age", &["2", "1"]),
    ("rpr_read_frame", &["2", "1", "3", "13", "11"]),
    ("rpr_write_frame", &["2", "1"]),
    ("rpr_show", &["2", "1"]),
];
const CARRIED_OUT: &str = "carried out";

pub struct Tally {
    reachable: Reachable,
    counts: BTreeMap<(&'static str, String), u64>,
}

impl Tally {
    pub fn new(reachable: Reachable) -> Tally {
        let counts = BTreeMap::new();
        Tally { reachable, counts }
    }

    /// Counts one call by its answer's lowest byte.
    pub fn count(&mut self, function: &'static str, answer: u64, wrong_room: bool) {
        let outcome = match answer as u8 {
            0 => CARRIED_OUT.to_string(),
            _ if wrong_room && function == "rpr_summarize" => "2 room".to_string(),
            number => number.to_string(),
        };
        *self.counts.entry((function, outcome)).or_default() += 1;
    }

    pub fn calls(&self) -> u64 {
        self.counts.values().sum()
    }

    fn of(&self, function: &'static str, outcome: &str) -> u64 {
        let key = (function, outcome.to_string());
        self.counts.get(&key).copied().unwrap_or(0)
    }

    /// What the table of pairs doesn't have.
    fn unexpected(&self) -> Vec<String> {
        let listed = |function: &str, outcome: &str| {
            let pairs = self.reachable.iter().find(|pairs| pairs.0 == function);
            pairs.is_some_and(|pairs| outcome == CARRIED_OUT || pairs.1.contains(&outcome))
        };
        let keys = self.counts.keys();
        keys.filter(|(function, outcome)| !listed(function, outcome))
            .map(|(function, outcome)| format!("{function}: {outcome} isn't possible"))
            .collect()
    }

    /// What is missing: too few calls carried out, or a refusal never reached.
    pub fn faults(&self) -> Vec<String> {
        let mut faults = self.unexpected();
        let of = |(function, _): &(&'static str, _)| self.of(function, CARRIED_OUT);
        let carried_out: u64 = self.reachable.iter().map(of).sum();
        if 2 * carried_out < self.calls() {
            let calls = self.calls();
            faults.push(format!("only {carried_out} of {calls} calls carried out"));
        }
        for (function, refusals) in self.reachable {
            for refusal in *refusals {
                if self.of(function, refusal) == 0 {
                    faults.push(format!("{function}: refusal {refusal} never reached"));
                }
            }
        }
        faults
    }
}

impl fmt::Display for Tally {
    fn fmt(&self, out: &mut fmt::Formatter<'_>) -> fmt::Result {
        for (function, refusals) in self.reachable {
            write!(out, "{function:<17}")?;
            write!(out, " {CARRIED_OUT} {}", self.of(function, CARRIED_OUT))?;
            for refusal in *refusals {
                write!(out, ", refused {refusal}: {}", self.of(function, refusal))?;
            }
            writeln!(out)?;
        }
        write!(out, "{} calls", self.calls())
    }
}

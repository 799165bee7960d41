//! What must have come up about the methods: each row of the conservative one's table, with each
//! kind of round trip and each coefficient, each edge between two rows, and lent stations that
//! break one of its rules and are in range otherwise.

use crate::station::aging::{shown, smooth};
use crate::station::layout::{setting, word, LOCAL_FAIR_RATE, SINCE};
use crate::station::method::Row;
use crate::station::settings::{Method, LP_COEFS};
use crate::station::Station;
use crate::station_call::Call;
use std::collections::{BTreeMap, BTreeSet};
use std::fmt;

const ROUND_TRIPS: [&str; 5] = ["1", "2", "3", "1,000", "another number"];

fn round_trip(intervals: u64) -> &'static str {
    match intervals {
        1..=3 => ROUND_TRIPS[intervals as usize - 1],
        1_000 => ROUND_TRIPS[3],
        _ => ROUND_TRIPS[4],
    }
}

fn within(row: Row, round_trip: &str) -> String {
    format!("{row:?}, with a round trip of {round_trip} intervals")
}

fn by(row: Row, name: &str, coefficient: u64) -> String {
    format!("{row:?}, with {name} {coefficient}")
}

/// Where a row ends and the next begins. "Below" is how far localFairRate is below
/// unreservedRate; the time has passed with the round trip.
const EDGES: [&str; 20] = [
    "entered where lpAddRate is 1 less than unreservedRate",
    "entered where lpAddRate is unreservedRate",
    "entered where lpAddRate is 1 more than unreservedRate",
    "entered where since was not 0",
    "not congested where since was not 0",
    "left at unreservedRate itself",
    "left at rampUp - 1 below, before the time had passed",
    "left at rampUp - 1 below, when the time had passed",
    "held at rampUp below, before the time had passed",
    "raised at rampUp below",
    "held at rampUp + 1 below, before the time had passed",
    "raised at rampUp + 1 below",
    "held one interval before the time had passed, the test true",
    "held one interval before the time had passed, the test false",
    "held less than rampUp below, the test true",
    "lowered less than rampUp below",
    "lowered from 0",
    "lowered by 0, from rampDn - 1",
    "lowered by 1, from rampDn",
    "lowered from unreservedRate",
];

/// Which edges the station is at before an interval.
fn edges(station: &Station, row: Row) -> [bool; EDGES.len()] {
    let settings = station.settings;
    let (below, fair) = (station.distance(), station.local_fair_rate);
    let next = smooth(station.stored.add, station.counters.add, settings.lp_coef);
    let (add, unreserved) = (shown(next, settings.lp_coef), settings.unreserved_rate);
    let is = |other: Row| row == other;
    let passed = station.since + 1 == settings.round_trip;
    let nearly = station.since + 2 == settings.round_trip;
    let at = |distance: u64| below == distance;
    let (up, near) = (settings.ramp_up, below < settings.ramp_up);
    [
        is(Row::Enter) && add + 1 == unreserved,
        is(Row::Enter) && add == unreserved,
        is(Row::Enter) && add == unreserved + 1,
        is(Row::Enter) && station.since > 0,
        is(Row::Rest) && station.since > 0,
        is(Row::Leave) && at(0),
        is(Row::Leave) && at(up - 1) && !passed,
        is(Row::Leave) && at(up - 1) && passed,
        is(Row::Hold) && at(up) && !station.test(),
        is(Row::Up) && at(up),
        is(Row::Hold) && at(up + 1) && !station.test(),
        is(Row::Up) && at(up + 1),
        is(Row::Hold) && nearly && station.test(),
        is(Row::Hold) && nearly && !station.test(),
        is(Row::Hold) && near && station.test(),
        is(Row::Down) && near,
        is(Row::Down) && fair == 0,
        is(Row::Down) && fair + 1 == settings.ramp_dn,
        is(Row::Down) && fair == settings.ramp_dn,
        is(Row::Down) && at(0),
    ]
}

/// "until it leaves, the station counts as locally congested for allowedRate and advertising".
const TOLD: &str = "own rate told by the conservative method, the test false";

/// "With the other method chosen, document 01 holds unaltered."
const AGGRESSIVE: [&str; 3] = [
    "aggressive interval where since was not 0",
    "aggressive interval where since was the round trip less 1",
    "aggressive interval where localFairRate was above unreservedRate",
];

/// The intervals: how often each row came up, and what else.
#[derive(Default)]
pub struct Methods {
    aggressive: u64,
    rows: BTreeMap<Row, u64>,
    seen: BTreeSet<String>,
}

impl Methods {
    fn see(&mut self, sight: &str, seen: bool) {
        if seen {
            self.seen.insert(sight.to_string());
        }
    }

    /// A call before it is made, on a station in range.
    pub fn look(&mut self, station: &Station, call: &Call) {
        match (call, station.settings.method) {
            (Call::Age, Method::Aggressive) => self.look_at_aggressive(station),
            (Call::Age, Method::Conservative) => self.look_at_conservative(station),
            (Call::Tell(_), Method::Conservative) => {
                let own = station.locally_congested && !station.downstream_congested;
                self.see(TOLD, own && !station.test());
            }
            _ => {}
        }
    }

    fn look_at_aggressive(&mut self, station: &Station) {
        self.aggressive += 1;
        let round_trip = station.settings.round_trip;
        let above = station.local_fair_rate > station.settings.unreserved_rate;
        self.see(AGGRESSIVE[0], station.since > 0);
        self.see(
            AGGRESSIVE[1],
            round_trip > 1 && station.since + 1 == round_trip,
        );
        self.see(AGGRESSIVE[2], above);
    }

    fn look_at_conservative(&mut self, station: &Station) {
        let (row, settings) = (station.row(), station.settings);
        *self.rows.entry(row).or_default() += 1;
        self.see(&within(row, round_trip(settings.round_trip)), true);
        let moved = station.local_fair_rate >= settings.ramp_dn;
        match row {
            Row::Down => self.see(&by(row, "rampDn", settings.ramp_dn), moved),
            Row::Up | Row::Leave => self.see(&by(row, "rampUp", settings.ramp_up), true),
            _ => {}
        }
        for (edge, there) in EDGES.iter().zip(edges(station, row)) {
            self.see(edge, there);
        }
    }

    pub fn missing(&self) -> Vec<String> {
        let mut all = vec![TOLD.to_string()];
        all.extend(AGGRESSIVE.iter().chain(&EDGES).map(|edge| edge.to_string()));
        for row in Row::ALL {
            // With a round trip of 1 the time has always passed.
            let held = usize::from(row == Row::Hold);
            all.extend(ROUND_TRIPS[held..].iter().map(|trip| within(row, trip)));
        }
        for coefficient in LP_COEFS {
            all.push(by(Row::Down, "rampDn", coefficient));
            all.extend([Row::Up, Row::Leave].map(|row| by(row, "rampUp", coefficient)));
        }
        all.retain(|sight| !self.seen.contains(sight));
        all
    }
}

impl fmt::Display for Methods {
    fn fmt(&self, out: &mut fmt::Formatter<'_>) -> fmt::Result {
        write!(
            out,
            "{} aggressive intervals; conservative",
            self.aggressive
        )?;
        for row in Row::ALL {
            let count = self.rows.get(&row).copied().unwrap_or(0);
            write!(out, " {row:?} {count}")?;
        }
        Ok(())
    }
}

const METHODS: [&str; 2] = ["aggressive", "conservative"];

const NO_METHODS: [u64; 3] = [2, 256, 0xffff_ffff];

/// Words of the settings that are out of range under either method: round trips and rampDns.
pub const OUTSIDE: [(usize, u64); 6] = [
    (32, 0),
    (32, 1_001),
    (33, 0),
    (33, 8),
    (33, 24),
    (33, 1_024),
];

const SINCES: [&str; 2] = ["since is the round trip", "since is 4,294,967,295"];
const FAIR: &str = "localFairRate is 1 more than unreservedRate";

fn under(method: u64, what: &str) -> String {
    format!("{what}, {}", METHODS[method as usize])
}

fn named(at: usize, word: u64) -> String {
    let name = ["method", "round trip", "rampDn"][at - 31];
    format!("{name} {word}")
}

/// Which rule of the methods this fault breaks, the only one in these bytes.
pub fn alone(bytes: &[u8], fault: &str) -> Option<String> {
    let [unreserved, method, round_trip, ramp] = [26, 31, 32, 33].map(|at| setting(bytes, at));
    let [fair, since] = [LOCAL_FAIR_RATE, SINCE].map(|at| word(bytes, at));
    let broken = match fault {
        "method above" => return Some(named(31, method)),
        "roundTrip below" | "roundTrip above" => named(32, round_trip),
        "rampDn" => named(33, ramp),
        "since" if since == round_trip => SINCES[0].to_string(),
        "since" if since == 0xffff_ffff => SINCES[1].to_string(),
        "localFairRate" if method == 1 && fair == unreserved + 1 => FAIR.to_string(),
        _ => return None,
    };
    Some(under(method, &broken))
}

/// What only the conservative method refuses, under the other one.
pub fn taken(bytes: &[u8]) -> Option<String> {
    let (unreserved, fair) = (setting(bytes, 26), word(bytes, LOCAL_FAIR_RATE));
    (fair == unreserved + 1).then(|| under(0, FAIR))
}

/// All that must be broken alone, or taken.
pub fn every_alone() -> Vec<String> {
    let mut all: Vec<String> = NO_METHODS.map(|word| named(31, word)).to_vec();
    for method in [0, 1] {
        all.extend(OUTSIDE.map(|(at, word)| under(method, &named(at, word))));
        all.extend(SINCES.map(|since| under(method, since)));
        all.push(under(method, FAIR));
    }
    all
}

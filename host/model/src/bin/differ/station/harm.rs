//! Damaged stations: where they come from, and what must have come up among them.

use model::hops;
use model::make_damage::{self, Step};
use model::methods;
use model::random::Random;
use model::station::layout::{self, Part};
use model::station::{fairness, range, Station};
use model::station_call::Call;
use std::collections::BTreeSet;
use std::fmt;

/// How many stations are kept to mix others with.
const KEPT: usize = 12;

/// Parts of which no other number is in range, the rest being as it was.
const FIXED: [&str; 2] = [" bytes", " count"];
/// Parts of which every number is in range.
const FREE: [&str; 2] = ["addressLow", "receivedAddressLow"];

/// Refusals that 1 comes before.
const LATER: [u8; 7] = [3, 13, 11, 4, 5, 6, 7];
/// Reasons for 2, which comes before 1.
const SLICES: [&str; 6] = ["length", "type", "header kind", "ringlet", "tell", "show"];

pub struct Harm {
    steps: Vec<Step>,
    /// Half of the damage is the next single step, round after round.
    next: usize,
    kept: Vec<Vec<u8>>,
    parts: Vec<Part>,
    in_range: u64,
    out_of_range: u64,
    seen: BTreeSet<String>,
}

impl Harm {
    pub fn new() -> Harm {
        Harm {
            steps: make_damage::every_step(),
            next: 0,
            kept: Vec::new(),
            parts: layout::parts(),
            in_range: 0,
            out_of_range: 0,
            seen: BTreeSet::new(),
        }
    }

    /// Keeps a station to mix others with.
    fn keep(&mut self, random: &mut Random, station: &[u8]) {
        if self.kept.len() == KEPT {
            self.kept.swap_remove(random.below(KEPT));
        }
        self.kept.push(station.to_vec());
    }

    /// A station in range, far from this one.
    pub fn wild(&mut self, random: &mut Random, station: &[u8]) -> Vec<u8> {
        make_damage::wild(random, station, &self.steps)
    }

    /// The station's bytes with something changed; some are drawn again until they are in
    /// range.
    pub fn damaged(&mut self, random: &mut Random, station: &[u8]) -> Vec<u8> {
        self.keep(random, station);
        let in_range = random.one_in(4);
        let mut bytes = station.to_vec();
        while bytes == station || in_range && !range::in_range(&bytes) {
            bytes.copy_from_slice(station);
            if in_range || random.one_in(3) {
                let other = &self.kept[random.below(self.kept.len())];
                make_damage::damage(random, &mut bytes, other, &self.steps);
            } else {
                let step = self.steps[self.next % self.steps.len()];
                self.next += 1;
                make_damage::take(random, &mut bytes, step);
            }
        }
        self.look(station, &bytes);
        bytes
    }

    /// Notes what alone was changed, and what alone is out of range.
    fn look(&mut self, station: &[u8], bytes: &[u8]) {
        let faults = range::faults(bytes);
        match faults.is_empty() {
            true => {
                self.in_range += 1;
                self.seen.extend(methods::taken(bytes));
            }
            false => self.out_of_range += 1,
        }
        if let [fault] = &faults[..] {
            self.seen.insert(alone_wrong(fault));
            self.seen.extend(hops::alone(bytes, fault));
            self.seen.extend(methods::alone(bytes, fault));
        }
        let other = |part: &&Part| {
            let place = part.at..part.at + part.length;
            station[place.clone()] != bytes[place]
        };
        let changed: Vec<&Part> = self.parts.iter().filter(other).collect();
        if let [part] = changed[..] {
            self.seen
                .insert(alone_changed(&part.name, faults.is_empty()));
        }
    }

    /// Notes which refusals a call on a station out of range would have met too; `sound`
    /// is the station before the damage.
    pub fn look_at_order(&mut self, call: &Call, bytes: &[u8], sound: &Station, answer: u64) {
        if answer == 2 {
            self.seen
                .insert(format!("2 before 1: {}", reason(call, bytes)));
        }
        if answer == 1 {
            let (later, _) = call.apply(&mut sound.clone(), &call.other_slice(0));
            self.seen.insert(format!("1 before {}", later as u8));
        }
    }

    pub fn missing(&self) -> Vec<String> {
        let mut all: Vec<String> = range::every_fault()
            .iter()
            .map(|fault| alone_wrong(fault))
            .collect();
        for part in &self.parts {
            if !FIXED.iter().any(|end| part.name.ends_with(end)) {
                all.push(alone_changed(&part.name, true));
            }
            if !FREE.contains(&&part.name[..]) {
                all.push(alone_changed(&part.name, false));
            }
        }
        all.extend(hops::every_alone());
        all.extend(methods::every_alone());
        all.extend(LATER.map(|later| format!("1 before {later}")));
        all.extend(SLICES.map(|reason| format!("2 before 1: {reason}")));
        all.retain(|sight| !self.seen.contains(sight));
        if self.next < self.steps.len() {
            all.push("every step of damage".to_string());
        }
        let few = self.in_range.min(self.out_of_range);
        if 4 * few < self.in_range + self.out_of_range {
            all.push("a quarter of the damaged stations in range, a quarter out".to_string());
        }
        all
    }
}

fn alone_wrong(fault: &str) -> String {
    format!("{fault} alone out of range")
}

fn alone_changed(part: &str, in_range: bool) -> String {
    let whether = if in_range { "in range" } else { "out of range" };
    format!("{part} alone changed and {whether}")
}

/// The first reason for 2.
fn reason(call: &Call, bytes: &[u8]) -> &'static str {
    let frame = match call {
        Call::Hear(frame) => frame,
        Call::Tell(_) => return "tell",
        _ => return "show",
    };
    if frame.len() != fairness::FRAME_LENGTH {
        return "length";
    }
    let ringlet = layout::setting(bytes, 2);
    match (frame[1] >> 4 & 3 == 2, frame[8] >> 5 == 0) {
        (false, _) => "type",
        (_, false) => "header kind",
        _ if u64::from(frame[1] >> 7) == ringlet => "ringlet",
        _ => "none",
    }
}

impl fmt::Display for Harm {
    fn fmt(&self, out: &mut fmt::Formatter<'_>) -> fmt::Result {
        let (inside, outside) = (self.in_range, self.out_of_range);
        write!(
            out,
            "damaged stations: {inside} in range, {outside} out of range"
        )
    }
}

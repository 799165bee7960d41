//! What must have come up among the client calls that are refused with 6.

use crate::line::{byte, short};
use crate::station::Station;
use crate::station_call::Call;
use std::collections::BTreeSet;
use std::fmt;

const CLASS_A: &str = "class A is short";

/// "Where two shapers are needed, give the larger shortfall": of a class B frame tried as
/// excess, and of a class C frame. Who lacks less than the other lacks something.
const OF_TWO: [[&str; 5]; 2] = [
    [
        "class B: C lacks more than D",
        "class B: D lacks more than C",
        "class B: only C lacks",
        "class B: only D lacks",
        "class B: C and D lack the same",
    ],
    [
        "class C: C lacks more than D",
        "class C: D lacks more than C",
        "class C: only C lacks",
        "class C: only D lacks",
        "class C: C and D lack the same",
    ],
];

/// "for client B, give that of the excess attempt": the first attempt, which needs B and D,
/// lacks something else.
const OF_B: [&str; 3] = [
    "class B: B lacks more than is told",
    "class B: B lacks less than is told, but lacks",
    "class B: B and D both lack less than is told",
];

/// The least shortfall and the two that need 17 bits.
const SIZES: [(u64, &str); 3] = [
    (1, "1 byte is missing"),
    (65_536, "65,536 bytes are missing"),
    (65_537, "65,537 bytes are missing"),
];

/// The client calls refused with 6: how many there were, and what came up.
#[derive(Default)]
pub struct Shortfalls {
    refused: u64,
    seen: BTreeSet<&'static str>,
}

impl Shortfalls {
    fn see(&mut self, sight: &'static str, seen: bool) {
        if seen {
            self.seen.insert(sight);
        }
    }

    /// Any call with its answer; a refused one left the station as it was.
    pub fn look(&mut self, station: &Station, call: &Call, answer: u64) {
        let Call::Client([class, _, _]) = *call else {
            return;
        };
        if byte(answer, 0) != 6 {
            return;
        }
        self.refused += 1;
        let told = short(answer);
        for (size, sight) in SIZES {
            self.see(sight, told == size);
        }
        match class {
            0 => self.see(CLASS_A, true),
            1 => self.look_at_b(station, told),
            _ => self.look_at_two(station, 1),
        }
    }

    fn look_at_two(&mut self, station: &Station, class: usize) {
        let kind = match (station.c.shortfall(), station.d.shortfall()) {
            (_, 0) => 2,
            (0, _) => 3,
            (c, d) if c > d => 0,
            (c, d) if c < d => 1,
            _ => 4,
        };
        self.see(OF_TWO[class][kind], true);
    }

    fn look_at_b(&mut self, station: &Station, told: u64) {
        let [b, d] = [station.b, station.d].map(|shaper| shaper.shortfall());
        self.see(OF_B[0], b > told);
        self.see(OF_B[1], b > 0 && b < told);
        self.see(OF_B[2], b < told && d < told);
        self.look_at_two(station, 0);
    }

    pub fn missing(&self) -> Vec<String> {
        let sizes = SIZES.map(|(_, sight)| sight);
        let mut all = [&[CLASS_A][..], &OF_TWO[0], &OF_TWO[1], &OF_B, &sizes].concat();
        all.retain(|sight| !self.seen.contains(sight));
        all.iter().map(|sight| sight.to_string()).collect()
    }
}

impl fmt::Display for Shortfalls {
    fn fmt(&self, out: &mut fmt::Formatter<'_>) -> fmt::Result {
        write!(out, "{} client calls told how far short", self.refused)
    }
}

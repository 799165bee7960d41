//! A smoothed rate beside a steady rate: what each interval must make of it, and which of
//! these must have come up.
//!
//! "With a steady rate, s must not stand still unless the shown rate equals it." So the rate
//! shown never passes the steady rate, stays where it has come to it, and from less than 2^k
//! away is there after k × lpCoef intervals.

use crate::report::Outcome;
use crate::station::reading::NAMES;
use crate::station::settings::LP_COEFS;
use crate::station::MOST_RATE;
use std::collections::BTreeSet;
use std::fmt;
use std::ops::Range;

/// The words of a reading that are the four rates shown.
pub const SHOWN: Range<usize> = 17..21;

/// One smoothed rate: its stored number, and the rate that is shown.
#[derive(Clone, Copy, Debug, PartialEq, Eq)]
pub struct Smoothed {
    pub stored: u64,
    pub shown: u64,
}

/// A smoothed rate on its way to a steady rate.
#[derive(Clone, Copy, Debug, PartialEq, Eq)]
pub struct Way {
    rate: u64,
    first: Smoothed,
    last: Smoothed,
    intervals: u64,
    /// So many intervals lead to the rate.
    pub bound: u64,
}

impl Way {
    pub fn new(rate: u64, lp_coef: u64, first: Smoothed) -> Way {
        let distance = first.shown.abs_diff(rate);
        let bits = u64::from(u64::BITS - distance.leading_zeros());
        Way {
            rate,
            first,
            last: first,
            intervals: 0,
            bound: bits * lp_coef,
        }
    }

    /// What the next interval left.
    pub fn go(&mut self, next: Smoothed) -> Outcome<()> {
        let (rate, last) = (self.rate, self.last);
        self.last = next;
        self.intervals += 1;
        let stands = next.stored == last.stored;
        let between = last.shown.min(rate)..=last.shown.max(rate);
        let wrong = if stands != (last.shown == rate) {
            "the stored number must stand still exactly where the rate shown is the rate"
        } else if !between.contains(&next.shown) {
            "the rate shown must not pass the rate nor leave it"
        } else if self.intervals >= self.bound && next.shown != rate {
            "the rate shown must be the rate by now"
        } else {
            return Ok(());
        };
        Err(format!("{wrong}: {self:?}, before {last:?}"))
    }

    fn kind(&self) -> &'static str {
        match (self.first.shown, self.rate) {
            (0, MOST_RATE) => "rises all the way",
            (MOST_RATE, 0) => "falls all the way",
            (0, 1..) => "rises from 0",
            (shown, rate) if shown < rate => "rises",
            (shown, rate) if shown > rate => "falls",
            _ => "stands",
        }
    }
}

/// How counters stand at a rate: by frames, sent while the station is congested or not, or
/// put there in the lent bytes.
pub const BY_FRAMES: [&str; 2] = ["by frames", "by frames while congested"];
pub const LENT: &str = "in lent bytes";

const KINDS: [&str; 5] = [
    "rises from 0",
    "falls",
    "rises",
    "rises all the way",
    "falls all the way",
];

/// The ways that were gone to their end.
#[derive(Default)]
pub struct Steady {
    intervals: u64,
    seen: BTreeSet<String>,
}

fn sight(name: &str, kind: &str, how: &str, lp_coef: u64) -> String {
    format!("{name} {kind}, with lpCoef {lp_coef}, to a rate that is steady {how}")
}

impl Steady {
    /// The four smoothed rates, each gone as far as its bound and farther.
    pub fn look(&mut self, ways: &[Way; 4], how: &str, lp_coef: u64) {
        self.intervals += ways[0].intervals;
        for (way, name) in ways.iter().zip(&NAMES[SHOWN]) {
            if way.intervals > way.bound {
                self.seen.insert(sight(name, way.kind(), how, lp_coef));
            }
        }
    }

    pub fn missing(&self) -> Vec<String> {
        let mut all = Vec::new();
        for lp_coef in LP_COEFS {
            for name in &NAMES[SHOWN] {
                let sight = |kind: &&str, how: &str| sight(name, kind, how, lp_coef);
                for how in BY_FRAMES {
                    all.extend(KINDS[..2].iter().map(|kind| sight(kind, how)));
                }
                all.extend(KINDS.iter().map(|kind| sight(kind, LENT)));
            }
        }
        all.retain(|sight| !self.seen.contains(sight));
        all
    }
}

impl fmt::Display for Steady {
    fn fmt(&self, out: &mut fmt::Formatter<'_>) -> fmt::Result {
        write!(out, "{} intervals with steady rates", self.intervals)
    }
}

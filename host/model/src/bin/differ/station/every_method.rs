//! Both methods at and beside every edge of the conservative one's table, in lent stations: round
//! trips of 1, 2, 3 and 1,000 intervals, every pair of rampUp and rampDn, and what is told then.

use super::method::lent;
use super::Trial;
use model::make_station;
use model::report::Outcome;
use model::station::aging::Rates;
use model::station::fairness::FRAME_LENGTH;
use model::station::settings::{Method, LP_COEFS};
use model::station::{Station, MOST_RATE};
use model::station_call::Call;
use std::collections::BTreeSet;

/// Words that are no method, no round trip and no rampDn: beside the range, and numbers in it
/// with a higher bit.
const NO_METHODS: [u32; 6] = [2, 3, 256, 65_537, 0x8000_0001, u32::MAX];
const NO_ROUND_TRIPS: [u32; 7] = [0, 1_001, 1_002, 1_024, 65_537, 0x8000_0003, u32::MAX];
const NO_RAMPS: [u32; 10] = [0, 1, 8, 15, 24, 96, 513, 1_024, 65_552, 0x8000_0040];

const ROUND_TRIPS: [u64; 4] = [1, 2, 3, 1_000];

fn in_order<const N: usize>(numbers: [u64; N], most: u64) -> Vec<u64> {
    let kept = numbers.into_iter().filter(|number| *number <= most);
    BTreeSet::from_iter(kept).into_iter().collect()
}

/// Each localFairRate at which a step begins to be more than 0 or congestion is left, with its
/// neighbours.
fn fair_rates(station: &Station) -> Vec<u64> {
    let settings = station.settings;
    let (up, down, unreserved) = (settings.ramp_up, settings.ramp_dn, settings.unreserved_rate);
    let left = |below: u64| unreserved.saturating_sub(below);
    let ends = [0, unreserved, left(1), MOST_RATE, unreserved + 1];
    let steps = [
        down - 1,
        down,
        down + 1,
        left(up - 1),
        left(up),
        left(up + 1),
    ];
    let most = settings.most_fair_rate();
    let mut rates = in_order(ends, most);
    rates.extend(in_order(steps, most));
    rates
}

struct Pass {
    trial: Trial,
    made: u64,
}

impl Pass {
    /// An interval of the station, and what it tells then.
    fn age(&mut self, station: &Station) -> Outcome<()> {
        let mut life = lent(station)?;
        for call in [Call::Age, Call::Tell(FRAME_LENGTH)] {
            self.trial.methods.look(&life.model, &call);
            life.carry_out(&mut self.trial.random, &call)?;
            self.made += 1;
        }
        Ok(())
    }

    /// Congested or not, the test true or not, with an own rate that is 1 less than what is
    /// unreserved, as much, and 1 more.
    fn with_rates(&mut self, station: &Station) -> Outcome<()> {
        let mut station = station.clone();
        let unreserved = station.settings.unreserved_rate;
        for test in [true, false] {
            station.settings.low_threshold = station.secondary.bytes() - u64::from(test);
            station.locally_congested = true;
            self.age(&station)?;
            station.locally_congested = false;
            for rate in in_order([unreserved - 1, unreserved, unreserved + 1], MOST_RATE) {
                station.counters = Rates::each([rate; 4]);
                station.stored = Rates::each([rate * station.settings.lp_coef; 4]);
                self.age(&station)?;
            }
        }
        Ok(())
    }

    /// Every localFairRate and every time that matters, with these settings.
    fn settings(&mut self, changes: &[(usize, u32)]) -> Outcome<()> {
        let Some(life) = self.trial.start(&make_station::words(changes))? else {
            return Err(format!("{changes:?} are refused"));
        };
        let mut station = life.model;
        Call::Transit([2, 16, 1, 0]).apply(&mut station, &[]);
        let last = station.settings.round_trip - 1;
        for since in in_order([0, last / 2, last.saturating_sub(1), last], last) {
            station.since = since;
            for fair in fair_rates(&station) {
                station.local_fair_rate = fair;
                self.with_rates(&station)?;
            }
        }
        Ok(())
    }

    /// Little unreserved, as much as rampUp, more than both coefficients, and the most.
    fn pair(&mut self, method: Method, round_trip: u64, [up, down]: [u64; 2]) -> Outcome<()> {
        for unreserved in [1, up, up + down + 1, MOST_RATE] {
            let words = [unreserved, up, method as u64, round_trip, down];
            let places = [26, 29, 31, 32, 33];
            let changes: Vec<(usize, u32)> = places
                .into_iter()
                .zip(words.map(|word| word as u32))
                .collect();
            self.settings(&changes)?;
        }
        Ok(())
    }

    fn refused(&mut self, changes: &[(usize, u32)]) -> Outcome<()> {
        match self.trial.start(&make_station::words(changes))? {
            Some(_) => Err(format!("{changes:?} are accepted")),
            None => Ok(()),
        }
    }

    fn refusals(&mut self) -> Outcome<()> {
        for method in NO_METHODS {
            self.refused(&[(31, method)])?;
        }
        for method in [0, 1] {
            for round_trip in NO_ROUND_TRIPS {
                self.refused(&[(31, method), (32, round_trip)])?;
            }
            for ramp in NO_RAMPS {
                self.refused(&[(31, method), (33, ramp)])?;
            }
        }
        Ok(())
    }
}

/// How many calls were made; none of them are in the tally. Each row and edge must be among
/// them, but for round trips of other lengths.
pub fn every_method() -> Outcome<u64> {
    let mut pass = Pass {
        trial: Trial::new(0),
        made: 0,
    };
    pass.refusals()?;
    for round_trip in ROUND_TRIPS {
        for up in LP_COEFS {
            pass.pair(Method::Aggressive, round_trip, [up, up])?;
            for down in LP_COEFS {
                pass.pair(Method::Conservative, round_trip, [up, down])?;
            }
        }
    }
    let mut missing = pass.trial.methods.missing();
    missing.retain(|sight| !sight.contains("another number"));
    match missing.is_empty() {
        true => Ok(pass.made),
        false => Err(format!("no lent station was at: {}", missing.join("; "))),
    }
}

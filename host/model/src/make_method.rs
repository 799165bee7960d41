//! Stations at and beside the edges of the methods: how far localFairRate is below unreservedRate,
//! how long ago the last change was, and what the test says.

use crate::make_station::round_trip;
use crate::random::Random;
use crate::station::aging::Rates;
use crate::station::settings::{Method, LP_COEFS};
use crate::station::{calls, Station, MOST_RATE};

/// What a conservative station with small numbers has in place of the plain settings: weight, unit
/// and ticks 1, lpCoef, rampUp and rampDn 16.
pub fn small(round_trip: u32, unreserved: u32) -> [(usize, u32); 9] {
    [
        (23, 1),
        (24, 1),
        (25, 1),
        (26, unreserved),
        (28, 16),
        (29, 16),
        (31, 1),
        (32, round_trip),
        (33, 16),
    ]
}

/// A method's settings; what is unreserved is often little more than a coefficient.
fn set(random: &mut Random, station: &mut Station) {
    let settings = &mut station.settings;
    settings.method = random.pick(&[
        Method::Aggressive,
        Method::Conservative,
        Method::Conservative,
        Method::Conservative,
    ]);
    settings.round_trip = round_trip(random);
    settings.ramp_up = random.pick(&LP_COEFS);
    settings.ramp_dn = random.pick(&LP_COEFS);
    let [up, down] = [settings.ramp_up, settings.ramp_dn];
    let some = random.between(1, 2_000) as u64;
    let near = random.pick(&[up, up + 1, up + 2, up + down, up + down + 1, 2 * up]);
    settings.unreserved_rate =
        random.pick(&[near, near, some, settings.unreserved_rate, MOST_RATE]);
}

/// A localFairRate near where a step begins to be more than 0, near where congestion is left,
/// or any.
fn fair_rate(random: &mut Random, station: &Station) -> u64 {
    let settings = station.settings;
    let (unreserved, down) = (settings.unreserved_rate, settings.ramp_dn);
    let most = settings.most_fair_rate();
    let any = random.between(0, i128::from(most)) as u64;
    let beside = random.below(3) as u64;
    let low = (down + 1).saturating_sub(beside);
    let near = (unreserved + beside).saturating_sub(settings.ramp_up + 1);
    let high = (unreserved + 1).saturating_sub(beside);
    random
        .pick(&[0, low, near, near, near, high, any])
        .min(most)
}

/// Whether the test is true at the next interval, where a frame is held or fits.
fn set_test(random: &mut Random, station: &mut Station) {
    if station.secondary.frames() == 0 {
        calls::offer_transit(station, 2, 16, 1, 0);
    }
    let held = station.secondary.bytes();
    station.settings.low_threshold = held.saturating_sub(random.below(2) as u64);
}

/// An own rate that smoothing leaves where it is: beside what is unreserved, none, or any.
fn set_add_rate(random: &mut Random, station: &mut Station) {
    let unreserved = station.settings.unreserved_rate;
    let any = random.between(0, i128::from(MOST_RATE)) as u64;
    let rate = random.pick(&[unreserved - 1, unreserved, unreserved + 1, 0, any]);
    let rate = rate.min(MOST_RATE);
    let lp_coef = station.settings.lp_coef;
    let rest = random.below(lp_coef as usize) as u64;
    station.counters = Rates {
        add: rate,
        ..station.counters
    };
    station.stored = Rates {
        add: rate * lp_coef + rest,
        ..station.stored
    };
}

/// The station at such an edge; it stays in range.
pub fn station(random: &mut Random, station: &Station) -> Station {
    let mut station = station.clone();
    set(random, &mut station);
    let (unreserved, last) = (
        station.settings.unreserved_rate,
        station.settings.round_trip - 1,
    );
    let any = random.between(0, i128::from(last)) as u64;
    station.since = random.pick(&[0, last, last, last.saturating_sub(1), any]);
    station.local_fair_rate = fair_rate(random, &station);
    station.locally_congested = !random.one_in(3);
    station.allowed_rate = station.allowed_rate.min(unreserved);
    station.allowed_rate_congested = station.allowed_rate_congested.min(unreserved);
    set_test(random, &mut station);
    set_add_rate(random, &mut station);
    station
}

//! What must have come up in the lives, beside every refusal.

use model::station::queue::{Queue, SLOTS};
use model::station::settings::Method;
use model::station::Station;
use model::station_call::Call;
use std::collections::BTreeSet;

const SELECTED: [&str; 5] = [
    "nothing selected",
    "control selected",
    "primary selected",
    "secondary selected",
    "stage selected",
];
const MARKS: [&str; 2] = ["client frame not eligible", "client frame eligible"];
const FULL: [&str; 3] = [
    "128 control frames",
    "128 primary frames",
    "128 secondary frames",
];
const RATES: [&str; 8] = [
    "only locally congested",
    "own rate told of both",
    "received rate told of both",
    "received rate told on",
    "received rate told as full at the last hop",
    "fair rate over unreservedRate",
    "addRateCongested counted",
    "fwRateCongested counted",
];

/// The rows of the conservative method's table, in their order.
const ROWS: [&str; 6] = [
    "conservative congestion entered",
    "conservative station not congested",
    "conservative congestion left",
    "conservative localFairRate lowered",
    "conservative localFairRate raised",
    "conservative localFairRate held",
];

#[derive(Default)]
pub struct Sights {
    seen: BTreeSet<&'static str>,
}

impl Sights {
    fn see(&mut self, sight: &'static str, seen: bool) {
        if seen {
            self.seen.insert(sight);
        }
    }

    /// The station before the call.
    pub fn look_before(&mut self, station: &Station, call: &Call) {
        if *call == Call::Age && station.settings.method == Method::Conservative {
            self.see(ROWS[station.row() as usize], true);
        }
    }

    /// The station as the call left it.
    pub fn look(&mut self, station: &Station, call: &Call, answer: u64) {
        match call {
            Call::Select => self.see(SELECTED[(answer >> 8 & 7) as usize], true),
            Call::Client(_) if answer as u8 == 0 => {
                self.see(MARKS[(answer >> 32 & 1) as usize], true);
            }
            _ => {}
        }
        let full = |queue: &Queue| queue.frames() == SLOTS;
        self.see(FULL[0], full(&station.control));
        self.see(FULL[1], full(&station.primary));
        self.see(FULL[2], full(&station.secondary));
        self.look_at_rates(station);
    }

    fn look_at_rates(&mut self, station: &Station) {
        let (local, downstream) = (station.locally_congested, station.downstream_congested);
        let own_first = station.own_rate <= station.received.rate;
        let last = station.received.hops() == station.settings.stations - 1;
        self.see(RATES[0], local && !downstream);
        self.see(RATES[1], local && downstream && own_first);
        self.see(RATES[2], local && downstream && !own_first && !last);
        self.see(RATES[3], !local && downstream && !last);
        self.see(RATES[4], downstream && last && !(local && own_first));
        let unreserved = station.settings.unreserved_rate;
        self.see(RATES[5], station.local_fair_rate > unreserved);
        self.see(RATES[6], station.counters.add_congested > 0);
        self.see(RATES[7], station.counters.fw_congested > 0);
    }

    pub fn missing(&self) -> Vec<String> {
        let all = [&SELECTED[..], &MARKS, &FULL, &RATES, &ROWS].concat();
        let unseen = |sight: &&&str| !self.seen.contains(**sight);
        all.iter()
            .filter(unseen)
            .map(|sight| sight.to_string())
            .collect()
    }
}

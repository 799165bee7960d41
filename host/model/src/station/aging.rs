//! The aging interval: what both methods share.

use super::Station;

/// addRate, fwRate and their Congested twins: counters, stored numbers or rates shown.
#[derive(Clone, Copy, Debug, Default, PartialEq, Eq)]
pub struct Rates {
    pub add: u64,
    pub fw: u64,
    pub add_congested: u64,
    pub fw_congested: u64,
}

impl Rates {
    pub fn list(&self) -> [u64; 4] {
        [self.add, self.fw, self.add_congested, self.fw_congested]
    }

    pub fn each(list: [u64; 4]) -> Rates {
        let [add, fw, add_congested, fw_congested] = list;
        Rates {
            add,
            fw,
            add_congested,
            fw_congested,
        }
    }
}

/// "at an interval s becomes s − floor(s / lpCoef) + rate"
pub fn smooth(stored: u64, rate: u64, lp_coef: u64) -> u64 {
    stored - shown(stored, lp_coef) + rate
}

/// "the rate shown is floor(s / lpCoef)."
pub fn shown(stored: u64, lp_coef: u64) -> u64 {
    stored / lp_coef
}

/// "Each counter becomes floor(rate × (ageCoef−1) / ageCoef)."
pub fn aged(rate: u64, age_coef: u64) -> u64 {
    rate * (age_coef - 1) / age_coef
}

/// "Own rate is floor(localFairRate / (weight × unit)), at most 65,534."
pub fn own_rate(local_fair_rate: u64, weight: u64, unit: u64) -> u64 {
    (local_fair_rate / (weight * unit)).min(65_534)
}

/// "allowedRate + floor((unreservedRate − allowedRate) / rampUp)"
pub fn ramped(allowed: u64, unreserved: u64, ramp_up: u64) -> u64 {
    allowed + (unreserved - allowed) / ramp_up
}

impl Station {
    /// The rates shown, of the four stored numbers.
    pub fn shown(&self) -> Rates {
        let stored = self.stored.list();
        Rates::each(stored.map(|stored| shown(stored, self.settings.lp_coef)))
    }

    /// "On the host's call, in this order."
    pub fn age(&mut self) {
        let settings = self.settings;
        let unreserved = settings.unreserved_rate;
        let (stored, rate) = (self.stored.list(), self.counters.list());
        self.stored =
            Rates::each([0, 1, 2, 3].map(|at| smooth(stored[at], rate[at], settings.lp_coef)));
        self.adjust();
        // "allowedRate: the smaller of localFairRate and unreservedRate if locally
        // congested, else" ramped.
        self.allowed_rate = match self.locally_congested {
            true => self.local_fair_rate.min(unreserved),
            false => ramped(self.allowed_rate, unreserved, settings.ramp_up),
        };
        // "allowedRateCongested: if downstream congested the smaller of unreservedRate
        // and received × weight × unit, else ramped the same way."
        let received = self.received.rate * settings.weight * settings.rate_unit;
        self.allowed_rate_congested = match self.downstream_congested {
            true => unreserved.min(received),
            false => ramped(self.allowed_rate_congested, unreserved, settings.ramp_up),
        };
        self.counters = Rates::each(rate.map(|rate| aged(rate, settings.age_coef)));
        self.own_rate = own_rate(self.local_fair_rate, settings.weight, settings.rate_unit);
    }
}

//! Local congestion, localFairRate and the intervals since the last change, by the method.

use super::settings::Method;
use super::Station;

/// What the conservative method does at an interval: the rows of its table.
#[derive(Clone, Copy, Debug, PartialEq, Eq, PartialOrd, Ord)]
pub enum Row {
    /// "enter congestion at lpAddRate, cut to unreservedRate"
    Enter,
    /// Not congested, and nothing changes.
    Rest,
    /// "once document 01's test is false, leave congestion, at unreservedRate, if the
    /// distance to it is less than rampUp"
    Leave,
    /// "while congested and a fairness round trip [...] has passed since the last change,
    /// reduce localFairRate by its rampDn-th part, rounded down"
    Down,
    /// "else after the same time raise it by the rampUp-th part of that distance, rounded
    /// down"
    Up,
    /// Congested, and the round trip has not passed.
    Hold,
}

impl Row {
    pub const ALL: [Row; 6] = [
        Row::Enter,
        Row::Rest,
        Row::Leave,
        Row::Down,
        Row::Up,
        Row::Hold,
    ];
}

impl Station {
    /// Document 01's test: "secondary bytes > low threshold."
    pub fn test(&self) -> bool {
        self.secondary.bytes() > self.settings.low_threshold
    }

    /// Both methods go on from the smoothed rates of this interval.
    pub(super) fn adjust(&mut self) {
        match self.settings.method {
            Method::Aggressive => self.adjust_aggressively(),
            Method::Conservative => self.adjust_conservatively(),
        }
    }

    /// "Locally congested: secondary bytes > low threshold. localFairRate: lpAddRate if
    /// locally congested, else unreservedRate."
    fn adjust_aggressively(&mut self) {
        self.locally_congested = self.test();
        self.local_fair_rate = match self.locally_congested {
            true => self.shown().add,
            false => self.settings.unreserved_rate,
        };
    }

    /// How far localFairRate is below unreservedRate; the conservative one is never above.
    pub fn distance(&self) -> u64 {
        self.settings.unreserved_rate - self.local_fair_rate
    }

    /// Which row the conservative method takes at the next interval.
    pub fn row(&self) -> Row {
        let passed = self.since + 1 >= self.settings.round_trip;
        match (self.locally_congested, self.test()) {
            (false, true) => Row::Enter,
            (false, false) => Row::Rest,
            (true, false) if self.distance() < self.settings.ramp_up => Row::Leave,
            (true, true) if passed => Row::Down,
            (true, false) if passed => Row::Up,
            (true, _) => Row::Hold,
        }
    }

    /// "entry counts as a change, so does a step of 0".
    fn adjust_conservatively(&mut self) {
        let settings = self.settings;
        let (unreserved, fair) = (settings.unreserved_rate, self.local_fair_rate);
        let row = self.row();
        self.since = match row {
            Row::Rest => self.since,
            Row::Hold => self.since + 1,
            _ => 0,
        };
        self.local_fair_rate = match row {
            Row::Enter => self.shown().add.min(unreserved),
            Row::Leave => unreserved,
            Row::Down => fair - fair / settings.ramp_dn,
            Row::Up => fair + self.distance() / settings.ramp_up,
            Row::Rest | Row::Hold => fair,
        };
        self.locally_congested = !matches!(row, Row::Rest | Row::Leave);
    }
}

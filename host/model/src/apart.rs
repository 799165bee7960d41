//! What a conservative station shows from interval to interval, held to what the method is for:
//! no jumps, and a step exactly each round trip.
//!
//! It goes by readings alone, of a station from its start, and knows nothing of how the time is
//! kept.

use crate::report::Outcome;
use crate::station::aging::own_rate;
use crate::station::settings::Settings;

/// Words 17, 21, 22, 24 and 25 of a reading.
#[derive(Clone, Copy, Debug, PartialEq, Eq)]
pub struct Shown {
    /// lpAddRate
    pub add: u64,
    pub fair: u64,
    pub allowed: u64,
    pub own: u64,
    pub congested: bool,
}

impl Shown {
    pub fn of(word: impl Fn(usize) -> u64) -> Shown {
        Shown {
            add: word(17),
            fair: word(21),
            allowed: word(22),
            own: word(24),
            congested: word(25) == 1,
        }
    }
}

/// A station's way through its intervals.
#[derive(Clone, Copy, Debug, PartialEq, Eq)]
pub struct Apart {
    settings: Settings,
    last: Shown,
    /// The intervals since localFairRate was last seen to change, or congestion.
    intervals: u64,
    /// How often localFairRate was lowered and raised.
    pub steps: [u64; 2],
}

impl Apart {
    /// From a start, so not congested: the time is known from entering on.
    pub fn new(settings: Settings, first: Shown) -> Apart {
        assert!(!first.congested, "how long ago it changed is not shown");
        Apart {
            settings,
            last: first,
            intervals: 0,
            steps: [0; 2],
        }
    }

    /// What the next interval showed; `test` is document 01's before it.
    pub fn go(&mut self, test: bool, next: Shown) -> Outcome<()> {
        let last = self.last;
        self.intervals += 1;
        let wrong = match (last.congested, next.congested) {
            (false, true) => !test || self.entered_wrongly(next),
            (false, false) => test,
            (true, false) => self.left_wrongly(test),
            (true, true) => self.stepped_wrongly(test, next.fair),
        };
        if wrong || self.shows_wrongly(next) {
            return Err(format!("{self:?}, then {next:?}, the test {test}"));
        }
        if last.congested && next.congested {
            self.steps[0] += u64::from(next.fair < last.fair);
            self.steps[1] += u64::from(next.fair > last.fair);
        }
        if (last.congested, last.fair) != (next.congested, next.fair) {
            self.intervals = 0;
        }
        self.last = next;
        Ok(())
    }

    /// "show that the conservative localFairRate never exceeds unreservedRate"; "not congested
    /// means L = U"; "the station counts as locally congested for allowedRate".
    fn shows_wrongly(&self, next: Shown) -> bool {
        let settings = self.settings;
        let unreserved = settings.unreserved_rate;
        let wrong = match next.congested {
            true => next.fair > unreserved || next.allowed != next.fair,
            false => next.fair != unreserved,
        };
        wrong || next.own != own_rate(next.fair, settings.weight, settings.rate_unit)
    }

    /// "enter congestion at lpAddRate, cut to unreservedRate"
    fn entered_wrongly(&self, next: Shown) -> bool {
        next.fair != next.add.min(self.settings.unreserved_rate)
    }

    /// "once document 01's test is false, leave congestion [...] if the distance to it is less
    /// than rampUp"
    fn left_wrongly(&self, test: bool) -> bool {
        test || self.settings.unreserved_rate - self.last.fair >= self.settings.ramp_up
    }

    /// "and a fairness round trip [...] has passed since the last change": each time that it has,
    /// for a step of 0 is a change too, and all others are seen.
    fn stepped_wrongly(&self, test: bool, fair: u64) -> bool {
        let (settings, last) = (self.settings, self.last.fair);
        let below = settings.unreserved_rate - last;
        if !test && below < settings.ramp_up {
            return true;
        }
        let step = match test {
            true => last - last / settings.ramp_dn,
            false => last + below / settings.ramp_up,
        };
        let due = self.intervals % settings.round_trip == 0;
        fair != if due { step } else { last }
    }
}

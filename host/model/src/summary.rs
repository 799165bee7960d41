//! Summaries, and the shaper run event by event that they stand for.

use crate::record::{Event, Record, Settings, MOST_EVENTS};
use crate::refusal::Refusal;

/// "A summary holds the settings, events, accrued, sent, ceiling, need."
#[derive(Clone, Copy, Debug, PartialEq, Eq)]
pub struct Summary {
    pub settings: Settings,
    pub events: i128,
    pub accrued: i128,
    pub sent: i128,
    pub ceiling: i128,
    pub need: i128,
}

impl Summary {
    /// "Empty: ceiling hiLimit, need 0."
    pub fn empty(settings: Settings) -> Summary {
        Summary {
            settings,
            events: 0,
            accrued: 0,
            sent: 0,
            ceiling: i128::from(settings.hi_limit),
            need: 0,
        }
    }

    /// "Tick: ceiling hiLimit waiting, loLimit idle; need 0. Send: ceiling
    /// hiLimit − size, need loLimit+1."
    pub fn of_event(settings: Settings, event: Event) -> Summary {
        let lo = i128::from(settings.lo_limit);
        let hi = i128::from(settings.hi_limit);
        let (accrued, sent, ceiling, need) = match event {
            Event::Waiting(amount) => (i128::from(amount), 0, hi, 0),
            Event::Idle(amount) => (i128::from(amount), 0, lo, 0),
            Event::Send(size) => (0, i128::from(size), hi - i128::from(size), lo + 1),
        };
        Summary {
            settings,
            events: 1,
            accrued,
            sent,
            ceiling,
            need,
        }
    }

    /// The events' summaries joined in order, from the empty one.
    pub fn of_record(record: &Record) -> Result<Summary, Refusal> {
        let mut sum = Summary::empty(record.settings);
        for event in &record.events {
            sum = sum.join(&Summary::of_event(record.settings, *event))?;
        }
        Ok(sum)
    }

    /// "Gain is accrued − sent."
    pub fn gain(&self) -> i128 {
        self.accrued - self.sent
    }

    /// "hiLimit+1 ("never")"
    pub fn never(&self) -> i128 {
        i128::from(self.settings.hi_limit) + 1
    }

    /// "In range: settings valid; events ≤ 1,000,000; accrued ≤ 65,535 × events;
    /// sent ≤ 9,216 × events; ceiling ≤ hiLimit, ≤ hiLimit + gain, ≥ −9,216 ×
    /// events; need 0 to hiLimit+1; and if need ≤ hiLimit, ceiling ≥ 0 and need +
    /// gain ≥ 0."
    pub fn in_range(&self) -> bool {
        let hi = i128::from(self.settings.hi_limit);
        let counts = self.settings.valid()
            && (0..=MOST_EVENTS as i128).contains(&self.events)
            && (0..=65_535 * self.events).contains(&self.accrued)
            && (0..=9_216 * self.events).contains(&self.sent);
        let ceiling = self.ceiling <= hi
            && self.ceiling <= hi + self.gain()
            && self.ceiling >= -9_216 * self.events;
        let need = (0..=self.never()).contains(&self.need);
        let reachable = self.need > hi || (self.ceiling >= 0 && self.need + self.gain() >= 0);
        counts && ceiling && need && reachable
    }

    /// "Join of 1 then 2". "Where several apply the order is 2, 1, 3, 11, 10, 9".
    pub fn join(&self, second: &Summary) -> Result<Summary, Refusal> {
        if !self.in_range() || !second.in_range() {
            return Err(Refusal::Range);
        }
        if self.settings != second.settings {
            return Err(Refusal::Settings);
        }
        if self.events + second.events > MOST_EVENTS as i128 {
            return Err(Refusal::Events);
        }
        Ok(self.joined(second))
    }

    /// "counts add; ceiling is the smaller of ceiling1 + gain2 and ceiling2; need
    /// is hiLimit+1 ("never") if ceiling1 < need2, else max(need1, need2 − gain1),
    /// at most hiLimit+1."
    fn joined(&self, second: &Summary) -> Summary {
        let need = if self.ceiling < second.need {
            self.never()
        } else {
            let larger = self.need.max(second.need - self.gain());
            larger.min(self.never())
        };
        Summary {
            settings: self.settings,
            events: self.events + second.events,
            accrued: self.accrued + second.accrued,
            sent: self.sent + second.sent,
            ceiling: (self.ceiling + second.gain()).min(second.ceiling),
            need,
        }
    }

    /// "From credit c: permitted throughout exactly if c ≥ need, ending at min(c +
    /// gain, ceiling)." None where not permitted. A starting credit is a credit, so
    /// "0 to hiLimit".
    pub fn settle(&self, start: i128) -> Result<Option<i128>, Refusal> {
        let hi = i128::from(self.settings.hi_limit);
        if !self.in_range() || !(0..=hi).contains(&start) {
            return Err(Refusal::Range);
        }
        if start < self.need {
            return Ok(None);
        }
        Ok(Some((start + self.gain()).min(self.ceiling)))
    }
}

/// "A tick adds the amount; while traffic waits the sum is cut to hiLimit,
/// otherwise to loLimit. A send is permitted exactly when credit > loLimit, then
/// the size is taken off." None where not permitted.
pub fn step(settings: &Settings, event: Event, credit: i128) -> Option<i128> {
    let lo = i128::from(settings.lo_limit);
    let hi = i128::from(settings.hi_limit);
    match event {
        Event::Waiting(amount) => Some((credit + i128::from(amount)).min(hi)),
        Event::Idle(amount) => Some((credit + i128::from(amount)).min(lo)),
        Event::Send(size) if credit > lo => Some(credit - i128::from(size)),
        Event::Send(_) => None,
    }
}

/// The credit after all events, one by one; None once a send isn't permitted.
pub fn run(settings: &Settings, events: &[Event], start: i128) -> Option<i128> {
    events
        .iter()
        .try_fold(start, |credit, event| step(settings, *event, credit))
}

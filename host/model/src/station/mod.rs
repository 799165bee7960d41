//! One station on one ringlet: its settings, its state, and what each call does.
//!
//! The calls as a host makes them are in `calls`.

pub mod aging;
pub mod calls;
pub mod fairness;
pub mod frames;
pub mod layout;
pub mod method;
pub mod offer;
pub mod queue;
pub mod range;
pub mod reading;
pub mod select;
pub mod settings;
pub mod shaper;

use self::aging::Rates;
use self::fairness::Received;
use self::frames::Frame;
use self::queue::Queue;
use self::settings::Settings;
use self::shaper::Shaper;

/// "Counters stop at 2,147,483,647."
pub const MOST_RATE: u64 = 2_147_483_647;

#[derive(Clone, Debug, PartialEq, Eq)]
pub struct Station {
    pub settings: Settings,
    /// "Five: M (control), A, B, C, D (downstream)."
    pub m: Shaper,
    pub a: Shaper,
    pub b: Shaper,
    pub c: Shaper,
    pub d: Shaper,
    pub control: Queue,
    pub primary: Queue,
    pub secondary: Queue,
    /// "The stage holds one client frame."
    pub stage: Option<Frame>,
    /// The counters, in the order addRate, fwRate, addRateCongested, fwRateCongested.
    pub counters: Rates,
    /// "Each smoothed rate is kept times lpCoef, as a stored number": in the same order.
    pub stored: Rates,
    pub local_fair_rate: u64,
    pub allowed_rate: u64,
    pub allowed_rate_congested: u64,
    pub own_rate: u64,
    pub locally_congested: bool,
    /// "the intervals since the last change", of the conservative method.
    pub since: u64,
    pub downstream_congested: bool,
    pub received: Received,
}

impl Station {
    /// "Each queue has 128 slots, all empty at the start"; "Counters and smoothed rates
    /// start at 0, own rate by its formula, other rates at unreservedRate, with no
    /// congestion, received ttl 255, received address and rate 0". No interval was before.
    pub fn new(settings: Settings) -> Station {
        let unreserved = settings.unreserved_rate;
        Station {
            settings,
            m: Shaper::new(settings.m),
            a: Shaper::new(settings.a),
            b: Shaper::new(settings.b),
            c: Shaper::new(settings.c),
            d: Shaper::new(settings.d),
            control: Queue::new(settings.control_queue),
            primary: Queue::new(settings.primary_queue),
            secondary: Queue::new(settings.secondary_queue),
            stage: None,
            counters: Rates::default(),
            stored: Rates::default(),
            local_fair_rate: unreserved,
            allowed_rate: unreserved,
            allowed_rate_congested: unreserved,
            own_rate: aging::own_rate(unreserved, settings.weight, settings.rate_unit),
            locally_congested: false,
            since: 0,
            downstream_congested: false,
            received: Received::START,
        }
    }

    /// "M waits when the control queue holds a frame; C when B or C waits; D when B or C
    /// waits or the stage or secondary queue holds a frame."
    pub fn tick(&mut self, a_waits: bool, b_waits: bool, c_waits: bool) {
        let b_or_c = b_waits || c_waits;
        let m_waits = self.control.frames() > 0;
        let d_waits = b_or_c || self.stage.is_some() || self.secondary.frames() > 0;
        let c_amount = self.c_amount();
        self.m.tick(self.settings.m.amount, m_waits);
        self.a.tick(self.settings.a.amount, a_waits);
        self.b.tick(self.settings.b.amount, b_waits);
        self.c.tick(c_amount, b_or_c);
        self.d.tick(self.settings.d.amount, d_waits);
    }

    /// "C's amount is the smaller of its setting and floor(allowedRate / (ageCoef ×
    /// ticks per interval))."
    pub fn c_amount(&self) -> u64 {
        let ticks = self.settings.age_coef * self.settings.ticks_per_interval;
        self.settings.c.amount.min(self.allowed_rate / ticks)
    }

    /// "downstream congested and hops > hopsToCongestion".
    pub fn passes_congestion(&self, hops: u64) -> bool {
        self.downstream_congested && hops > self.received.hops()
    }
}

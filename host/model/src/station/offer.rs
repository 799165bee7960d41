//! Frames in.

use super::frames::{Class, Frame};
use super::Station;
use crate::refusal::Refusal;

impl Station {
    /// "Transit A goes to the primary queue, B and C to the secondary."
    pub fn offer_transit(&mut self, frame: Frame) -> Result<(), Refusal> {
        let frame = frame.checked(&self.settings)?;
        match frame.class {
            Class::A => self.primary.put(frame),
            Class::B | Class::C => self.secondary.put(frame),
        }
    }

    /// "Control frames, given by size alone (class A, 1 hop), go to the control queue"
    pub fn offer_control(&mut self, size: u64) -> Result<(), Refusal> {
        let frame = Frame {
            class: Class::A,
            size,
            hops: 1,
            eligible: false,
        };
        self.control.put(frame.checked(&self.settings)?)
    }

    /// "a client gives no mark. The stage holds one client frame." The mark that the
    /// frame got.
    pub fn offer_client(&mut self, class: Class, size: u64, hops: u64) -> Result<bool, Refusal> {
        let eligible = false;
        let frame = Frame {
            class,
            size,
            hops,
            eligible,
        };
        let frame = frame.checked(&self.settings)?;
        if self.stage.is_some() {
            return Err(Refusal::Stage);
        }
        let eligible = self.admit(frame)?;
        self.stage = Some(Frame { eligible, ..frame });
        Ok(eligible)
    }

    /// Charges what a client frame needs; whether it is marked eligible.
    fn admit(&mut self, frame: Frame) -> Result<bool, Refusal> {
        // "Client A needs and charges A."
        if frame.class == Class::A {
            if !self.a.permits() {
                return Err(Refusal::Shaper(self.a.shortfall()));
            }
            self.a.charge(frame.size);
            return Ok(false);
        }
        // "Client B needs and charges B and D; failing that it is tried as excess."
        if frame.class == Class::B && self.b.permits() && self.d.permits() {
            self.b.charge(frame.size);
            self.d.charge(frame.size);
            return Ok(false);
        }
        self.admit_excess(frame).map(|()| true)
    }

    /// "Excess B and C need C and D, charge both, and are marked eligible. If
    /// downstream congested, an eligible client frame with hops > hopsToCongestion gets
    /// 7 when addRateCongested + size > allowedRateCongested." "Where two shapers are
    /// needed, give the larger shortfall; for client B, give that of the excess attempt."
    fn admit_excess(&mut self, frame: Frame) -> Result<(), Refusal> {
        if !self.c.permits() || !self.d.permits() {
            let short = self.c.shortfall().max(self.d.shortfall());
            return Err(Refusal::Shaper(short));
        }
        let passed = self.counters.add_congested + frame.size > self.allowed_rate_congested;
        if self.passes_congestion(frame.hops) && passed {
            return Err(Refusal::FairRate);
        }
        self.c.charge(frame.size);
        self.d.charge(frame.size);
        Ok(())
    }
}

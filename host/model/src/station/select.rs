//! Selection of the next frame to send.

use super::frames::Frame;
use super::{Station, MOST_RATE};

/// "Origin of a selected frame: nothing 0, control 1, primary 2, secondary 3, stage 4."
#[derive(Clone, Copy, Debug, PartialEq, Eq)]
pub enum Origin {
    Control = 1,
    Primary = 2,
    Secondary = 3,
    Stage = 4,
}

/// "Counters stop at 2,147,483,647."
fn count(counter: &mut u64, size: u64) {
    *counter = (*counter + size).min(MOST_RATE);
}

impl Station {
    /// "control, if its head's size fits the space of both transit queues and M permits"
    fn control_holds(&self) -> bool {
        let fits =
            |head: Frame| head.size <= self.primary.space() && head.size <= self.secondary.space();
        self.control.head().is_some_and(fits) && self.m.permits()
    }

    /// "First that holds", and whether the frame is charged.
    fn choice(&self) -> Option<(Origin, bool)> {
        // "(M charged)"
        if self.control_holds() {
            return Some((Origin::Control, true));
        }
        // "primary"
        if self.primary.frames() > 0 {
            return Some((Origin::Primary, false));
        }
        // "secondary, if mtu > its space (nothing charged)"
        let waits = self.secondary.frames() > 0;
        if waits && self.settings.mtu > self.secondary.space() {
            return Some((Origin::Secondary, false));
        }
        // "stage"
        if self.stage.is_some() {
            return Some((Origin::Stage, false));
        }
        // "secondary, if D permits (D charged); nothing."
        (waits && self.d.permits()).then_some((Origin::Secondary, true))
    }

    /// "The chosen frame leaves its queue."
    pub fn select(&mut self) -> Option<(Origin, Frame)> {
        let (origin, charged) = self.choice()?;
        let frame = match origin {
            Origin::Control => self.control.take(),
            Origin::Primary => self.primary.take(),
            Origin::Secondary => self.secondary.take(),
            Origin::Stage => self.stage.take(),
        }?;
        match origin {
            Origin::Control if charged => self.m.charge(frame.size),
            Origin::Secondary if charged => self.d.charge(frame.size),
            _ => {}
        }
        self.count_selected(origin, frame);
        Some((origin, frame))
    }

    /// "An eligible stage frame adds its size to addRate, a secondary one to fwRate;
    /// also to the Congested twin if downstream congested and hops > hopsToCongestion."
    fn count_selected(&mut self, origin: Origin, frame: Frame) {
        if !frame.eligible {
            return;
        }
        let twin_too = self.passes_congestion(frame.hops);
        let counters = &mut self.counters;
        let (counter, twin) = match origin {
            Origin::Stage => (&mut counters.add, &mut counters.add_congested),
            Origin::Secondary => (&mut counters.fw, &mut counters.fw_congested),
            Origin::Control | Origin::Primary => return,
        };
        count(counter, frame.size);
        if twin_too {
            count(twin, frame.size);
        }
    }
}

//! The rest of a station made to fit one word of its settings, so that this word alone
//! may be out of range.

use super::slots;
use crate::station::layout::{
    put_word, setting, slot_at, word, Slot, HEAD, HELD, QUEUES, SETTINGS, STAGE,
};
use crate::station::queue::SLOTS;
use crate::station::range::{bounds, most_hops};

/// The bytes of a station, one word of which stays as it is.
struct Fitting<'a> {
    bytes: &'a mut [u8],
    /// The word of the settings that stays.
    kept: usize,
}

impl Fitting<'_> {
    /// Raises a word of the settings.
    fn at_least(&mut self, at: usize, least: u64) {
        if at != self.kept && setting(self.bytes, at) < least {
            put_word(self.bytes, SETTINGS + 4 * at, least);
        }
    }

    /// Lowers a word of the settings.
    fn at_most(&mut self, at: usize, most: u64) {
        if at != self.kept && setting(self.bytes, at) > most {
            put_word(self.bytes, SETTINGS + 4 * at, most);
        }
    }

    fn shapers(&mut self) {
        let mtu = setting(self.bytes, 3);
        for shaper in 0..5 {
            let (lo, hi) = (4 + 3 * shaper, 5 + 3 * shaper);
            self.at_least(lo, mtu);
            let least = setting(self.bytes, lo) + 1;
            self.at_least(hi, least);
        }
    }

    /// A queue with a frame that is too large, or that holds too much, is emptied.
    fn queues(&mut self) {
        let mtu = setting(self.bytes, 3);
        self.at_least(19, mtu);
        self.at_least(20, mtu);
        self.at_least(21, 2 * mtu);
        let secondary = setting(self.bytes, 21);
        self.at_most(22, secondary);
        for (queue, at) in QUEUES.into_iter().enumerate() {
            let size = |slot| Slot::of_word(word(self.bytes, slot_at(at, slot))).size;
            let held = word(self.bytes, at + HELD);
            let large = (0..SLOTS).any(|slot| size(slot) > mtu);
            if large || held > setting(self.bytes, 19 + queue) {
                let head = self.bytes[at + HEAD];
                self.bytes[at..at + 518].fill(0);
                self.bytes[at + HEAD] = head;
            }
        }
        if Slot::of_word(word(self.bytes, STAGE)).size > mtu {
            put_word(self.bytes, STAGE, 0);
        }
    }

    /// Lowers the hops of frames to the most that the ring has.
    fn hops(&mut self) {
        let most = most_hops(setting(self.bytes, 30));
        for place in slots() {
            let slot = Slot::of_word(word(self.bytes, place));
            let hops = slot.hops.min(most);
            put_word(self.bytes, place, Slot { hops, ..slot }.word());
        }
    }

    /// Lowers credits to hiLimit, allowed rates and the conservative localFairRate to
    /// unreservedRate, and stored numbers and since to what lpCoef and the round trip let them
    /// be; raises the received ttl to the ring's least.
    fn state(&mut self) {
        for bound in bounds(self.bytes) {
            let number = bound.number(self.bytes);
            bound.put(self.bytes, number.clamp(bound.least, bound.most));
        }
    }
}

pub fn fit(bytes: &mut [u8], kept: usize) {
    let mut fitting = Fitting { bytes, kept };
    fitting.shapers();
    fitting.queues();
    fitting.hops();
    fitting.state();
}

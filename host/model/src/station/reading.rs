//! A reading of a station's state.

use super::Station;

/// "A reading (`rpr_show`): 31 words of 4 bytes"
pub const WORDS: usize = 31;
pub const READING_LENGTH: usize = 4 * WORDS;

pub const NAMES: [&str; WORDS] = [
    "creditM",
    "creditA",
    "creditB",
    "creditC",
    "creditD",
    "controlFrames",
    "controlBytes",
    "primaryFrames",
    "primaryBytes",
    "secondaryFrames",
    "secondaryBytes",
    "stageFrames",
    "stageBytes",
    "addRate",
    "fwRate",
    "addRateCongested",
    "fwRateCongested",
    "lpAddRate",
    "lpFwRate",
    "lpAddRateCongested",
    "lpFwRateCongested",
    "localFairRate",
    "allowedRate",
    "allowedRateCongested",
    "ownRate",
    "locallyCongested",
    "downstreamCongested",
    "receivedTtl",
    "receivedAddressHigh",
    "receivedAddressLow",
    "receivedRate",
];

impl Station {
    pub fn reading(&self) -> [u64; WORDS] {
        let mut words = Vec::with_capacity(WORDS);
        let shapers = [self.m, self.a, self.b, self.c, self.d];
        words.extend(shapers.map(|shaper| shaper.credit));
        for queue in [&self.control, &self.primary, &self.secondary] {
            words.extend([queue.frames() as u64, queue.bytes()]);
        }
        words.push(u64::from(self.stage.is_some()));
        words.push(self.stage.map_or(0, |frame| frame.size));
        words.extend(self.counters.list());
        words.extend(self.shown().list());
        words.push(self.local_fair_rate);
        words.push(self.allowed_rate);
        words.push(self.allowed_rate_congested);
        words.push(self.own_rate);
        words.push(u64::from(self.locally_congested));
        words.push(u64::from(self.downstream_congested));
        let address = self.received.address.map(u64::from);
        let number = address.iter().fold(0, |sum, byte| sum << 8 | byte);
        words.push(self.received.ttl);
        words.extend([number >> 32, number & 0xffff_ffff]);
        words.push(self.received.rate);
        std::array::from_fn(|at| words[at])
    }
}

//! The refusal numbers.

#[derive(Clone, Copy, Debug, PartialEq, Eq, PartialOrd, Ord)]
pub enum Refusal {
    /// "a setting, or a lent station's state, is outside its range"
    Setting,
    /// "bytes are not a whole record, frame or station"
    Bytes,
    /// "a frame, station index, summary (its settings too), starting credit or
    /// coded choice [...] is outside its range"
    Range,
    /// "a frame's size exceeds the queue's space"
    Space,
    /// "the stage already holds a frame"
    Stage,
    /// "a needed shaper doesn't permit", and the shortfall.
    Shaper(u64),
    /// "the congested fair rate would be passed"
    FairRate,
    /// "no usable way"
    NoWay,
    /// "over 1,000,000 events"
    Events,
    /// "joined summaries have different settings"
    Settings,
    /// "a fairness frame bears this station's own address"
    OwnAddress,
    /// "room too short"
    Room,
    /// "A fairness frame, a transit frame or a client frame whose hops reach the number of
    /// stations or more"
    Hops,
}

impl Refusal {
    pub fn number(self) -> u8 {
        match self {
            Refusal::Setting => 1,
            Refusal::Bytes => 2,
            Refusal::Range => 3,
            Refusal::Space => 4,
            Refusal::Stage => 5,
            Refusal::Shaper(_) => 6,
            Refusal::FairRate => 7,
            Refusal::NoWay => 8,
            Refusal::Events => 9,
            Refusal::Settings => 10,
            Refusal::OwnAddress => 11,
            Refusal::Room => 12,
            Refusal::Hops => 13,
        }
    }

    /// "byte 0 is 6, bytes 1 to 3 are 0, bytes 4 to 7 the shortfall [...]. Every other
    /// refusal of every call is its number alone."
    pub fn answer(self) -> u64 {
        let short = match self {
            Refusal::Shaper(short) => short,
            _ => 0,
        };
        u64::from(self.number()) | short << 32
    }
}

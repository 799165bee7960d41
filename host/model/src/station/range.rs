//! Whether lent bytes hold a station in range.
//!
//! "A lent station is in range if its settings, frames, slots and bytes held (the sizes'
//! sum, at most the capacity) are, credits are 0 to hiLimit, own and received rates at
//! most 65,534, other rates at most 2,147,483,647, allowed rates at most unreservedRate
//! and a received ttl 193 to 255"; "A lent station's range binds the rate shown, not s
//! itself."; "a lent station holding such hops", in a frame or by a received ttl, congested
//! downstream or not, "is 1."; "the conservative localFairRate never exceeds unreservedRate (a
//! lent one above it: 1)"; "`since` is 0 to round trip − 1 in range, under both methods". Codes
//! are in range where they stand for something: a class A, B or C, yes or no 1 or 0, an address
//! of six bytes.

use super::layout::{
    self, number, put_number, setting, slot_at, word, Slot, COUNT, CREDITS, FAIRNESS_NUMBERS, HEAD,
    HELD, QUEUES, QUEUE_NAMES, STAGE, STATION_LENGTH, STORED,
};
use super::queue::SLOTS;
use super::settings::{self, Method, LEAST_STATIONS, MOST_STATIONS};
use super::{reading, MOST_RATE};
use std::ops::Range;

/// A number of the state that has a range, and the range, which may depend on settings.
#[derive(Clone, Debug, PartialEq, Eq)]
pub struct Bound {
    pub name: &'static str,
    pub place: Range<usize>,
    pub least: u64,
    pub most: u64,
}

impl Bound {
    pub fn number(&self, bytes: &[u8]) -> u64 {
        number(&bytes[self.place.clone()])
    }

    pub fn put(&self, bytes: &mut [u8], number: u64) {
        put_number(&mut bytes[self.place.clone()], number);
    }

    /// Every name that `fault` may give: its own, or where it has a least number that of a
    /// side; none where all that its bytes can hold is in range.
    fn faults(&self) -> Vec<String> {
        let largest = u64::MAX >> (64 - 8 * self.place.len());
        match self.least {
            0 if self.most == largest => Vec::new(),
            0 => vec![self.name.to_string()],
            _ => SIDES.map(|side| format!("{} {side}", self.name)).to_vec(),
        }
    }

    /// What is wrong with the number that stands there.
    fn fault(&self, bytes: &[u8]) -> Option<String> {
        let number = self.number(bytes);
        if (self.least..=self.most).contains(&number) {
            return None;
        }
        let faults = self.faults();
        match number < self.least {
            true => faults.first().cloned(),
            false => faults.last().cloned(),
        }
    }
}

const SIDES: [&str; 2] = ["below", "above"];

/// The five credits and the 19 numbers of the fairness state.
pub const BOUNDS: usize = 5 + FAIRNESS_NUMBERS;

/// The largest stored number whose rate shown is at most 2,147,483,647; 0 where lpCoef is 0,
/// which is out of range itself.
pub fn most_stored(lp_coef: u64) -> u64 {
    (lp_coef * (MOST_RATE + 1)).saturating_sub(1)
}

/// "hops 1 to 63", and not such as "reach the number of stations or more". A number of
/// stations that is out of range itself binds no hops.
pub fn most_hops(stations: u64) -> u64 {
    match (LEAST_STATIONS..=MOST_STATIONS).contains(&stations) {
        true => stations - 1,
        false => 63,
    }
}

/// The ranges of the fairness state's numbers, in their order.
fn fairness_ranges(bytes: &[u8]) -> [(u64, u64); FAIRNESS_NUMBERS] {
    let [unreserved, lp_coef, stations] = [26, 28, 30].map(|at| setting(bytes, at));
    let [method, round_trip] = [31, 32].map(|at| setting(bytes, at));
    let rate = (0, MOST_RATE);
    let mut ranges = [rate; FAIRNESS_NUMBERS];
    ranges[STORED].fill((0, most_stored(lp_coef)));
    // "the conservative localFairRate never exceeds unreservedRate"
    if method == Method::Conservative as u64 {
        ranges[8] = (0, unreserved);
    }
    // "allowed rates at most unreservedRate"
    ranges[9] = (0, unreserved);
    ranges[10] = (0, unreserved);
    // "own and received rates at most 65,534"
    ranges[11] = (0, 65_534);
    ranges[18] = (0, 65_534);
    // "Yes or no: 1 or 0."
    ranges[12] = (0, 1);
    ranges[14] = (0, 1);
    // "0 to round trip − 1"; a round trip of 0 is out of range itself.
    ranges[13] = (0, round_trip.saturating_sub(1));
    // "a received ttl 193 to 255", from no farther than the most hops.
    ranges[15] = (256 - most_hops(stations), 255);
    // An address has its high 16 and its low 32 bits.
    ranges[16] = (0, 65_535);
    ranges[17] = (0, 0xffff_ffff);
    ranges
}

/// Where each of them stands.
pub fn place(at: usize) -> Range<usize> {
    let credit = CREDITS + 4 * at;
    match at.checked_sub(5) {
        None => credit..credit + 4,
        Some(number) => layout::fairness_place(number),
    }
}

pub fn bounds(bytes: &[u8]) -> [Bound; BOUNDS] {
    let ranges = fairness_ranges(bytes);
    std::array::from_fn(|at| {
        let (name, (least, most)) = match at {
            // "credits are 0 to hiLimit"
            0..=4 => (reading::NAMES[at], (0, setting(bytes, 5 + 3 * at))),
            _ => (layout::fairness_name(at - 5), ranges[at - 5]),
        };
        Bound {
            name,
            place: place(at),
            least,
            most,
        }
    })
}

const FRAME_FAULTS: [&str; 6] = [
    "size",
    "hops below",
    "hops above",
    "class",
    "mark",
    "high bits",
];

/// "frame size 16 to mtu; hops 1 to 63; class A, B or C; only B and C may be marked
/// fairness eligible." And "23 to 31 | 0". The settings are those of these bytes.
fn frame_faults(slot: Slot, bytes: &[u8]) -> [bool; 6] {
    let [mtu, stations] = [3, 30].map(|at| setting(bytes, at));
    [
        !(16..=mtu).contains(&slot.size),
        slot.hops < 1,
        slot.hops > most_hops(stations),
        slot.class > 2,
        slot.class == 0 && slot.mark != 0,
        slot.rest != 0,
    ]
}

const QUEUE_FAULTS: [&str; 5] = ["empty slot", "bytes held", "capacity", "head", "count"];

/// What is wrong in a queue, by name, each name once.
fn queue_faults(bytes: &[u8], at: usize, capacity: u64) -> Vec<&'static str> {
    let (head, count) = (bytes[at + HEAD] as usize, bytes[at + COUNT] as usize);
    // "0 to 127"; "0 to 128". Without them no slot is known to hold a frame.
    if head >= SLOTS || count > SLOTS {
        let wrong = [(head >= SLOTS, "head"), (count > SLOTS, "count")];
        return wrong
            .iter()
            .filter(|wrong| wrong.0)
            .map(|wrong| wrong.1)
            .collect();
    }
    let slot = |behind: usize| word(bytes, slot_at(at, head + behind));
    let (mut sum, mut frames_wrong) = (0, [false; 6]);
    for behind in 0..count {
        let slot = Slot::of_word(slot(behind));
        sum += slot.size;
        let wrong = frame_faults(slot, bytes);
        frames_wrong = std::array::from_fn(|at| frames_wrong[at] || wrong[at]);
    }
    // "A slot that holds no frame is 0."
    let empty_wrong = (count..SLOTS).any(|behind| slot(behind) != 0);
    // "bytes held (the sizes' sum, at most the capacity)"
    let held_wrong = word(bytes, at + HELD) != sum;
    let wrong = [empty_wrong, held_wrong, sum > capacity];
    let frames = FRAME_FAULTS.iter().zip(frames_wrong);
    let rest = QUEUE_FAULTS.iter().zip(wrong);
    frames
        .chain(rest)
        .filter(|(_, wrong)| *wrong)
        .map(|(name, _)| *name)
        .collect()
}

/// What is out of range in these 1,806 bytes, by name.
pub fn faults(bytes: &[u8]) -> Vec<String> {
    let mut faults = settings::faults(&std::array::from_fn(|at| setting(bytes, at)));
    faults.extend(bounds(bytes).iter().filter_map(|bound| bound.fault(bytes)));
    for (queue, at) in QUEUES.into_iter().enumerate() {
        let wrong = queue_faults(bytes, at, setting(bytes, 19 + queue));
        let name = QUEUE_NAMES[queue];
        faults.extend(wrong.iter().map(|fault| format!("{name} {fault}")));
    }
    let stage = word(bytes, STAGE);
    if stage != 0 {
        let wrong = frame_faults(Slot::of_word(stage), bytes);
        let named = FRAME_FAULTS.iter().zip(wrong).filter(|(_, wrong)| *wrong);
        faults.extend(named.map(|(name, _)| format!("stage {name}")));
    }
    faults
}

/// Every name that `faults` may give.
pub fn every_fault() -> Vec<String> {
    let mut names = settings::every_fault();
    let bounds = bounds(&[0; STATION_LENGTH]);
    names.extend(bounds.iter().flat_map(Bound::faults));
    for queue in QUEUE_NAMES {
        let both = FRAME_FAULTS.iter().chain(&QUEUE_FAULTS);
        names.extend(both.map(|fault| format!("{queue} {fault}")));
    }
    names.extend(FRAME_FAULTS.iter().map(|fault| format!("stage {fault}")));
    names
}

/// Whether 1,806 bytes hold a station in range.
pub fn in_range(bytes: &[u8]) -> bool {
    faults(bytes).is_empty()
}

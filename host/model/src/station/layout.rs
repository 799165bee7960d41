//! The bytes of a lent station.
//!
//! The layout is the library's own; this follows the page that describes it. "Every
//! number has its least byte first. No byte is unused, and none is left unread." Bytes
//! may hold codes that no station of the model has, so `range` decides on the bytes
//! themselves whether they hold a station in range, and only those are read.

use super::aging::Rates;
use super::fairness::Received;
use super::frames::{Class, Frame};
use super::queue::{Queue, SLOTS};
use super::{range, reading, settings, Station};
use crate::refusal::Refusal;
use std::cmp::Ordering;
use std::ops::Range;

pub const STATION_LENGTH: usize = 1_806;

/// "0 | 20 | the credits of M, A, B, C, D, 4 bytes each"
pub const CREDITS: usize = 0;
/// "20 | 518 | control queue"; "538 | 518 | primary queue"; "1056 | 518 | secondary queue"
pub const QUEUES: [usize; 3] = [20, 538, 1_056];
/// "1574 | 4 | the stage's word: a slot, 0 where the stage is empty"
pub const STAGE: usize = 1_574;
/// "1578 | 92 | the fairness state: four parts and a count"
pub const FAIRNESS: usize = 1_578;
/// "1670 | 136 | the settings: the 34 words that a host gives to `rpr_start`"
pub const SETTINGS: usize = 1_670;

/// Within a queue: "512 | 4 | bytes held: the sum of the sizes"
pub const HELD: usize = 512;
/// "516 | 1 | head: the slot of the first frame, 0 to 127"
pub const HEAD: usize = 516;
/// "517 | 1 | count: how many frames, 0 to 128"
pub const COUNT: usize = 517;

pub const QUEUE_NAMES: [&str; 3] = ["control", "primary", "secondary"];
/// "They are words 13 to 30 of a reading, in the same order; the count between them stands in no
/// reading. Of a smoothed rate the reading has the rate shown".
pub const FAIRNESS_IN_READING: usize = 13;
pub const FAIRNESS_NUMBERS: usize = 19;
/// Which of these numbers are the stored ones.
pub const STORED: Range<usize> = 4..8;
/// Which of them is the intervals since the last change.
const SINCE_NUMBER: usize = 13;
/// "48 | 4 | localFairRate"
pub const LOCAL_FAIR_RATE: usize = FAIRNESS + 48;
/// "52 | 4 | allowedRate"; "56 | 4 | allowedRateCongested"
pub const ALLOWED: [usize; 2] = [FAIRNESS + 52, FAIRNESS + 56];
/// "68 | 4 | the intervals since localFairRate last changed, which the conservative method
/// counts"
pub const SINCE: usize = FAIRNESS + 68;
/// "72 | 4 | downstream congested: 1 or 0"
pub const DOWNSTREAM: usize = FAIRNESS + 72;
/// "76 | 4 | received ttl"
pub const RECEIVED_TTL: usize = FAIRNESS + 76;

/// Where a number of the fairness state stands.
pub fn fairness_place(number: usize) -> Range<usize> {
    let (at, length) = match number {
        // "0, 4, 8, 12 | 4 each | the counters"
        0..=3 => (4 * number, 4),
        // "16, 24, 32, 40 | 8 each | the four smoothed rates, in the same order, each as its
        // stored number"
        4..=7 => (16 + 8 * (number - 4), 8),
        // "48 | 4 | localFairRate" to "88 | 4 | received rate"
        _ => (48 + 4 * (number - 8), 4),
    };
    FAIRNESS + at..FAIRNESS + at + length
}

/// The name of a number of the fairness state, which is a reading's where that has it.
pub fn fairness_name(number: usize) -> &'static str {
    match number.cmp(&SINCE_NUMBER) {
        Ordering::Less => reading::NAMES[FAIRNESS_IN_READING + number],
        Ordering::Equal => "since",
        Ordering::Greater => reading::NAMES[FAIRNESS_IN_READING + number - 1],
    }
}

/// The number that all these bytes are.
pub fn number(bytes: &[u8]) -> u64 {
    let from_the_highest = bytes.iter().rev();
    from_the_highest.fold(0, |sum, byte| sum << 8 | u64::from(*byte))
}

/// What these bytes hold of the number.
pub fn put_number(bytes: &mut [u8], number: u64) {
    bytes.copy_from_slice(&number.to_le_bytes()[..bytes.len()]);
}

/// The word of 4 bytes that stands there.
pub fn word(bytes: &[u8], at: usize) -> u64 {
    number(&bytes[at..at + 4])
}

pub fn put_word(bytes: &mut [u8], at: usize, word: u64) {
    put_number(&mut bytes[at..at + 4], word);
}

/// The word of the settings that stands there.
pub fn setting(bytes: &[u8], at: usize) -> u64 {
    word(bytes, SETTINGS + 4 * at)
}

/// Where a queue's slot stands. Slot 0 follows slot 127.
pub fn slot_at(queue: usize, slot: usize) -> usize {
    queue + 4 * (slot % SLOTS)
}

/// The fields of a slot's word, in range or not.
#[derive(Clone, Copy, Debug, PartialEq, Eq)]
pub struct Slot {
    /// "0 to 13 | size"
    pub size: u64,
    /// "14 to 19 | hops"
    pub hops: u64,
    /// "20 and 21 | class: A 0, B 1, C 2"
    pub class: u64,
    /// "22 | the mark: 1 where fairness eligible"
    pub mark: u64,
    /// "23 to 31 | 0"
    pub rest: u64,
}

impl Slot {
    pub fn of_word(word: u64) -> Slot {
        Slot {
            size: word & 0x3fff,
            hops: word >> 14 & 0x3f,
            class: word >> 20 & 3,
            mark: word >> 22 & 1,
            rest: word >> 23,
        }
    }

    pub fn word(self) -> u64 {
        self.size | self.hops << 14 | self.class << 20 | self.mark << 22 | self.rest << 23
    }

    pub fn of_frame(frame: Frame) -> Slot {
        Slot {
            size: frame.size,
            hops: frame.hops,
            class: frame.class.code(),
            mark: u64::from(frame.eligible),
            rest: 0,
        }
    }

    /// The frame of a slot in range.
    fn frame(self) -> Result<Frame, Refusal> {
        Ok(Frame {
            class: Class::from_code(self.class)?,
            size: self.size,
            hops: self.hops,
            eligible: self.mark == 1,
        })
    }
}

fn write_queue(bytes: &mut [u8], queue: &Queue) {
    for (at, frame) in queue.slots().into_iter().enumerate() {
        if let Some(frame) = frame {
            put_word(bytes, 4 * at, Slot::of_frame(frame).word());
        }
    }
    put_word(bytes, HELD, queue.bytes());
    bytes[HEAD] = queue.first_slot() as u8;
    bytes[COUNT] = queue.frames() as u8;
}

/// The reading's words, with the stored numbers for the rates shown, and what it hasn't.
fn fairness_numbers(station: &Station) -> Vec<u64> {
    let mut numbers = station.reading()[FAIRNESS_IN_READING..].to_vec();
    numbers[STORED].copy_from_slice(&station.stored.list());
    numbers.insert(SINCE_NUMBER, station.since);
    numbers
}

/// The bytes of a station.
pub fn write(station: &Station) -> Vec<u8> {
    let mut bytes = vec![0; STATION_LENGTH];
    let shapers = [station.m, station.a, station.b, station.c, station.d];
    for (at, shaper) in shapers.iter().enumerate() {
        put_word(&mut bytes, CREDITS + 4 * at, shaper.credit);
    }
    let queues = [&station.control, &station.primary, &station.secondary];
    for (at, queue) in QUEUES.into_iter().zip(queues) {
        write_queue(&mut bytes[at..], queue);
    }
    let stage = station
        .stage
        .map_or(0, |frame| Slot::of_frame(frame).word());
    put_word(&mut bytes, STAGE, stage);
    for (at, number) in fairness_numbers(station).into_iter().enumerate() {
        put_number(&mut bytes[fairness_place(at)], number);
    }
    for (at, word) in station.settings.words().into_iter().enumerate() {
        put_word(&mut bytes, SETTINGS + 4 * at, word);
    }
    bytes
}

/// "The frames stand from the head on, one slot behind the other".
fn read_queue(bytes: &[u8], at: usize, capacity: u64) -> Result<Queue, Refusal> {
    let (head, count) = (bytes[at + HEAD] as usize, bytes[at + COUNT] as usize);
    let slot = |behind: usize| Slot::of_word(word(bytes, slot_at(at, head + behind)));
    let frames: Result<_, _> = (0..count).map(|behind| slot(behind).frame()).collect();
    Ok(Queue::of_frames(capacity, head, frames?))
}

fn read_fairness(station: &mut Station, bytes: &[u8]) {
    let numbers: [u64; FAIRNESS_NUMBERS] =
        std::array::from_fn(|at| number(&bytes[fairness_place(at)]));
    station.counters = Rates::each([numbers[0], numbers[1], numbers[2], numbers[3]]);
    station.stored = Rates::each([numbers[4], numbers[5], numbers[6], numbers[7]]);
    station.local_fair_rate = numbers[8];
    station.allowed_rate = numbers[9];
    station.allowed_rate_congested = numbers[10];
    station.own_rate = numbers[11];
    station.locally_congested = numbers[12] == 1;
    station.since = numbers[SINCE_NUMBER];
    station.downstream_congested = numbers[14] == 1;
    let [_, _, address @ ..] = (numbers[16] << 32 | numbers[17]).to_be_bytes();
    station.received = Received {
        ttl: numbers[15],
        address,
        rate: numbers[18],
    };
}

/// The station that these bytes hold. "another length is 2"; a station out of range is 1.
pub fn read(bytes: &[u8]) -> Result<Station, Refusal> {
    if bytes.len() != STATION_LENGTH {
        return Err(Refusal::Bytes);
    }
    if !range::in_range(bytes) {
        return Err(Refusal::Setting);
    }
    let settings = settings::read(&bytes[SETTINGS..])?;
    let mut station = Station::new(settings);
    let credit = |at: usize| word(bytes, CREDITS + 4 * at);
    station.m.credit = credit(0);
    station.a.credit = credit(1);
    station.b.credit = credit(2);
    station.c.credit = credit(3);
    station.d.credit = credit(4);
    station.control = read_queue(bytes, QUEUES[0], settings.control_queue)?;
    station.primary = read_queue(bytes, QUEUES[1], settings.primary_queue)?;
    station.secondary = read_queue(bytes, QUEUES[2], settings.secondary_queue)?;
    station.stage = match word(bytes, STAGE) {
        0 => None,
        word => Some(Slot::of_word(word).frame()?),
    };
    read_fairness(&mut station, bytes);
    Ok(station)
}

/// A named piece of the layout.
#[derive(Clone, Debug, PartialEq, Eq)]
pub struct Part {
    pub name: String,
    pub at: usize,
    pub length: usize,
}

/// Every byte of a station, by name; the 128 slots of a queue are one part.
pub fn parts() -> Vec<Part> {
    let mut parts = Vec::new();
    let mut at = 0;
    let mut push = |name: String, length: usize| {
        parts.push(Part { name, at, length });
        at += length;
    };
    for name in &reading::NAMES[..5] {
        push(name.to_string(), 4);
    }
    for name in QUEUE_NAMES {
        push(format!("{name} slots"), HELD);
        push(format!("{name} bytes"), HEAD - HELD);
        push(format!("{name} head"), 1);
        push(format!("{name} count"), 1);
    }
    push("stage".to_string(), 4);
    for number in 0..FAIRNESS_NUMBERS {
        push(
            fairness_name(number).to_string(),
            fairness_place(number).len(),
        );
    }
    for name in settings::NAMES {
        push(name.to_string(), 4);
    }
    parts
}

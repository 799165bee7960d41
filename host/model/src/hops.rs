//! What must have come up about hops and the ring: frames with the most hops and with one
//! more, what is told at the last hop, what 13 comes before and behind, and lent stations that
//! hold a hop too many and are in range otherwise.

use crate::line::byte;
use crate::station::fairness::FRAME_LENGTH;
use crate::station::layout::{
    setting, slot_at, word, Slot, COUNT, DOWNSTREAM, HEAD, QUEUES, QUEUE_NAMES, RECEIVED_TTL, STAGE,
};
use crate::station::queue::SLOTS;
use crate::station::settings::MOST_STATIONS;
use crate::station::Station;
use crate::station_call::Call;
use std::collections::BTreeSet;
use std::fmt;

const RINGS: [&str; 3] = ["a ring of 2", "a ring of 63", "another ring"];

fn ring(stations: u64) -> &'static str {
    match stations {
        2 => RINGS[0],
        63 => RINGS[1],
        _ => RINGS[2],
    }
}

const FRAMES: [&str; 4] = [
    "client frame",
    "transit frame",
    "fairness frame",
    "FULL_RATE frame",
];
const TAKEN: &str = "taken with the most hops";
const REFUSED: &str = "refused with one hop more";
const FULL_TOLD: &str = "FULL_RATE told at the last hop";
/// Not on a ring of 2: its first hop is its last.
const PASSED_ON: &str = "received rate told one hop before the last";

/// Each on some ring.
const TOLD: [&str; 2] = [
    "FULL_RATE told at the last hop, congested both ways",
    "own rate told at the last hop",
];
const BEFORE: [&str; 3] = [
    "3 before 13: client frame",
    "3 before 13: transit frame",
    "2 before 13: fairness frame",
];
const BEHIND: [&str; 6] = [
    "13 alone",
    "13 before 11",
    "13 before 4",
    "13 before 5",
    "13 before 6",
    "13 before 7",
];

fn on(ring: &str, sight: &str) -> String {
    format!("{sight}, on {ring}")
}

/// What the call would have been answered if the ring had no end.
fn otherwise(station: &Station, call: &Call) -> u8 {
    let mut endless = station.clone();
    endless.settings.stations = MOST_STATIONS + 1;
    let (answer, _) = call.apply(&mut endless, &call.other_slice(0));
    byte(answer, 0)
}

/// The calls refused with 13: how many there were, and what came up.
#[derive(Default)]
pub struct Hops {
    refused: u64,
    seen: BTreeSet<String>,
}

impl Hops {
    /// Any call with its answer, on a station in range; a refused one left it as it was.
    pub fn look(&mut self, station: &Station, call: &Call, answer: u64) {
        let refusal = byte(answer, 0);
        match call {
            Call::Client([_, _, hops]) => self.look_at(station, FRAMES[0], *hops, refusal),
            Call::Transit([_, _, hops, _]) => self.look_at(station, FRAMES[1], *hops, refusal),
            Call::Hear(frame) => self.look_at_heard(station, frame, refusal),
            Call::Tell(_) if refusal == 0 => self.look_at_told(station),
            _ => {}
        }
        if refusal == 13 {
            self.refused += 1;
            self.seen.insert(match otherwise(station, call) {
                0 => BEHIND[0].to_string(),
                later => format!("13 before {later}"),
            });
        }
    }

    fn look_at(&mut self, station: &Station, frame: &str, hops: u64, refusal: u8) {
        let stations = station.settings.stations;
        let ring = ring(stations);
        let sight = match refusal {
            0 if hops == stations - 1 => on(ring, &format!("{frame} {TAKEN}")),
            13 if hops == stations => on(ring, &format!("{frame} {REFUSED}")),
            2 | 3 if (stations..=63).contains(&hops) => format!("{refusal} before 13: {frame}"),
            _ => return,
        };
        self.seen.insert(sight);
    }

    fn look_at_heard(&mut self, station: &Station, frame: &[u8], refusal: u8) {
        if frame.len() != FRAME_LENGTH {
            return;
        }
        let full = frame[10..] == [0xff, 0xff];
        let hops = 256 - u64::from(frame[0]);
        self.look_at(station, FRAMES[2 + usize::from(full)], hops, refusal);
    }

    /// A received rate is told on, or isn't, where the own rate doesn't come first.
    fn look_at_told(&mut self, station: &Station) {
        if !station.downstream_congested {
            return;
        }
        let local = station.locally_congested;
        let own_first = local && station.own_rate <= station.received.rate;
        let stations = station.settings.stations;
        match (stations - station.received.hops(), own_first) {
            (1, true) => self.seen.insert(TOLD[1].to_string()),
            (1, false) if local => self.seen.insert(TOLD[0].to_string()),
            (1, false) => self.seen.insert(on(ring(stations), FULL_TOLD)),
            (2, false) => self.seen.insert(on(ring(stations), PASSED_ON)),
            _ => false,
        };
    }

    pub fn missing(&self) -> Vec<String> {
        let mut all = Vec::new();
        for ring in RINGS {
            for frame in FRAMES {
                let edges = [TAKEN, REFUSED].map(|edge| format!("{frame} {edge}"));
                all.extend(edges.map(|edge| on(ring, &edge)));
            }
            all.push(on(ring, FULL_TOLD));
            if ring != RINGS[0] {
                all.push(on(ring, PASSED_ON));
            }
        }
        let once = [&TOLD[..], &BEFORE, &BEHIND].concat();
        all.extend(once.iter().map(|sight| sight.to_string()));
        all.retain(|sight| !self.seen.contains(sight));
        all
    }
}

impl fmt::Display for Hops {
    fn fmt(&self, out: &mut fmt::Formatter<'_>) -> fmt::Result {
        write!(out, "{} calls with hops beyond the ring", self.refused)
    }
}

/// Numbers of stations that are none.
const NO_RINGS: [u64; 4] = [0, 1, 64, 0xffff_ffff];

const PLACES: [&str; 5] = [
    "first",
    "in the middle",
    "last",
    "last of 128",
    "in slot 127",
];

const HEARD: [&str; 2] = [
    "received ttl one too little while not congested",
    "received ttl one too little while congested",
];

const STAGED: &str = "stage frame with one hop too many";

fn no_ring(stations: u64) -> String {
    format!("{stations} stations")
}

fn held(holder: &str, place: &str) -> String {
    format!("{holder} frame with one hop too many, {place}")
}

/// Where the only frame with too many hops stands, if it has one hop too many.
fn places(bytes: &[u8], at: usize) -> Vec<&'static str> {
    let (head, count) = (bytes[at + HEAD] as usize, bytes[at + COUNT] as usize);
    let stations = setting(bytes, 30);
    let hops = |behind: usize| Slot::of_word(word(bytes, slot_at(at, head + behind))).hops;
    let far: Vec<usize> = (0..count)
        .filter(|behind| hops(*behind) >= stations)
        .collect();
    let [behind] = far[..] else {
        return Vec::new();
    };
    let [first, last] = [behind == 0, behind + 1 == count];
    let stands = [
        first && count > 2,
        !first && !last,
        last && count > 2,
        last && count == SLOTS,
        (head + behind) % SLOTS == SLOTS - 1,
    ];
    let there = PLACES.iter().zip(stands);
    let there = there.filter(|(_, stands)| *stands && hops(behind) == stations);
    there.map(|(place, _)| *place).collect()
}

/// Which rule about the ring this fault breaks, the only one in these bytes, and where.
pub fn alone(bytes: &[u8], fault: &str) -> Vec<String> {
    let stations = setting(bytes, 30);
    let Some(holder) = fault.strip_suffix(" hops above") else {
        let little = word(bytes, RECEIVED_TTL) + stations == 256;
        return match fault {
            "stations below" | "stations above" => vec![no_ring(stations)],
            "receivedTtl below" if little => {
                vec![HEARD[word(bytes, DOWNSTREAM) as usize].to_string()]
            }
            _ => Vec::new(),
        };
    };
    match QUEUE_NAMES.iter().position(|name| *name == holder) {
        Some(queue) => {
            let places = places(bytes, QUEUES[queue]);
            places.iter().map(|place| held(holder, place)).collect()
        }
        None if Slot::of_word(word(bytes, STAGE)).hops == stations => vec![STAGED.to_string()],
        None => Vec::new(),
    }
}

/// All that must be broken alone.
pub fn every_alone() -> Vec<String> {
    let mut all: Vec<String> = NO_RINGS.map(no_ring).to_vec();
    for queue in QUEUE_NAMES {
        all.extend(PLACES.map(|place| held(queue, place)));
    }
    all.push(STAGED.to_string());
    all.extend(HEARD.map(str::to_string));
    all
}

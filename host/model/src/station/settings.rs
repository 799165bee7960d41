//! The settings of a station and their ranges.

use super::MOST_RATE;
use crate::refusal::Refusal;

/// "Settings: 30 words of 4 bytes"; "Requests append words": "30 (A5) | number of stations",
/// "31 (A7) | method", "32, 33 (A7) | round trip in intervals; rampDn".
pub const WORDS: usize = 34;
pub const SETTINGS_LENGTH: usize = 4 * WORDS;

pub const NAMES: [&str; WORDS] = [
    "addressHigh",
    "addressLow",
    "ringlet",
    "mtu",
    "loLimitM",
    "hiLimitM",
    "amountM",
    "loLimitA",
    "hiLimitA",
    "amountA",
    "loLimitB",
    "hiLimitB",
    "amountB",
    "loLimitC",
    "hiLimitC",
    "amountC",
    "loLimitD",
    "hiLimitD",
    "amountD",
    "controlQueue",
    "primaryQueue",
    "secondaryQueue",
    "lowThreshold",
    "weight",
    "rateUnit",
    "ticksPerInterval",
    "unreservedRate",
    "ageCoef",
    "lpCoef",
    "rampUp",
    "stations",
    "method",
    "roundTrip",
    "rampDn",
];

#[derive(Clone, Copy, Debug, PartialEq, Eq)]
pub struct Limits {
    pub lo_limit: u64,
    pub hi_limit: u64,
    pub amount: u64,
}

#[derive(Clone, Copy, Debug, PartialEq, Eq)]
pub struct Settings {
    pub address: Address,
    pub ringlet: u64,
    pub mtu: u64,
    pub m: Limits,
    pub a: Limits,
    pub b: Limits,
    pub c: Limits,
    pub d: Limits,
    pub control_queue: u64,
    pub primary_queue: u64,
    pub secondary_queue: u64,
    pub low_threshold: u64,
    pub weight: u64,
    pub rate_unit: u64,
    pub ticks_per_interval: u64,
    pub unreserved_rate: u64,
    pub age_coef: u64,
    pub lp_coef: u64,
    pub ramp_up: u64,
    pub stations: u64,
    pub method: Method,
    /// "a fairness round trip", in intervals
    pub round_trip: u64,
    pub ramp_dn: u64,
}

/// How an interval decides on local congestion and localFairRate.
#[derive(Clone, Copy, Debug, PartialEq, Eq)]
pub enum Method {
    /// "0 aggressive"
    Aggressive,
    /// "1 conservative"
    Conservative,
}

/// Six bytes, the first the highest.
pub type Address = [u8; 6];

/// The least and the most of each word; other words set some of them.
fn ranges(words: &[u64; WORDS]) -> [(u64, u64); WORDS] {
    let (mtu, secondary) = (words[3], words[21]);
    let mut ranges = [(0, 0xffff_ffff); WORDS];
    // "own address, high 16 bits (more is 1)"
    ranges[0] = (0, 65_535);
    // "Own ringlet 0 or 1."
    ranges[2] = (0, 1);
    // "mtu 64 to 9,216"
    ranges[3] = (64, 9_216);
    // "Each shaper: loLimit mtu to 65,536, hiLimit loLimit+1 to 1,048,576, amount per
    // tick 0 to 65,535."
    for at in [4, 7, 10, 13, 16] {
        ranges[at] = (mtu, 65_536);
        ranges[at + 1] = (words[at] + 1, 1_048_576);
        ranges[at + 2] = (0, 65_535);
    }
    // "Primary and control queue mtu to 1,048,576 bytes, secondary 2 mtu to 1,048,576,
    // low threshold 0 to its capacity."
    ranges[19] = (mtu, 1_048_576);
    ranges[20] = (mtu, 1_048_576);
    ranges[21] = (2 * mtu, 1_048_576);
    ranges[22] = (0, secondary);
    // "Weight 1 to 255, rate unit 1 to 1,024, ticks per interval 1 to 10,000,
    // unreservedRate 1 to 2,147,483,647."
    ranges[23] = (1, 255);
    ranges[24] = (1, 1_024);
    ranges[25] = (1, 10_000);
    ranges[26] = (1, 2_147_483_647);
    // "A station's settings gain the number of stations, 2 to 63."
    ranges[30] = (LEAST_STATIONS, MOST_STATIONS);
    // "0 aggressive, 1 conservative"; "1 to 1,000 [...] under both methods"
    ranges[31] = (0, 1);
    ranges[32] = (1, MOST_ROUND_TRIP);
    ranges
}

/// "the number of stations, 2 to 63"
pub const LEAST_STATIONS: u64 = 2;
pub const MOST_STATIONS: u64 = 63;

/// "a fairness round trip (a setting, 1 to 1,000 intervals)"
pub const MOST_ROUND_TRIP: u64 = 1_000;

/// "lpCoef and rampUp 16, 32, 64, 128, 256 or 512"; "rampDn has rampUp's values."
pub const LP_COEFS: [u64; 6] = [16, 32, 64, 128, 256, 512];

/// "ageCoef 1, 2, 4, 8 or 16 (default 4); lpCoef and rampUp 16, 32, 64, 128, 256 or 512
/// (default 64)."
const COEFFICIENTS: [(usize, &[u64]); 4] = [
    (27, &[1, 2, 4, 8, 16]),
    (28, &LP_COEFS),
    (29, &LP_COEFS),
    (33, &LP_COEFS),
];

/// The words that are outside their range, by name, and on which side.
pub fn faults(words: &[u64; WORDS]) -> Vec<String> {
    let mut faults = Vec::new();
    for (at, (least, most)) in ranges(words).into_iter().enumerate() {
        let name = NAMES[at];
        if words[at] < least {
            faults.push(format!("{name} below"));
        }
        if words[at] > most {
            faults.push(format!("{name} above"));
        }
    }
    let wrong = COEFFICIENTS
        .iter()
        .filter(|(at, codes)| !codes.contains(&words[*at]));
    faults.extend(wrong.map(|(at, _)| NAMES[*at].to_string()));
    faults
}

/// Every name that `faults` may give.
pub fn every_fault() -> Vec<String> {
    let mut names = Vec::new();
    // With 1 in each word the ends that another word sets are above 0 too.
    let ranges = ranges(&[1; WORDS]);
    for (name, (least, most)) in NAMES.iter().zip(ranges) {
        if least > 0 {
            names.push(format!("{name} below"));
        }
        if most < 0xffff_ffff {
            names.push(format!("{name} above"));
        }
    }
    names.extend(COEFFICIENTS.map(|(at, _)| NAMES[at].to_string()));
    names
}

/// The words as HOST lays them out. "another length is 2"; "a setting [...] is outside
/// its range" is 1.
pub fn read(bytes: &[u8]) -> Result<Settings, Refusal> {
    if bytes.len() != SETTINGS_LENGTH {
        return Err(Refusal::Bytes);
    }
    let mut words = [0; WORDS];
    for (at, word) in bytes.chunks(4).enumerate() {
        words[at] = u64::from(u32::from_le_bytes([word[0], word[1], word[2], word[3]]));
    }
    match faults(&words).is_empty() {
        true => Ok(from_words(&words)),
        false => Err(Refusal::Setting),
    }
}

fn from_words(words: &[u64; WORDS]) -> Settings {
    let limits = |at: usize| Limits {
        lo_limit: words[at],
        hi_limit: words[at + 1],
        amount: words[at + 2],
    };
    let [_, _, address @ ..] = (words[0] << 32 | words[1]).to_be_bytes();
    Settings {
        address,
        ringlet: words[2],
        mtu: words[3],
        m: limits(4),
        a: limits(7),
        b: limits(10),
        c: limits(13),
        d: limits(16),
        control_queue: words[19],
        primary_queue: words[20],
        secondary_queue: words[21],
        low_threshold: words[22],
        weight: words[23],
        rate_unit: words[24],
        ticks_per_interval: words[25],
        unreserved_rate: words[26],
        age_coef: words[27],
        lp_coef: words[28],
        ramp_up: words[29],
        stations: words[30],
        method: match words[31] {
            0 => Method::Aggressive,
            _ => Method::Conservative,
        },
        round_trip: words[32],
        ramp_dn: words[33],
    }
}

/// The bytes that these words make.
pub fn to_bytes(words: &[u32]) -> Vec<u8> {
    words.iter().flat_map(|word| word.to_le_bytes()).collect()
}

impl Settings {
    /// The largest localFairRate: "other rates at most 2,147,483,647"; "the conservative
    /// localFairRate never exceeds unreservedRate".
    pub fn most_fair_rate(&self) -> u64 {
        match self.method {
            Method::Aggressive => MOST_RATE,
            Method::Conservative => self.unreserved_rate,
        }
    }

    /// The words that a host gives.
    pub fn words(&self) -> [u64; WORDS] {
        let address = self.address.map(u64::from);
        let number = address.iter().fold(0, |sum, byte| sum << 8 | byte);
        let mut words = [0; WORDS];
        words[..4].copy_from_slice(&[number >> 32, number & 0xffff_ffff, self.ringlet, self.mtu]);
        let shapers = [self.m, self.a, self.b, self.c, self.d];
        for (at, limits) in shapers.iter().enumerate() {
            words[4 + 3 * at] = limits.lo_limit;
            words[5 + 3 * at] = limits.hi_limit;
            words[6 + 3 * at] = limits.amount;
        }
        words[19..].copy_from_slice(&[
            self.control_queue,
            self.primary_queue,
            self.secondary_queue,
            self.low_threshold,
            self.weight,
            self.rate_unit,
            self.ticks_per_interval,
            self.unreserved_rate,
            self.age_coef,
            self.lp_coef,
            self.ramp_up,
            self.stations,
            self.method as u64,
            self.round_trip,
            self.ramp_dn,
        ]);
        words
    }
}

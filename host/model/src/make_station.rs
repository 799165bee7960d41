//! Stations to try: plain settings, random settings and settings just out of range.

use crate::random::Random;
use crate::station::settings::{
    self, LEAST_STATIONS, LP_COEFS, MOST_ROUND_TRIP, MOST_STATIONS, WORDS,
};
use crate::station::Station;

/// Small limits and queues: mtu 64, every shaper 100, 300, 50; queues of 256 bytes, low
/// threshold 128; weight 2, unit 4, 10 ticks, unreservedRate 10,000; 4, 64, 64; a ring of 63;
/// aggressive, a round trip of 3, rampDn 64.
pub const PLAIN: [u32; WORDS] = [
    0x0200,
    0x5e00_0001,
    0,
    64,
    100,
    300,
    50,
    100,
    300,
    50,
    100,
    300,
    50,
    100,
    300,
    50,
    100,
    300,
    50,
    256,
    256,
    256,
    128,
    2,
    4,
    10,
    10_000,
    4,
    64,
    64,
    63,
    0,
    3,
    64,
];

/// The plain settings with some words replaced.
pub fn words(changes: &[(usize, u32)]) -> [u32; WORDS] {
    let mut words = PLAIN;
    for (at, word) in changes {
        words[*at] = *word;
    }
    words
}

/// A fresh station of these words, which are in range.
pub fn of(words: [u32; WORDS]) -> Station {
    let bytes = settings::to_bytes(&words);
    Station::new(settings::read(&bytes).expect("settings in range"))
}

/// A fresh station of the plain settings with some words replaced by others in range.
pub fn station(changes: &[(usize, u32)]) -> Station {
    of(words(changes))
}

fn extreme(random: &mut Random, least: u32, most: u32) -> u32 {
    random.often_extreme(i128::from(least), i128::from(most)) as u32
}

fn between(random: &mut Random, least: u32, most: u32) -> u32 {
    random.between(i128::from(least), i128::from(most)) as u32
}

/// Settings anywhere in range, often at an end.
fn wide(random: &mut Random) -> [u32; WORDS] {
    let mtu = extreme(random, 64, 9_216);
    let mut words = [0; WORDS];
    words[3] = mtu;
    for shaper in 0..5 {
        let lo = extreme(random, mtu, 65_536);
        words[4 + 3 * shaper] = lo;
        words[5 + 3 * shaper] = extreme(random, lo + 1, 1_048_576);
        words[6 + 3 * shaper] = extreme(random, 0, 65_535);
    }
    words[19] = extreme(random, mtu, 1_048_576);
    words[20] = extreme(random, mtu, 1_048_576);
    words[21] = extreme(random, 2 * mtu, 1_048_576);
    words[22] = extreme(random, 0, words[21]);
    words[23] = extreme(random, 1, 255);
    words[24] = extreme(random, 1, 1_024);
    words[25] = extreme(random, 1, 10_000);
    words[26] = extreme(random, 1, 2_147_483_647);
    words
}

/// Settings with which frames come and go: limits of a few frames, rates to match.
fn lively(random: &mut Random) -> [u32; WORDS] {
    let mtu = between(random, 64, 300);
    let mut words = [0; WORDS];
    words[3] = mtu;
    for shaper in 0..5 {
        let lo = mtu + between(random, 0, 100);
        words[4 + 3 * shaper] = lo;
        words[5 + 3 * shaper] = lo + 1 + between(random, 0, 6 * mtu);
        words[6 + 3 * shaper] = between(random, 0, 2 * mtu);
    }
    words[19] = between(random, mtu, 6 * mtu);
    words[20] = between(random, mtu, 6 * mtu);
    words[21] = between(random, 2 * mtu, 12 * mtu);
    words[22] = between(random, 0, words[21] / 2);
    words[23] = between(random, 1, 4);
    words[24] = between(random, 1, 8);
    words[25] = between(random, 1, 20);
    words[26] = between(random, 1, 200_000);
    if random.one_in(2) {
        let large = 128 * mtu;
        words[19..=21].copy_from_slice(&[large, large, large]);
    }
    words
}

/// Valid settings.
pub fn settings(random: &mut Random) -> [u32; WORDS] {
    let mut words = match random.below(5) {
        0 => wide(random),
        _ => lively(random),
    };
    words[0] = between(random, 0, 65_535);
    words[1] = random.word() as u32;
    words[2] = random.below(2) as u32;
    words[27] = random.pick(&[1, 2, 4, 8, 16]);
    words[28] = random.pick(&LP_COEFS) as u32;
    words[29] = random.pick(&LP_COEFS) as u32;
    words[30] = stations(random);
    words[31] = random.below(2) as u32;
    words[32] = round_trip(random) as u32;
    words[33] = random.pick(&LP_COEFS) as u32;
    if random.one_in(4) {
        eager(random, &mut words);
    }
    if random.one_in(4) {
        near(random, &mut words);
    }
    words
}

/// A ring size: either end, a few stations, or any.
fn stations(random: &mut Random) -> u32 {
    let [least, most] = [LEAST_STATIONS, MOST_STATIONS].map(|end| end as u32);
    let few = between(random, least, 8);
    let any = between(random, least, most);
    random.pick(&[least, few, few, any, any, any, any, most])
}

/// A round trip: either end, a few intervals, or any.
pub fn round_trip(random: &mut Random) -> u64 {
    let any = random.between(1, i128::from(MOST_ROUND_TRIP)) as u64;
    let few = random.between(1, 8) as u64;
    random.pick(&[1, 2, 3, few, few, any, MOST_ROUND_TRIP])
}

/// Little is unreserved, soon congested, and counters last: the smoothed rate may come
/// to exceed what is unreserved.
fn eager(random: &mut Random, words: &mut [u32; WORDS]) {
    words[22] = words[22].min(40);
    words[25] = 1;
    words[26] = between(random, 50, 300);
    words[27] = random.pick(&[8, 16]);
    words[28] = 16;
}

/// Few intervals between changes, and not far to what is unreserved: congestion is left again.
fn near(random: &mut Random, words: &mut [u32; WORDS]) {
    words[25] = 1;
    words[26] = between(random, 1, 3 * words[29]);
    words[32] = between(random, 1, 4);
}

/// The ends of a word's range, each with the number just past it. Other words of the
/// settings set some of them.
pub fn ends(words: &[u32; WORDS], at: usize) -> Vec<[u32; 2]> {
    let (mtu, secondary, threshold) = (words[3], words[21], words[22]);
    let limits = [4, 7, 10, 13, 16, 19, 20].map(|at| words[at]);
    let most_mtu = limits.into_iter().fold(secondary / 2, u32::min);
    match at {
        0 => vec![[65_535, 65_536]],
        2 => vec![[1, 2], [0, 256]],
        3 => vec![[64, 63], [9_216, 9_217], up(most_mtu)],
        4..=18 => match (at - 4) % 3 {
            0 => vec![
                down(mtu),
                [65_536, 65_537],
                up(words[at + 1].wrapping_sub(1)),
            ],
            1 => vec![down(words[at - 1].wrapping_add(1)), [1_048_576, 1_048_577]],
            _ => vec![[65_535, 65_536]],
        },
        19 | 20 => vec![down(mtu), [1_048_576, 1_048_577]],
        21 => vec![
            down(mtu.wrapping_mul(2)),
            [1_048_576, 1_048_577],
            down(threshold),
        ],
        22 => vec![up(secondary)],
        23 => vec![[1, 0], [255, 256]],
        24 => vec![[1, 0], [1_024, 1_025]],
        25 => vec![[1, 0], [10_000, 10_001]],
        26 => vec![[1, 0], [2_147_483_647, 2_147_483_648]],
        27 => vec![[16, 32], [1, 0], [2, 3]],
        28 | 29 => vec![[16, 8], [512, 1_024], [64, 65]],
        30 => vec![[2, 1], [63, 64], [2, 0], [63, u32::MAX]],
        31 => vec![[1, 2], [0, 256], [1, u32::MAX]],
        32 => vec![[1, 0], [1_000, 1_001]],
        33 => vec![[16, 8], [512, 1_024], [16, 24], [64, 0]],
        _ => vec![[0, u32::MAX]],
    }
}

fn up(most: u32) -> [u32; 2] {
    [most, most.wrapping_add(1)]
}

fn down(least: u32) -> [u32; 2] {
    [least, least.wrapping_sub(1)]
}

/// A word of the settings moved to an end of its range, just past it, or anywhere.
pub fn settings_near(random: &mut Random) -> [u32; WORDS] {
    let mut words = settings(random);
    let at = random.below(WORDS);
    let ends = ends(&words, at);
    let near = random.pick(&ends);
    words[at] = match random.below(6) {
        0 => near[0],
        1 => random.word() as u32,
        _ => near[1],
    };
    words
}

//! Damage to a station's bytes: changes at the ends of every range and anywhere. What
//! comes out may be in range or not.

mod fit;
mod method;
mod queue;

use crate::make_station;
use crate::random::Random;
use crate::station::layout::{
    self, fairness_place, number, parts, put_number, put_word, setting, slot_at, word, Slot,
    ALLOWED, CREDITS, DOWNSTREAM, HELD, LOCAL_FAIR_RATE, QUEUES, RECEIVED_TTL, SETTINGS, SINCE,
    STAGE, STORED,
};
use crate::station::queue::SLOTS;
use crate::station::range::{self, bounds, most_hops, BOUNDS};
use crate::station::settings::{LP_COEFS, WORDS};
use std::ops::Range;

/// One change, and which of its kind.
#[derive(Clone, Copy, Debug, PartialEq, Eq)]
pub enum Step {
    /// A number of the state, at an end of its range, past it, or anywhere.
    Bound(usize, usize),
    /// A stored number, with the same rate shown.
    Rest(usize, usize),
    /// A word of the settings, at an end of its range or past it.
    Setting(usize, usize),
    /// The same, and the rest of the station made to fit it.
    Fitted(usize, usize),
    /// A number of the state or then of the settings, with a higher bit changed.
    Bit(usize, usize),
    /// A frame of a queue, or with 3 that of the stage.
    Frame(usize, usize),
    /// One of them, by where it stands, with one hop more than the ring has.
    Far(usize, usize),
    /// Downstream congested or not, and a received ttl.
    Ttl(usize, usize),
    /// A method, and what it adds, at an end of its range or past it.
    Method(usize, usize),
    /// Slots, bytes held, head, count and capacity of a queue.
    Queue(usize, usize),
}

const BOUND_STEPS: usize = 6;
const REST_STEPS: usize = 4;
const FRAME_STEPS: usize = 16;
const TTL_STEPS: usize = 5;

/// Bits that a number cut on its way in would lose, as far as it has them.
const HIGHER: [usize; 8] = [8, 16, 24, 31, 32, 40, 48, 63];

/// Every single change. A station in range of the plain settings tells how many ends a
/// word of the settings has.
pub fn every_step() -> Vec<Step> {
    let plain = layout::write(&make_station::station(&[]));
    let mut steps = Vec::new();
    let mut push = |step: fn(usize, usize) -> Step, at: usize, count: usize| {
        steps.extend((0..count).map(|which| step(at, which)));
    };
    for at in 0..BOUNDS {
        push(Step::Bound, at, BOUND_STEPS);
    }
    for at in STORED {
        push(Step::Rest, at, REST_STEPS);
    }
    for at in 0..WORDS {
        let ends = setting_ends(&plain, at).len();
        push(Step::Setting, at, 2 * ends);
        push(Step::Fitted, at, 2 * ends);
    }
    for at in 0..BOUNDS + WORDS {
        let bits = 8 * place(at).len();
        let higher = HIGHER.iter().filter(|bit| **bit < bits);
        push(Step::Bit, at, higher.count());
    }
    for holder in 0..=QUEUES.len() {
        push(Step::Frame, holder, FRAME_STEPS);
        let places = if holder == 3 { 1 } else { queue::PLACES };
        push(Step::Far, holder, places);
    }
    for congested in [0, 1] {
        push(Step::Ttl, congested, TTL_STEPS);
    }
    for method in [0, 1] {
        push(Step::Method, method, method::STEPS);
    }
    for queue in 0..QUEUES.len() {
        push(Step::Queue, queue, queue::STEPS);
    }
    steps
}

pub fn take(random: &mut Random, bytes: &mut [u8], step: Step) {
    match step {
        Step::Bound(at, which) => change_bound(random, bytes, at, which),
        Step::Setting(at, which) => change_setting(bytes, at, which),
        Step::Fitted(at, which) => {
            change_setting(bytes, at, which);
            fit::fit(bytes, at);
        }
        Step::Rest(at, which) => change_rest(random, bytes, at, which),
        Step::Bit(at, which) => {
            let held = &mut bytes[place(at)];
            put_number(held, number(held) ^ 1 << HIGHER[which]);
        }
        Step::Frame(3, which) => {
            let slot = staged(random, bytes);
            let changed = change_frame(random, slot, which, bytes);
            put_word(bytes, STAGE, changed.word());
        }
        Step::Frame(queue, which) => queue::change_held(random, bytes, QUEUES[queue], which),
        Step::Far(3, _) => {
            let slot = staged(random, bytes);
            put_word(bytes, STAGE, too_far(slot, bytes).word());
        }
        Step::Far(queue, place) => queue::far(random, bytes, queue, place),
        Step::Ttl(congested, which) => change_ttl(bytes, congested, which),
        Step::Method(method, which) => method::change(bytes, method, which),
        Step::Queue(queue, which) => queue::change(random, bytes, queue, which),
    }
}

/// Where a number of the state or then of the settings stands.
fn place(at: usize) -> Range<usize> {
    match at.checked_sub(BOUNDS) {
        None => range::place(at),
        Some(setting) => SETTINGS + 4 * setting..SETTINGS + 4 * setting + 4,
    }
}

/// Each end of the range, one below and one above, between them, anywhere.
fn change_bound(random: &mut Random, bytes: &mut [u8], at: usize, which: usize) {
    let bound = &bounds(bytes)[at];
    let any = random.word();
    let value = match which {
        0 => bound.least,
        1 => bound.least.wrapping_sub(1),
        2 => bound.most,
        3 => bound.most + 1,
        4 => random.between(i128::from(bound.least), i128::from(bound.most)) as u64,
        _ => any >> random.below(32),
    };
    bound.put(bytes, value);
}

/// The least ttl of the ring and one less, then the ends that every ring had before, and one
/// past the most.
fn change_ttl(bytes: &mut [u8], congested: usize, which: usize) {
    let least = 256 - most_hops(setting(bytes, 30));
    let ttl = [least, least - 1, 193, 192, 256][which];
    put_word(bytes, DOWNSTREAM, congested as u64);
    put_word(bytes, RECEIVED_TTL, ttl);
}

/// A multiple of lpCoef, one more, one less than the next, or anything between.
fn change_rest(random: &mut Random, bytes: &mut [u8], at: usize, which: usize) {
    let lp_coef = setting(bytes, 28).max(1);
    let rest = [0, 1, lp_coef - 1, random.word()][which] % lp_coef;
    let held = &mut bytes[fairness_place(at)];
    let whole = number(held) - number(held) % lp_coef;
    put_number(held, whole.saturating_add(rest));
}

fn change_setting(bytes: &mut [u8], at: usize, which: usize) {
    let end = setting_ends(bytes, at)[which / 2][which % 2];
    put_word(bytes, SETTINGS + 4 * at, u64::from(end));
}

/// The ends of a setting's range, and the least that the state still fits, each with what
/// comes just past it.
fn setting_ends(bytes: &[u8], at: usize) -> Vec<[u32; 2]> {
    let words = std::array::from_fn(|at| setting(bytes, at) as u32);
    let mut ends = make_station::ends(&words, at);
    let fitting = match at {
        3 => vec![largest(bytes, |frame| frame.size)],
        5 | 8 | 11 | 14 | 17 => vec![word(bytes, CREDITS + 4 * (at / 3 - 1))],
        19..=21 => vec![word(bytes, QUEUES[at - 19] + HELD)],
        26 => [ALLOWED[0], ALLOWED[1], LOCAL_FAIR_RATE]
            .map(|at| word(bytes, at))
            .to_vec(),
        30 => {
            let heard = 256_u64.saturating_sub(word(bytes, RECEIVED_TTL));
            let farthest = largest(bytes, |frame| frame.hops);
            vec![farthest.max(1) + 1, heard.max(1) + 1]
        }
        32 => vec![word(bytes, SINCE) + 1],
        _ => Vec::new(),
    };
    ends.extend(
        fitting
            .iter()
            .map(|least| [*least as u32, least.wrapping_sub(1) as u32]),
    );
    if at == 28 {
        let least = least_lp_coef(bytes);
        ends.push([least, least / 2]);
    }
    ends
}

/// The least lpCoef with which no rate shown is too large, or the next power of two.
fn least_lp_coef(bytes: &[u8]) -> u32 {
    let stored = STORED.map(|at| number(&bytes[fairness_place(at)]));
    let largest = stored.fold(0, u64::max);
    let fits = |lp_coef: &u64| largest <= range::most_stored(*lp_coef);
    LP_COEFS.into_iter().find(fits).unwrap_or(1_024) as u32
}

/// Where each slot stands, and the stage's word.
fn slots() -> impl Iterator<Item = usize> {
    let of_queue = |queue| (0..SLOTS).map(move |slot| slot_at(queue, slot));
    QUEUES.into_iter().flat_map(of_queue).chain([STAGE])
}

/// The largest of these fields of all frames.
fn largest(bytes: &[u8], field: impl Fn(Slot) -> u64) -> u64 {
    let fields = slots().map(|at| field(Slot::of_word(word(bytes, at))));
    fields.fold(0, u64::max)
}

/// The stage's frame, or one that comes there.
fn staged(random: &mut Random, bytes: &[u8]) -> Slot {
    match word(bytes, STAGE) {
        0 => frame(random, bytes),
        word => Slot::of_word(word),
    }
}

/// The frame with one hop more than the ring has, as far as a slot holds them.
fn too_far(slot: Slot, bytes: &[u8]) -> Slot {
    let hops = (most_hops(setting(bytes, 30)) + 1).min(63);
    Slot { hops, ..slot }
}

/// A frame in range, wherever its class belongs.
fn frame(random: &mut Random, bytes: &[u8]) -> Slot {
    let mtu = i128::from(setting(bytes, 3).clamp(16, 16_383));
    let class = random.below(3) as u64;
    Slot {
        size: random.often_extreme(16, mtu) as u64,
        hops: random.often_extreme(1, i128::from(most_hops(setting(bytes, 30)))) as u64,
        class,
        mark: if class == 0 {
            0
        } else {
            random.below(2) as u64
        },
        rest: 0,
    }
}

/// A field at an end of its range or past it.
fn change_frame(random: &mut Random, slot: Slot, which: usize, bytes: &[u8]) -> Slot {
    let mtu = setting(bytes, 3);
    let sized = |size: u64| Slot {
        size: size & 0x3fff,
        ..slot
    };
    let far = |hops: u64| Slot { hops, ..slot };
    let coded = |class, mark| Slot {
        class,
        mark,
        ..slot
    };
    match which {
        0 => sized(15),
        1 => sized(16),
        2 => sized(mtu),
        3 => sized(mtu.wrapping_add(1)),
        4 => far(0),
        5 => far(1),
        6 => far(most_hops(setting(bytes, 30))),
        7 => far(1 + random.below(63) as u64),
        8 => coded(0, 0),
        9 => coded(0, 1),
        10 => coded(1, 1),
        11 => coded(2, 0),
        12 => coded(3, random.below(2) as u64),
        13 => Slot {
            rest: 1 << random.below(9),
            ..slot
        },
        14 => Slot {
            mark: 1 - slot.mark,
            ..slot
        },
        // The most hops that a slot holds, more than any ring has.
        _ => far(63),
    }
}

/// Two stations mixed: cut in two anywhere or between parts, or part by part.
fn mix(random: &mut Random, bytes: &mut [u8], other: &[u8]) {
    let parts = parts();
    let cut = match random.below(3) {
        0 => random.below(bytes.len()),
        1 => parts[random.below(parts.len())].at,
        _ => {
            let rarely = random.pick(&[2, 8, 30]);
            for part in parts.iter().filter(|_| random.one_in(rarely)) {
                let place = part.at..part.at + part.length;
                bytes[place.clone()].copy_from_slice(&other[place]);
            }
            return;
        }
    };
    match random.one_in(2) {
        true => bytes[..cut].copy_from_slice(&other[..cut]),
        false => bytes[cut..].copy_from_slice(&other[cut..]),
    }
}

/// A bit or a byte.
fn change_byte(random: &mut Random, bytes: &mut [u8]) {
    let at = match random.one_in(2) {
        true => random.below(bytes.len()),
        // Slots are most of the bytes; the rest is as much worth.
        false => STAGE + random.below(bytes.len() - STAGE),
    };
    bytes[at] = match random.below(4) {
        0 => 0xff,
        1 => random.word() as u8,
        _ => bytes[at] ^ 1 << random.below(8),
    };
}

/// Any damage to a station; `other` is one to mix it with.
pub fn damage(random: &mut Random, bytes: &mut [u8], other: &[u8], steps: &[Step]) {
    let times = random.pick(&[1, 1, 1, 2, 3]);
    match random.below(24) {
        0..=3 => mix(random, bytes, other),
        4 => {
            let whole = random.bytes(bytes.len());
            bytes.copy_from_slice(&whole);
        }
        5 => bytes.fill(random.pick(&[0, 1, 0xff])),
        6 | 7 => queue::move_head(random, bytes),
        8..=12 => (0..times).for_each(|_| change_byte(random, bytes)),
        _ => (0..times).for_each(|_| {
            let step = random.pick(steps);
            take(random, bytes, step);
        }),
    }
}

/// A station far from where calls lead: many single changes, each kept where it leaves
/// the station in range.
pub fn wild(random: &mut Random, station: &[u8], steps: &[Step]) -> Vec<u8> {
    let mut bytes = station.to_vec();
    for _ in 0..random.pick(&[5, 20, 60]) {
        let mut changed = bytes.clone();
        let step = random.pick(steps);
        take(random, &mut changed, step);
        if range::in_range(&changed) {
            bytes = changed;
        }
    }
    bytes
}

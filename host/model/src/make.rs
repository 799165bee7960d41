//! Random records, whole and damaged, and random summaries, in range and nearly.

use crate::random::Random;
use crate::record::{
    self, Event, Form, Record, Settings, EVENT_LENGTH, HEADER_LENGTH, MOST_EVENTS,
};
use crate::refusal::Refusal;
use crate::summary::{step, Summary};

/// Valid settings, often at an end of a range.
pub fn settings(random: &mut Random) -> Settings {
    let mtu = random.often_extreme(64, 9_216);
    let lo = random.often_extreme(mtu, 65_536);
    let hi = random.often_extreme(lo + 1, 1_048_576);
    Settings {
        mtu: mtu as u32,
        lo_limit: lo as u32,
        hi_limit: hi as u32,
    }
}

/// Valid settings that differ from these in one alone.
pub fn settings_beside(random: &mut Random, settings: Settings) -> Settings {
    loop {
        let mut other = settings;
        let (by, field) = (random.pick(&[1, u32::MAX]), random.below(3));
        match field {
            0 => other.mtu = other.mtu.wrapping_add(by),
            1 => other.lo_limit = other.lo_limit.wrapping_add(by),
            _ => other.hi_limit = other.hi_limit.wrapping_add(by),
        }
        if other.valid() {
            return other;
        }
    }
}

/// Settings with one of them moved to just outside its range, or anywhere.
pub fn settings_near(random: &mut Random) -> Settings {
    let mut settings = settings(random);
    let any = random.word() as u32;
    match random.below(6) {
        0 => settings.mtu = random.pick(&[0, 63, 9_217, 65_535, any]),
        1 | 2 => {
            let below = settings.mtu - 1;
            settings.lo_limit = random.pick(&[0, below, 65_537, u32::MAX, any]);
        }
        3 | 4 => {
            let lo = settings.lo_limit;
            settings.hi_limit = random.pick(&[0, lo, lo - 1, 1_048_577, u32::MAX, any]);
        }
        _ => settings.mtu = settings.lo_limit.min(65_534) + 1,
    }
    settings
}

fn amount(random: &mut Random) -> u16 {
    match random.below(3) {
        0 => random.often_extreme(0, 65_535) as u16,
        1 => random.between(0, 2_000) as u16,
        _ => random.between(0, 100) as u16,
    }
}

pub fn event(random: &mut Random, settings: &Settings) -> Event {
    match random.below(3) {
        0 => Event::Waiting(amount(random)),
        1 => Event::Idle(amount(random)),
        _ => Event::Send(random.often_extreme(16, i128::from(settings.mtu)) as u16),
    }
}

/// Few events more often than many.
fn event_count(random: &mut Random, most: usize) -> usize {
    let most = match random.below(4) {
        0 => most.min(3),
        1 => most.min(20),
        _ => most,
    };
    random.below(most + 1)
}

/// The same few events again and again.
fn regular(random: &mut Random, settings: &Settings, count: usize) -> Vec<Event> {
    let length = 1 + random.below(5);
    let pattern: Vec<Event> = (0..length).map(|_| event(random, settings)).collect();
    pattern.iter().copied().cycle().take(count).collect()
}

/// So many events, each at random.
pub fn mixed(random: &mut Random, settings: &Settings, count: usize) -> Vec<Event> {
    (0..count).map(|_| event(random, settings)).collect()
}

/// Mixed events with every send permitted from this starting credit.
pub fn paced(random: &mut Random, settings: &Settings, start: i128, count: usize) -> Vec<Event> {
    let mut credit = start;
    let mut events = Vec::with_capacity(count);
    while events.len() < count {
        let mut next = event(random, settings);
        if step(settings, next, credit).is_none() {
            next = Event::Waiting(amount(random));
        }
        credit = step(settings, next, credit).unwrap_or(credit);
        events.push(next);
    }
    events
}

pub fn record_of(random: &mut Random, settings: Settings, most: usize) -> Record {
    let count = event_count(random, most);
    let events = match random.below(4) {
        0 => regular(random, &settings, count),
        1 => mixed(random, &settings, count),
        _ => {
            let start = random.often_extreme(0, i128::from(settings.hi_limit));
            paced(random, &settings, start, count)
        }
    };
    Record { settings, events }
}

/// A record of so many events under usual settings, every send permitted from loLimit.
pub fn night(random: &mut Random, count: usize) -> Record {
    let settings = Settings {
        mtu: 1_500,
        lo_limit: 16_384,
        hi_limit: 262_144,
    };
    let events = paced(random, &settings, i128::from(settings.lo_limit), count);
    Record { settings, events }
}

/// A valid record of at most so many events.
pub fn record(random: &mut Random, most: usize) -> Record {
    let settings = settings(random);
    record_of(random, settings, most)
}

/// A record of 1 to 60 events.
pub fn some(random: &mut Random) -> Record {
    loop {
        let record = record(random, 60);
        if !record.events.is_empty() {
            return record;
        }
    }
}

/// A record of exactly so many events, each at random.
pub fn mixed_record(random: &mut Random, count: usize) -> Record {
    let settings = settings(random);
    let events = mixed(random, &settings, count);
    Record { settings, events }
}

/// A valid record of exactly so many events, regular.
pub fn long_record(random: &mut Random, count: usize) -> Record {
    let settings = settings(random);
    let events = regular(random, &settings, count);
    Record { settings, events }
}

fn change_byte(random: &mut Random, bytes: &mut [u8], from: usize, to: usize) {
    if from < to {
        let at = from + random.below(to - from);
        bytes[at] = match random.below(3) {
            0 => bytes[at] ^ 1 << random.below(8),
            1 => bytes[at].wrapping_add(1),
            _ => random.word() as u8,
        };
    }
}

/// Gives one of the events, where there are any, a field from outside its range.
fn spoil_event(random: &mut Random, bytes: &mut [u8]) {
    let count = bytes.len().saturating_sub(HEADER_LENGTH) / EVENT_LENGTH;
    if count == 0 {
        return;
    }
    let mtu = u16::from_le_bytes([bytes[4], bytes[5]]);
    let event = HEADER_LENGTH + EVENT_LENGTH * random.below(count);
    let (field, value) = match random.below(5) {
        0 => (0, random.pick(&[0, 4, 5, 7, 14, 0x0106])),
        1 => (2, random.pick(&[0, 4, 5, 16, 0x0101])),
        _ => {
            bytes[event + 2] = 3;
            (4, random.pick(&[0, 15, mtu.wrapping_add(1), 65_535]))
        }
    };
    bytes[event + field..event + field + 2].copy_from_slice(&value.to_le_bytes());
}

/// A byte changed, bytes cut off or appended, a field spoiled; or two of these.
/// What comes out may still be a valid record.
pub fn damage(random: &mut Random, bytes: &mut Vec<u8>) {
    let length = bytes.len();
    match random.below(7) {
        0 => change_byte(random, bytes, 0, length),
        1 => change_byte(random, bytes, 0, length.min(HEADER_LENGTH)),
        2 => bytes.truncate(random.below(length + 1)),
        3 => bytes.truncate(length.saturating_sub(1 + random.below(8))),
        4 => {
            let count = 1 + random.below(13);
            bytes.extend(random.bytes(count));
        }
        5 => spoil_event(random, bytes),
        _ => {
            damage(random, bytes);
            spoil_event(random, bytes);
        }
    }
}

/// The bytes of a record that is damaged or has settings outside their range.
pub fn damaged(random: &mut Random, most: usize) -> Vec<u8> {
    let mut record = record(random, most);
    if random.one_in(6) {
        record.settings = settings_near(random);
    }
    let mut bytes = record.to_bytes();
    if !random.one_in(6) {
        damage(random, &mut bytes);
    }
    bytes
}

/// What a small file can be refused with.
pub const FAULTS: [Refusal; 3] = [Refusal::Setting, Refusal::Bytes, Refusal::Range];

/// Bytes that are refused, with each number in turn.
pub fn refused(random: &mut Random, turn: usize) -> Vec<u8> {
    loop {
        let bytes = damaged(random, 40);
        if record::read(&bytes, Form::Either) == Err(FAULTS[turn % FAULTS.len()]) {
            return bytes;
        }
    }
}

/// The bytes of a record of nearly, exactly or just over 1,000,000 events.
pub fn near_million(random: &mut Random) -> Vec<u8> {
    let count = MOST_EVENTS - 1 + random.below(3);
    let mut bytes = long_record(random, count).to_bytes();
    if random.one_in(2) {
        let count = 1 + random.below(7);
        bytes.extend(random.bytes(count));
    }
    if random.one_in(4) {
        let length = bytes.len();
        change_byte(random, &mut bytes, length - 20, length);
    }
    bytes
}

/// A summary in range of these settings whose fields no record need have.
pub fn summary_fields(random: &mut Random, settings: Settings) -> Summary {
    let hi = i128::from(settings.hi_limit);
    let most = random.pick(&[10, 1_000, 100_000, MOST_EVENTS as i128]);
    let events = random.often_extreme(0, most);
    let most_sent = 9_216 * events;
    let accrued = match random.below(3) {
        0 => random.often_extreme(0, 65_535 * events),
        _ => random.often_extreme(0, most_sent),
    };
    let sent = match random.below(3) {
        0 => random.often_extreme(0, most_sent),
        _ => random.between(accrued - hi, accrued + hi),
    };
    let sent = sent.clamp(0, most_sent);
    let gain = accrued - sent;
    let top = hi.min(hi + gain);
    let never = top < 0 || random.one_in(4);
    let (ceiling, need) = if never {
        (random.often_extreme(-most_sent, top), hi + 1)
    } else {
        let least = 0.max(-gain);
        (
            random.often_extreme(0, top),
            random.often_extreme(least, hi),
        )
    };
    Summary {
        settings,
        events,
        accrued,
        sent,
        ceiling,
        need,
    }
}

/// A summary in range: of a random record, or of random fields.
pub fn summary_of(random: &mut Random, settings: Settings) -> Summary {
    if random.one_in(2) {
        return summary_fields(random, settings);
    }
    let record = record_of(random, settings, 30);
    Summary::of_record(&record).unwrap_or(Summary::empty(settings))
}

/// A summary with one field moved to an end of its range or just past it.
pub fn summary_near(random: &mut Random, mut summary: Summary) -> Summary {
    let hi = i128::from(summary.settings.hi_limit);
    let gain = summary.gain();
    let past = random.between(0, 1);
    match random.below(11) {
        0 => summary.settings = settings_near(random),
        1 => summary.events = MOST_EVENTS as i128 + past,
        2 => summary.accrued = 65_535 * summary.events + past,
        3 => summary.sent = 9_216 * summary.events + past,
        4 => summary.ceiling = hi + past,
        5 => summary.ceiling = hi + gain + past,
        6 => summary.ceiling = -9_216 * summary.events - past,
        7 => summary.ceiling = -past,
        8 => summary.need = hi + random.between(0, 2),
        9 => summary.need = -gain - past,
        _ => summary.events = summary.events.max(1) - past,
    }
    summary
}

/// A starting credit: in range often, else up to 2^64 − 1.
pub fn start(random: &mut Random, summary: &Summary) -> u64 {
    let lo = u64::from(summary.settings.lo_limit);
    let hi = u64::from(summary.settings.hi_limit);
    let need = summary.need as u64;
    let any = random.word();
    match random.below(12) {
        0 => random.pick(&[u64::MAX, hi + 1, 1 << 32, 1 << 63, any]),
        1 => random.pick(&[0, lo, lo + 1, hi]),
        2..=5 => need.wrapping_add(random.pick(&[0, 0, 1, u64::MAX])),
        _ => random.between(0, i128::from(hi)) as u64,
    }
}

/// A length that isn't `right`, often off by a byte or a word.
pub fn wrong_length(random: &mut Random, right: usize) -> usize {
    let by = random.pick(&[1, 4]);
    let near = [0, 1, right - by, right + by, right / 2, 2 * right];
    let length = match random.below(2) {
        0 => random.pick(&near),
        _ => random.below(3 * right),
    };
    if length == right {
        right + 1
    } else {
        length
    }
}

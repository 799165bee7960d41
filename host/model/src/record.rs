//! Shaper records: settings, events, their bytes, and the reading of a record of either form.

use crate::item::{Item, Listed, RUN_KIND, RUN_LENGTH};
use crate::refusal::Refusal;

/// "9 | over 1,000,000 events"
pub const MOST_EVENTS: usize = 1_000_000;
pub const HEADER_LENGTH: usize = 14;
pub const EVENT_LENGTH: usize = 6;
const HEADER_KIND: u16 = 16;

/// How many events a reading takes, and what more is refused with.
#[derive(Clone, Copy, Debug, PartialEq, Eq)]
pub struct Limit {
    pub events: usize,
    pub past: Refusal,
}

/// "any byte after the millionth event gives 9"
const OF_RECORDS: Limit = Limit {
    events: MOST_EVENTS,
    past: Refusal::Events,
};

/// What a reading takes.
#[derive(Clone, Copy, Debug, PartialEq, Eq)]
pub enum Form {
    /// Events alone: "an item of kind 4 is 2, whatever it holds".
    Old,
    /// "both forms": events and runs.
    Either,
}

#[derive(Clone, Copy, Debug, PartialEq, Eq)]
pub struct Settings {
    pub mtu: u32,
    pub lo_limit: u32,
    pub hi_limit: u32,
}

#[derive(Clone, Copy, Debug, PartialEq, Eq)]
pub enum Event {
    /// "kind 1 tick while waiting (amount 2)"
    Waiting(u16),
    /// "kind 2 tick while idle (amount 2)"
    Idle(u16),
    /// "kind 3 send (size 2)"
    Send(u16),
}

#[derive(Clone, Debug, PartialEq, Eq)]
pub struct Record {
    pub settings: Settings,
    pub events: Vec<Event>,
}

impl Settings {
    /// "mtu 64 to 9,216"; "loLimit mtu to 65,536, hiLimit loLimit+1 to 1,048,576"
    pub fn valid(&self) -> bool {
        let mtu = u64::from(self.mtu);
        let lo = u64::from(self.lo_limit);
        let hi = u64::from(self.hi_limit);
        (64..=9_216).contains(&mtu)
            && (mtu..=65_536).contains(&lo)
            && (lo + 1..=1_048_576).contains(&hi)
    }

    /// "frame size 16 to mtu"
    pub fn allows_size(&self, size: u32) -> bool {
        (16..=self.mtu).contains(&size)
    }
}

/// "little-endian"
fn number(bytes: &[u8]) -> u32 {
    bytes
        .iter()
        .rev()
        .fold(0, |sum, byte| sum << 8 | u32::from(*byte))
}

/// "Kind 16, length 14, first and once: mtu 2, loLimit 4, hiLimit 4."
fn read_header(bytes: &[u8]) -> Result<Settings, Refusal> {
    let header = bytes.get(..HEADER_LENGTH).ok_or(Refusal::Bytes)?;
    if number(&header[0..2]) != HEADER_LENGTH as u32
        || number(&header[2..4]) != u32::from(HEADER_KIND)
    {
        return Err(Refusal::Bytes);
    }
    let settings = Settings {
        mtu: number(&header[4..6]),
        lo_limit: number(&header[6..10]),
        hi_limit: number(&header[10..14]),
    };
    // "1 | a setting [...] is outside its range"
    if settings.valid() {
        Ok(settings)
    } else {
        Err(Refusal::Setting)
    }
}

/// The kind of the item that the bytes begin with, and its payload: "cut short, another length
/// than its kind's, no known kind: 2".
fn read_shape(form: Form, bytes: &[u8]) -> Result<(u16, &[u8]), Refusal> {
    let head = bytes.get(..4).ok_or(Refusal::Bytes)?;
    let (length, kind) = (number(&head[0..2]), number(&head[2..4]) as u16);
    let of_kind = match (kind, form) {
        (1..=3, _) => EVENT_LENGTH,
        (RUN_KIND, Form::Either) => RUN_LENGTH,
        _ => return Err(Refusal::Bytes),
    };
    if length != of_kind as u32 {
        return Err(Refusal::Bytes);
    }
    let item = bytes.get(..of_kind).ok_or(Refusal::Bytes)?;
    Ok((kind, &item[4..]))
}

/// "Events, length 6: kind 1 tick while waiting (amount 2), kind 2 tick while
/// idle (amount 2), kind 3 send (size 2)."
fn read_event(settings: &Settings, kind: u16, value: u16) -> Result<Event, Refusal> {
    match kind {
        1 => Ok(Event::Waiting(value)),
        2 => Ok(Event::Idle(value)),
        // "3 | a frame [...] is outside its range"
        3 if settings.allows_size(u32::from(value)) => Ok(Event::Send(value)),
        3 => Err(Refusal::Range),
        _ => Err(Refusal::Bytes),
    }
}

/// "tick kind 2 (1 or 2), amount 2, count 2 (2 to 65,535), standing for that many equal ticks";
/// "a tick kind other than 1 or 2, a count below 2: 2".
fn read_run(payload: &[u8]) -> Result<Item, Refusal> {
    let [tick_kind, amount, count] =
        [0, 2, 4].map(|at| u16::from_le_bytes([payload[at], payload[at + 1]]));
    let event = match tick_kind {
        1 => Event::Waiting(amount),
        2 => Event::Idle(amount),
        _ => return Err(Refusal::Bytes),
    };
    match count {
        0 | 1 => Err(Refusal::Bytes),
        _ => Ok(Item { event, count }),
    }
}

/// The item that the bytes begin with, behind so many events. "Faults at an item, in order: a
/// million events done and any byte: 9; cut short, another length than its kind's, no known kind:
/// 2; a send's size: 3; a tick kind other than 1 or 2, a count below 2: 2; a run that passes the
/// million: 9." Another limit stands in the million's place.
fn read_item(
    settings: &Settings,
    form: Form,
    limit: Limit,
    done: usize,
    bytes: &[u8],
) -> Result<Item, Refusal> {
    if done == limit.events {
        return Err(limit.past);
    }
    let (kind, payload) = read_shape(form, bytes)?;
    let item = match kind {
        RUN_KIND => read_run(payload)?,
        _ => Item {
            event: read_event(settings, kind, u16::from_le_bytes([payload[0], payload[1]]))?,
            count: 1,
        },
    };
    if done + item.events() > limit.events {
        return Err(limit.past);
    }
    Ok(item)
}

/// A record's items. "within a record the earliest fault counts instead, header first, and any
/// byte after the millionth event gives 9."
pub fn read_items(bytes: &[u8], form: Form) -> Result<Listed, Refusal> {
    read_items_to(bytes, form, OF_RECORDS)
}

/// The same of a record that has a limit of its own.
pub fn read_items_to(bytes: &[u8], form: Form, limit: Limit) -> Result<Listed, Refusal> {
    let settings = read_header(bytes)?;
    let mut items: Vec<Item> = Vec::new();
    let (mut place, mut done) = (HEADER_LENGTH, 0);
    while place < bytes.len() {
        let item = read_item(&settings, form, limit, done, &bytes[place..])?;
        place += item.length();
        done += item.events();
        items.push(item);
    }
    Ok(Listed { settings, items })
}

/// The same, event by event: "events are counted unrolled".
pub fn read(bytes: &[u8], form: Form) -> Result<Record, Refusal> {
    Ok(read_items(bytes, form)?.unrolled())
}

impl Event {
    /// The kind's number, and the amount or size.
    pub fn parts(self) -> (u8, u16) {
        match self {
            Event::Waiting(amount) => (1, amount),
            Event::Idle(amount) => (2, amount),
            Event::Send(size) => (3, size),
        }
    }

    /// "Records: length (2, of the whole), kind (2), payload, little-endian."
    pub fn to_bytes(self) -> [u8; EVENT_LENGTH] {
        let (kind, value) = self.parts();
        let [low, high] = value.to_le_bytes();
        [EVENT_LENGTH as u8, 0, kind, 0, low, high]
    }
}

impl Settings {
    /// "Kind 16, length 14, first and once: mtu 2, loLimit 4, hiLimit 4." The settings as they
    /// are, valid or not; an mtu keeps its low 16 bits.
    pub fn to_header(&self) -> Vec<u8> {
        let mut bytes = Vec::with_capacity(HEADER_LENGTH);
        bytes.extend((HEADER_LENGTH as u16).to_le_bytes());
        bytes.extend(HEADER_KIND.to_le_bytes());
        bytes.extend((self.mtu as u16).to_le_bytes());
        bytes.extend(self.lo_limit.to_le_bytes());
        bytes.extend(self.hi_limit.to_le_bytes());
        bytes
    }
}

impl Record {
    /// The old form.
    pub fn to_bytes(&self) -> Vec<u8> {
        let mut bytes = self.settings.to_header();
        bytes.reserve(EVENT_LENGTH * self.events.len());
        for event in &self.events {
            bytes.extend(event.to_bytes());
        }
        bytes
    }

    /// "A piece of a cut record is that record's header followed by the piece's
    /// events."
    pub fn piece(&self, from: usize, to: usize) -> Record {
        Record {
            settings: self.settings,
            events: self.events[from..to].to_vec(),
        }
    }
}

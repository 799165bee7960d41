//! Items: "An item is an event as before, or a run". A record as a list of them.

use crate::record::{Event, Record, Settings, EVENT_LENGTH, HEADER_LENGTH};

/// "length 10, kind 4"
pub const RUN_LENGTH: usize = 10;
pub const RUN_KIND: u16 = 4;
/// "count 2 (2 to 65,535)"
pub const MOST_IN_RUN: usize = 65_535;

/// An event alone, or a run of so many equal ticks.
#[derive(Clone, Copy, Debug, PartialEq, Eq)]
pub struct Item {
    pub event: Event,
    /// 1, or for a run 2 to 65,535.
    pub count: u16,
}

/// A record of either form, item by item.
#[derive(Clone, Debug, PartialEq, Eq)]
pub struct Listed {
    pub settings: Settings,
    pub items: Vec<Item>,
}

impl Item {
    pub fn is_run(self) -> bool {
        self.count > 1
    }

    /// "standing for that many equal ticks"
    pub fn events(self) -> usize {
        usize::from(self.count)
    }

    pub fn length(self) -> usize {
        match self.is_run() {
            true => RUN_LENGTH,
            false => EVENT_LENGTH,
        }
    }

    /// "length 10, kind 4, then tick kind 2 (1 or 2), amount 2, count 2"
    pub fn to_bytes(self) -> Vec<u8> {
        if !self.is_run() {
            return self.event.to_bytes().to_vec();
        }
        let (kind, amount) = self.event.parts();
        let words = [
            RUN_LENGTH as u16,
            RUN_KIND,
            u16::from(kind),
            amount,
            self.count,
        ];
        words.iter().flat_map(|word| word.to_le_bytes()).collect()
    }
}

impl Listed {
    /// The old form: each event alone.
    pub fn plain(record: &Record) -> Listed {
        let alone = |event: &Event| Item {
            event: *event,
            count: 1,
        };
        Listed {
            settings: record.settings,
            items: record.events.iter().map(alone).collect(),
        }
    }

    pub fn to_bytes(&self) -> Vec<u8> {
        let mut bytes = self.settings.to_header();
        for item in &self.items {
            bytes.extend(item.to_bytes());
        }
        bytes
    }

    /// The events that the items stand for, one by one.
    pub fn unrolled(&self) -> Record {
        let events = self.items.iter();
        let events = events.flat_map(|item| vec![item.event; item.events()]);
        Record {
            settings: self.settings,
            events: events.collect(),
        }
    }

    pub fn events(&self) -> usize {
        self.items.iter().map(|item| item.events()).sum()
    }

    /// The items of the events from one place to another: "a cut inside a run leaves a shorter
    /// run or a single tick on each side".
    pub fn piece(&self, from: usize, to: usize) -> Listed {
        let mut items = Vec::new();
        let mut begin = 0;
        for item in &self.items {
            let end = begin + item.events();
            let (first, last) = (begin.max(from), end.min(to));
            if first < last {
                items.push(Item {
                    event: item.event,
                    count: (last - first) as u16,
                });
            }
            begin = end;
        }
        Listed {
            settings: self.settings,
            items,
        }
    }

    /// The runs are longest: no tick stands behind an equal one that its item could still take.
    pub fn longest(&self) -> bool {
        self.items.windows(2).all(|pair| {
            let equal = pair[0].event == pair[1].event;
            let tick = !matches!(pair[0].event, Event::Send(_));
            !(equal && tick && pair[0].events() < MOST_IN_RUN)
        })
    }
}

/// Any bytes, cut where a header and its items would end: behind 10 bytes where an item's length
/// says so, else behind 6.
pub fn parts(bytes: &[u8]) -> Vec<&[u8]> {
    let (header, mut rest) = bytes.split_at(bytes.len().min(HEADER_LENGTH));
    let mut parts = vec![header];
    while !rest.is_empty() {
        let length = match rest.starts_with(&(RUN_LENGTH as u16).to_le_bytes()) {
            true => RUN_LENGTH,
            false => EVENT_LENGTH,
        };
        let (part, behind) = rest.split_at(length.min(rest.len()));
        parts.push(part);
        rest = behind;
    }
    parts
}

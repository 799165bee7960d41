//! How two slices differ, in words.

use model::station::layout::{self, number, word, HELD};
use model::station::reading::{NAMES, READING_LENGTH};
use model::text;

/// The words of a reading that differ, or the bytes of a frame.
pub fn slices(got: &[u8], expected: &[u8]) -> String {
    if got.len() != READING_LENGTH {
        let (got, expected) = (text::encode(got), text::encode(expected));
        return format!("lent bytes {got}, model {expected}");
    }
    let mut words = Vec::new();
    for (at, name) in NAMES.iter().enumerate() {
        let [got, expected] = [got, expected].map(|bytes| word(bytes, 4 * at));
        if got != expected {
            words.push(format!("{name} {got}, model {expected}"));
        }
    }
    words.join("; ")
}

/// The parts of a station that differ.
pub fn part_by_part(got: &[u8], expected: &[u8], whose: &str) -> String {
    if got.len() != layout::STATION_LENGTH {
        return "a station of another length changed".to_string();
    }
    let mut words = Vec::new();
    for part in layout::parts() {
        let step = match part.length == HELD {
            true => 4,
            false => part.length,
        };
        for at in (part.at..part.at + part.length).step_by(step) {
            let [got, expected] = [got, expected].map(|bytes| number(&bytes[at..at + step]));
            if got != expected {
                let slot = match part.length == HELD {
                    true => format!(" {}", (at - part.at) / 4),
                    false => String::new(),
                };
                let name = &part.name;
                words.push(format!("{name}{slot} {got:#x}, {whose} {expected:#x}"));
            }
        }
    }
    // Wholly other bytes need not all be told.
    let more = words.len().saturating_sub(40);
    words.truncate(40);
    if more > 0 {
        words.push(format!("and {more} more"));
    }
    words.join("; ")
}

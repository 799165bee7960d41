//! The calls that a host makes about records, summaries and rings, over numbers and
//! byte slices.
//!
//! "Byte 0 is 0 where the call was carried out, else the refusal number, and then
//! every other byte is 0 and every lent byte is as it was."

use crate::heartbeat;
use crate::movers;
use crate::record::Settings;
use crate::refusal::Refusal;
use crate::ring::{Choice, Path, Ring, Side, Wish};
use crate::summary::Summary;
use crate::text;

/// "A summary: 48 bytes"
pub const SUMMARY_LENGTH: usize = 48;

fn word(bytes: &[u8], at: usize) -> u32 {
    let mut word = [0; 4];
    word.copy_from_slice(&bytes[at..at + 4]);
    u32::from_le_bytes(word)
}

fn long(bytes: &[u8], at: usize) -> u64 {
    let mut long = [0; 8];
    long.copy_from_slice(&bytes[at..at + 8]);
    u64::from_le_bytes(long)
}

/// "0, 4, 8 | 4 each | mtu, loLimit, hiLimit"; "12 | 4 | events"; "16, 24 | 8 each |
/// accrued, sent"; "32 | 8 | ceiling, two's complement"; "40 | 8 | need".
/// "A slice whose length is not the one named below [...] is refusal 2".
pub fn from_bytes(bytes: &[u8]) -> Result<Summary, Refusal> {
    if bytes.len() != SUMMARY_LENGTH {
        return Err(Refusal::Bytes);
    }
    Ok(Summary {
        settings: Settings {
            mtu: word(bytes, 0),
            lo_limit: word(bytes, 4),
            hi_limit: word(bytes, 8),
        },
        events: i128::from(word(bytes, 12)),
        accrued: i128::from(long(bytes, 16)),
        sent: i128::from(long(bytes, 24)),
        ceiling: i128::from(long(bytes, 32) as i64),
        need: i128::from(long(bytes, 40)),
    })
}

/// The same layout; a field that doesn't fit keeps its low bits.
pub fn to_bytes(summary: &Summary) -> Vec<u8> {
    let mut bytes = Vec::with_capacity(SUMMARY_LENGTH);
    bytes.extend(summary.settings.mtu.to_le_bytes());
    bytes.extend(summary.settings.lo_limit.to_le_bytes());
    bytes.extend(summary.settings.hi_limit.to_le_bytes());
    bytes.extend((summary.events as u32).to_le_bytes());
    bytes.extend((summary.accrued as u64).to_le_bytes());
    bytes.extend((summary.sent as u64).to_le_bytes());
    bytes.extend((summary.ceiling as u64).to_le_bytes());
    bytes.extend((summary.need as u64).to_le_bytes());
    bytes
}

/// The answer and the room's bytes afterwards.
fn answered(outcome: Result<Summary, Refusal>, room: &[u8]) -> (u64, Vec<u8>) {
    match outcome {
        Ok(summary) => (0, to_bytes(&summary)),
        Err(refusal) => (refusal.answer(), room.to_vec()),
    }
}

fn check_room(room: &[u8]) -> Result<(), Refusal> {
    if room.len() == SUMMARY_LENGTH {
        Ok(())
    } else {
        Err(Refusal::Bytes)
    }
}

/// `rpr_summarize(record, n, room, n)`: "0; the room holds the record's summary".
/// "Where several apply the order is 2, 1, 3": the room's 2 comes before all that
/// a record can give.
pub fn summarize(record: &[u8], room: &[u8]) -> (u64, Vec<u8>) {
    let outcome = check_room(room).and_then(|()| text::summarize(record));
    answered(outcome, room)
}

/// `rpr_roll(record, n, room, m)`: "old form to new".
pub fn roll(record: &[u8], room: &[u8]) -> (u64, Vec<u8>) {
    moved(movers::roll(record), room)
}

/// `rpr_unroll(record, n, room, m)`: "either form to old".
pub fn unroll(record: &[u8], room: &[u8]) -> (u64, Vec<u8>) {
    moved(movers::unroll(record), room)
}

/// "bytes 4 to 7: bytes written; bytes of the room behind them stay"; "the record's earliest
/// fault [...]; then 12".
fn moved(output: Result<Vec<u8>, Refusal>, room: &[u8]) -> (u64, Vec<u8>) {
    match output {
        Ok(output) if output.len() <= room.len() => {
            let written = output.len();
            let after = [&output[..], &room[written..]].concat();
            ((written as u64) << 32, after)
        }
        Ok(_) => (Refusal::Room.answer(), room.to_vec()),
        Err(refusal) => (refusal.answer(), room.to_vec()),
    }
}

/// `rpr_join(first, n, second, n, room, n)`: "0; the room holds the joined summary".
pub fn join(first: &[u8], second: &[u8], room: &[u8]) -> (u64, Vec<u8>) {
    answered(join_bytes(first, second, room), room)
}

fn join_bytes(first: &[u8], second: &[u8], room: &[u8]) -> Result<Summary, Refusal> {
    check_room(room)?;
    let first = from_bytes(first)?;
    let second = from_bytes(second)?;
    first.join(&second)
}

/// `rpr_settle(summary, n, start)`: "byte 1 permitted throughout, 4 to 7 the credit
/// at the end (0 where not permitted)".
pub fn settle(summary: &[u8], start: u64) -> u64 {
    settled(from_bytes(summary).and_then(|summary| summary.settle(i128::from(start))))
}

/// The credit at the end, or None where not permitted, as an answer.
fn settled(end: Result<Option<i128>, Refusal>) -> u64 {
    match end {
        Ok(Some(end)) => 1 << 8 | (end as u64) << 32,
        Ok(None) => 0,
        Err(refusal) => refusal.answer(),
    }
}

/// `rpr_heartbeat(pattern, n, repeats)`: "Answer as `rpr_settle`'s: byte 1 permitted throughout,
/// 4 to 7 the credit at the end."
pub fn heartbeat(pattern: &[u8], repeats: u64) -> u64 {
    settled(heartbeat::end(pattern, repeats))
}

/// "Side: unspecified 0, left 1, right 2, default 3." "Unspecified means default".
fn wish(code: u64) -> Result<Wish, Refusal> {
    match code {
        0 | 3 => Ok(Wish::Default),
        1 => Ok(Wish::This(Side::Left)),
        2 => Ok(Wish::This(Side::Right)),
        _ => Err(Refusal::Range),
    }
}

/// "Protection: unspecified 0, protected 1, unprotected 2." "Unspecified means [...]
/// protected."
fn protected(code: u64) -> Result<bool, Refusal> {
    match code {
        0 | 1 => Ok(true),
        2 => Ok(false),
        _ => Err(Refusal::Range),
    }
}

/// "Ring: steering 0, wrapping 1."
fn wrapping(code: u64) -> Result<bool, Refusal> {
    match code {
        0 => Ok(false),
        1 => Ok(true),
        _ => Err(Refusal::Range),
    }
}

/// "1 left, 2 right"
pub fn side_code(side: Side) -> u64 {
    match side {
        Side::Left => 1,
        Side::Right => 2,
    }
}

/// "`home` is 1 left or 2 right"
fn home_side(code: u64) -> Result<Side, Refusal> {
    match code {
        1 => Ok(Side::Left),
        2 => Ok(Side::Right),
        _ => Err(Refusal::Range),
    }
}

/// `rpr_choose(stations, own, target, links, side, protection, ring)`: "byte 1 side
/// (1 left, 2 right), 2 distance, 3 ttl, 4 wrap mark".
pub fn choose(
    stations: u64,
    own: u64,
    target: u64,
    links: u64,
    side: u64,
    protection: u64,
    ring: u64,
) -> u64 {
    let chosen = || -> Result<Choice, Refusal> {
        let lines = Ring::new(stations, links)?;
        let pair = lines.pair(own, target)?;
        let (wish, protected) = (wish(side)?, protected(protection)?);
        lines.choose(pair, wish, protected, wrapping(ring)?)
    };
    match chosen() {
        Ok(choice) => {
            let low = side_code(choice.side) << 8 | (choice.distance as u64) << 16;
            low | (choice.ttl as u64) << 24 | u64::from(choice.mark) << 32
        }
        Err(refusal) => refusal.answer(),
    }
}

/// `rpr_path(stations, own, target, links, home)`: "byte 1 delivered, 2 hops". "The
/// answer holds the hops moved, equal to the path's length."
pub fn path(stations: u64, own: u64, target: u64, links: u64, home: u64) -> u64 {
    let walked = || -> Result<Path, Refusal> {
        let lines = Ring::new(stations, links)?;
        let pair = lines.pair(own, target)?;
        Ok(lines.path(pair, home_side(home)?))
    };
    match walked() {
        Ok(path) => u64::from(path.delivered) << 8 | (path.links.len() as u64) << 16,
        Err(refusal) => refusal.answer(),
    }
}

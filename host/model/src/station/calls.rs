//! The calls that a host makes about a station, with raw numbers and byte slices.
//!
//! "Each returns its number alone and leaves the station and all lent bytes untouched":
//! a call works on a copy and stores it where it was carried out. "refusal 6 returns its
//! number and this shortfall." A lent station is in range here; `lent_call` makes the
//! calls on any lent bytes.

use super::fairness::FRAME_LENGTH;
use super::frames::{yes, Class, Frame};
use super::reading::READING_LENGTH;
use super::{settings, Station};
use crate::refusal::Refusal;

fn answer(outcome: Result<u64, Refusal>) -> u64 {
    outcome.unwrap_or_else(Refusal::answer)
}

/// The answer of a call on a copy, which is stored where the call was carried out.
fn carry_out(
    station: &mut Station,
    call: impl FnOnce(&mut Station) -> Result<u64, Refusal>,
) -> u64 {
    let mut copy = station.clone();
    let outcome = call(&mut copy);
    if outcome.is_ok() {
        *station = copy;
    }
    answer(outcome)
}

/// `rpr_start(settings, n, station, n)`: "0; the station is fresh, whatever its bytes
/// were". None is memory that holds no station yet.
pub fn start(settings: &[u8], station: &mut Option<Station>) -> u64 {
    let fresh = settings::read(settings).map(Station::new);
    answer(fresh.map(|fresh| {
        *station = Some(fresh);
        0
    }))
}

/// `rpr_tick(station, n, a_waits, b_waits, c_waits)`: 0.
pub fn tick(station: &mut Station, a_waits: u64, b_waits: u64, c_waits: u64) -> u64 {
    carry_out(station, |station| {
        station.tick(yes(a_waits)?, yes(b_waits)?, yes(c_waits)?);
        Ok(0)
    })
}

/// `rpr_offer_client(station, n, class, size, hops)`: "byte 4: the mark that the frame
/// got, eligible or not"; "refused with 6: [...] bytes 4 to 7 the shortfall".
pub fn offer_client(station: &mut Station, class: u64, size: u64, hops: u64) -> u64 {
    carry_out(station, |station| {
        let class = Class::from_code(class)?;
        let eligible = station.offer_client(class, size, hops)?;
        Ok(u64::from(eligible) << 32)
    })
}

/// `rpr_offer_transit(station, n, class, size, hops, eligible)`: 0.
pub fn offer_transit(
    station: &mut Station,
    class: u64,
    size: u64,
    hops: u64,
    eligible: u64,
) -> u64 {
    carry_out(station, |station| {
        let frame = Frame {
            class: Class::from_code(class)?,
            size,
            hops,
            eligible: yes(eligible)?,
        };
        station.offer_transit(frame).map(|()| 0)
    })
}

/// `rpr_offer_control(station, n, size)`: 0.
pub fn offer_control(station: &mut Station, size: u64) -> u64 {
    carry_out(station, |station| station.offer_control(size).map(|()| 0))
}

/// `rpr_select(station, n)`: "byte 1 origin, 2 class, 3 hops, 4 eligible, 5 is 0 [...],
/// 6 and 7 size; all 0 for nothing".
pub fn select(station: &mut Station) -> u64 {
    carry_out(station, |station| {
        Ok(station.select().map_or(0, |(origin, frame)| {
            let low = (origin as u64) << 8 | frame.class.code() << 16 | frame.hops << 24;
            low | u64::from(frame.eligible) << 32 | frame.size << 48
        }))
    })
}

/// `rpr_age(station, n)`: 0.
pub fn age(station: &mut Station) -> u64 {
    carry_out(station, |station| {
        station.age();
        Ok(0)
    })
}

/// `rpr_read_frame(station, n, frame, n)`: 0.
pub fn read_frame(station: &mut Station, frame: &[u8]) -> u64 {
    carry_out(station, |station| station.read_frame(frame).map(|()| 0))
}

/// `rpr_write_frame(station, n, room, n)`: "0; the room of 12 bytes holds the frame".
/// "Room to write in that isn't 12 bytes: 2." The room's bytes afterwards.
pub fn write_frame(station: &Station, room: &[u8]) -> (u64, Vec<u8>) {
    if room.len() != FRAME_LENGTH {
        return (Refusal::Bytes.answer(), room.to_vec());
    }
    (0, station.write_frame().to_vec())
}

/// `rpr_show(station, n, room, n)`: "0; the room holds the reading below". "A slice
/// whose length is not the one named below [...] is refusal 2". The room's bytes
/// afterwards.
pub fn show(station: &Station, room: &[u8]) -> (u64, Vec<u8>) {
    if room.len() != READING_LENGTH {
        return (Refusal::Bytes.answer(), room.to_vec());
    }
    let words = station.reading();
    let bytes = words.iter().flat_map(|word| (*word as u32).to_le_bytes());
    (0, bytes.collect())
}

//! The fairness frame, and what a station advertises.

use super::frames::within_ring;
use super::settings::Address;
use super::Station;
use crate::refusal::Refusal;

/// "Fairness frame, 12 bytes"
pub const FRAME_LENGTH: usize = 12;
/// "65,535 (FULL_RATE)"
pub const FULL_RATE: u64 = 65_535;

/// The ttl, address and rate of the frame that tells of downstream congestion.
#[derive(Clone, Copy, Debug, PartialEq, Eq)]
pub struct Received {
    pub ttl: u64,
    pub address: Address,
    pub rate: u64,
}

impl Received {
    /// "received ttl 255, received address and rate 0; a frame that clears downstream
    /// congestion sets these three so too."
    pub const START: Received = Received {
        ttl: 255,
        address: [0; 6],
        rate: 0,
    };

    /// "hopsToCongestion = 256 − ttl."
    pub fn hops(self) -> u64 {
        256 - self.ttl
    }
}

/// "ttl; base (bit 7 ringlet, bits 5 to 4 frame type, 2 = fairness); address 6; header
/// 2, top three bits 0 for single choke; rate 2. Big-endian."
fn write(ringlet: u64, frame: Received) -> [u8; FRAME_LENGTH] {
    let mut bytes = [0; FRAME_LENGTH];
    bytes[0] = frame.ttl as u8;
    bytes[1] = (ringlet << 7 | 2 << 4) as u8;
    bytes[2..8].copy_from_slice(&frame.address);
    bytes[10..12].copy_from_slice(&(frame.rate as u16).to_be_bytes());
    bytes
}

/// "Another length, type, header kind or a ringlet bit equal to the station's own: 2."
/// The own ringlet is the number that stands in the station, in range or not.
pub fn whole(own_ringlet: u64, bytes: &[u8]) -> Result<(), Refusal> {
    if bytes.len() != FRAME_LENGTH {
        return Err(Refusal::Bytes);
    }
    let ringlet = u64::from(bytes[1] >> 7);
    let kind = bytes[1] >> 4 & 3;
    let header_kind = bytes[8] >> 5;
    if kind != 2 || header_kind != 0 || ringlet == own_ringlet {
        return Err(Refusal::Bytes);
    }
    Ok(())
}

/// "ttl 193 to 255, else 3."
fn read(own_ringlet: u64, bytes: &[u8]) -> Result<Received, Refusal> {
    whole(own_ringlet, bytes)?;
    let ttl = u64::from(bytes[0]);
    if !(193..=255).contains(&ttl) {
        return Err(Refusal::Range);
    }
    let mut address = [0; 6];
    address.copy_from_slice(&bytes[2..8]);
    let rate = u64::from(u16::from_be_bytes([bytes[10], bytes[11]]));
    Ok(Received { ttl, address, rate })
}

impl Station {
    /// "A rate of 65,535 clears downstream congestion, others set it." "11 | a fairness
    /// frame bears this station's own address"; "13, right after 3 and before 11", "a
    /// FULL_RATE frame too".
    pub fn read_frame(&mut self, bytes: &[u8]) -> Result<(), Refusal> {
        let frame = read(self.settings.ringlet, bytes)?;
        within_ring(frame.hops(), self.settings.stations)?;
        if frame.address == self.settings.address {
            return Err(Refusal::OwnAddress);
        }
        self.downstream_congested = frame.rate != FULL_RATE;
        self.received = match self.downstream_congested {
            true => frame,
            false => Received::START,
        };
        Ok(())
    }

    /// "Own and FULL frames use own address and ttl 255."
    fn own_frame(&self, rate: u64) -> Received {
        Received {
            ttl: 255,
            address: self.settings.address,
            rate,
        }
    }

    /// "Advertise 65,535 (FULL_RATE) when not congested either way; own rate when only
    /// locally congested, or both and own ≤ received; else the received rate, its
    /// address, ttl less 1"; "FULL_RATE, where it said ttl 193, when the received hops are
    /// the number of stations less 1."
    pub fn advertised(&self) -> Received {
        match (self.locally_congested, self.downstream_congested) {
            (false, false) => self.own_frame(FULL_RATE),
            (true, false) => self.own_frame(self.own_rate),
            (true, true) if self.own_rate <= self.received.rate => self.own_frame(self.own_rate),
            _ if self.received.hops() == self.settings.stations - 1 => self.own_frame(FULL_RATE),
            _ => Received {
                ttl: self.received.ttl - 1,
                ..self.received
            },
        }
    }

    /// "A written frame bears the other ringlet's bit. Other bits are written 0".
    pub fn write_frame(&self) -> [u8; FRAME_LENGTH] {
        write(1 - self.settings.ringlet, self.advertised())
    }
}

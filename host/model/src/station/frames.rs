//! Frames and their ranges.

use super::settings::Settings;
use crate::refusal::Refusal;

#[derive(Clone, Copy, Debug, PartialEq, Eq)]
pub enum Class {
    A,
    B,
    C,
}

#[derive(Clone, Copy, Debug, PartialEq, Eq)]
pub struct Frame {
    pub class: Class,
    pub size: u64,
    pub hops: u64,
    pub eligible: bool,
}

impl Class {
    /// "Class: A 0, B 1, C 2."
    pub fn from_code(code: u64) -> Result<Class, Refusal> {
        match code {
            0 => Ok(Class::A),
            1 => Ok(Class::B),
            2 => Ok(Class::C),
            _ => Err(Refusal::Range),
        }
    }

    pub fn code(self) -> u64 {
        match self {
            Class::A => 0,
            Class::B => 1,
            Class::C => 2,
        }
    }
}

/// "Yes or no: 1 or 0."
pub fn yes(code: u64) -> Result<bool, Refusal> {
    match code {
        0 => Ok(false),
        1 => Ok(true),
        _ => Err(Refusal::Range),
    }
}

/// "A fairness frame, a transit frame or a client frame whose hops reach the number of
/// stations or more is turned down".
pub fn within_ring(hops: u64, stations: u64) -> Result<(), Refusal> {
    match hops < stations {
        true => Ok(()),
        false => Err(Refusal::Hops),
    }
}

impl Frame {
    /// "frame size 16 to mtu; hops 1 to 63; class A, B or C; only B and C may be marked
    /// fairness eligible." "new number 13, right after 3": the ring comes behind all of these.
    pub fn checked(self, settings: &Settings) -> Result<Frame, Refusal> {
        let good = (16..=settings.mtu).contains(&self.size)
            && (1..=63).contains(&self.hops)
            && !(self.class == Class::A && self.eligible);
        if !good {
            return Err(Refusal::Range);
        }
        within_ring(self.hops, settings.stations)?;
        Ok(self)
    }
}

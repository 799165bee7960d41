//! A call on a station's lent bytes, whatever they hold.
//!
//! "Each returns its number alone and leaves the station and all lent bytes untouched", but
//! "refusal 6 returns its number and this shortfall."

use crate::refusal::Refusal;
use crate::station::fairness::{self, FRAME_LENGTH};
use crate::station::layout::{self, STATION_LENGTH};
use crate::station::reading::READING_LENGTH;
use crate::station_call::Call;

/// The answer, and what the lent slices hold afterwards.
#[derive(Clone, Debug, PartialEq, Eq)]
pub struct After {
    pub answer: u64,
    pub station: Vec<u8>,
    pub other: Vec<u8>,
}

/// "A slice whose length is not the one named below, or not `rpr_station_length()`, is
/// refusal 2"; a fairness frame has more reasons for 2.
fn check_slices(call: &Call, station: &[u8], other: &[u8]) -> Result<(), Refusal> {
    if station.len() != STATION_LENGTH {
        return Err(Refusal::Bytes);
    }
    let named = match call {
        Call::Hear(_) => return fairness::whole(layout::setting(station, 2), other),
        Call::Tell(_) => FRAME_LENGTH,
        Call::Show(_) => READING_LENGTH,
        _ => return Ok(()),
    };
    match other.len() == named {
        true => Ok(()),
        false => Err(Refusal::Bytes),
    }
}

/// "Where several apply the order is 2, 1, 3, 11, 10, 9, 4, 5, 6, 7, 8", with "13, right after 3
/// and before 11": slices first, then the station's range, then all that the model's calls
/// decide.
fn carry_out(call: &Call, station: &[u8], other: &[u8]) -> Result<After, Refusal> {
    check_slices(call, station, other)?;
    let mut model = layout::read(station)?;
    let (answer, other) = call.apply(&mut model, other);
    let station = match answer as u8 {
        0 => layout::write(&model),
        _ => station.to_vec(),
    };
    Ok(After {
        answer,
        station,
        other,
    })
}

/// `other` is the frame or room that the call lends.
pub fn apply(call: &Call, station: &[u8], other: &[u8]) -> After {
    carry_out(call, station, other).unwrap_or_else(|refusal| After {
        answer: refusal.answer(),
        station: station.to_vec(),
        other: other.to_vec(),
    })
}

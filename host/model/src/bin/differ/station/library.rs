//! The library's calls on a station.

use crate::calls::*;
use model::station_call::Call;

pub fn station_length() -> usize {
    // SAFETY: nothing crosses but the answer.
    unsafe { rpr_station_length() as usize }
}

pub fn start(settings: &[u8], station: &mut [u8]) -> u64 {
    let (pointer, n) = (station.as_mut_ptr(), station.len());
    // SAFETY: both slices are real memory that nothing else uses.
    unsafe { rpr_start(settings.as_ptr(), settings.len(), pointer, n) }
}

/// The answer; `other` is the frame or room that the call lends.
pub fn call(call: &Call, station: &mut [u8], other: &mut [u8]) -> u64 {
    let (pointer, n) = (station.as_mut_ptr(), station.len());
    let (room, length) = (other.as_mut_ptr(), other.len());
    // SAFETY: both slices are real memory that nothing else uses.
    unsafe {
        match call {
            Call::Tick([a, b, c]) => rpr_tick(pointer, n, *a, *b, *c),
            Call::Client([class, size, hops]) => rpr_offer_client(pointer, n, *class, *size, *hops),
            Call::Transit([class, size, hops, eligible]) => {
                rpr_offer_transit(pointer, n, *class, *size, *hops, *eligible)
            }
            Call::Control(size) => rpr_offer_control(pointer, n, *size),
            Call::Select => rpr_select(pointer, n),
            Call::Age => rpr_age(pointer, n),
            Call::Hear(_) => rpr_read_frame(pointer, n, room, length),
            Call::Tell(_) => rpr_write_frame(pointer, n, room, length),
            Call::Show(_) => rpr_show(pointer, n, room, length),
        }
    }
}

//! Damage to what the methods add: their settings, the intervals since the last change, and
//! localFairRate beside unreservedRate.

use super::fit;
use crate::methods::OUTSIDE;
use crate::station::layout::{put_word, setting, LOCAL_FAIR_RATE, SETTINGS, SINCE};

/// How many changes `change` knows.
pub const STEPS: usize = 5 + OUTSIDE.len();

/// A word of the settings, and the rest of the station made to fit it.
fn set(bytes: &mut [u8], at: usize, word: u64) {
    put_word(bytes, SETTINGS + 4 * at, word);
    fit::fit(bytes, at);
}

/// Under this method: since at the end of its range, one past it and at its most; localFairRate
/// at unreservedRate and one above; a setting outside its range.
pub fn change(bytes: &mut [u8], method: usize, which: usize) {
    set(bytes, 31, method as u64);
    let [unreserved, round_trip] = [26, 32].map(|at| setting(bytes, at));
    let (at, number) = match which {
        0 => (SINCE, round_trip.wrapping_sub(1)),
        1 => (SINCE, round_trip),
        2 => (SINCE, 0xffff_ffff),
        3 => (LOCAL_FAIR_RATE, unreserved),
        4 => (LOCAL_FAIR_RATE, unreserved + 1),
        _ => {
            let (at, word) = OUTSIDE[which - 5];
            return set(bytes, at, word);
        }
    };
    put_word(bytes, at, number);
}

//! Stations whose shapers lack much, little or nothing. Calls alone take a credit no
//! further below its limit than a frame's size; a lent station may hold any.

use crate::random::Random;
use crate::station::layout::{put_word, setting, word, CREDITS, SETTINGS, STAGE};

/// M, A, B, C, D.
const SHAPERS: usize = 5;
const B: usize = 2;

fn credit_at(shaper: usize) -> usize {
    CREDITS + 4 * shaper
}

/// A credit from 0 to hiLimit: two of three lack something.
fn credit(random: &mut Random, lo: u64, hi: u64) -> u64 {
    let some = random.between(0, i128::from(lo)) as u64;
    let enough = random.between(i128::from(lo) + 1, i128::from(hi)) as u64;
    let little = lo - random.below(64) as u64;
    random.pick(&[0, lo, little, some, lo + 1, enough])
}

/// The station with an empty stage and other credits, some under the largest loLimit or
/// one less. It stays in range.
pub fn station(random: &mut Random, bytes: &[u8]) -> Vec<u8> {
    let mut bytes = bytes.to_vec();
    put_word(&mut bytes, STAGE, 0);
    for shaper in 0..SHAPERS {
        let at = 4 + 3 * shaper;
        if random.one_in(2) {
            let lo = random.pick(&[65_535, 65_536]);
            let hi = random.pick(&[lo + 1, 1_048_576]);
            put_word(&mut bytes, SETTINGS + 4 * at, lo);
            put_word(&mut bytes, SETTINGS + 4 * at + 4, hi);
        }
        let [lo, hi] = [at, at + 1].map(|at| setting(&bytes, at));
        let credit = credit(random, lo, hi);
        put_word(&mut bytes, credit_at(shaper), credit);
    }
    bytes
}

/// The station after a wait that added so much to what a client frame of this class needs:
/// A, or for B tried as excess and for C both C and D. B itself has nothing, so that it is
/// excess.
pub fn waited(bytes: &[u8], class: u64, amount: u64) -> Vec<u8> {
    let needed: &[usize] = match class {
        0 => &[1],
        _ => &[3, 4],
    };
    let mut bytes = bytes.to_vec();
    put_word(&mut bytes, credit_at(B), 0);
    for shaper in needed {
        let hi = setting(&bytes, 5 + 3 * shaper);
        let sum = word(&bytes, credit_at(*shaper)) + amount;
        put_word(&mut bytes, credit_at(*shaper), sum.min(hi));
    }
    bytes
}

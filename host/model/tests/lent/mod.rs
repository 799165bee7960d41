//! What tests of lent stations share.

use model::lent_call::apply;
use model::make_damage;
use model::make_station;
use model::random::Random;
use model::station::layout::{put_word, write};
use model::station::range::faults;
use model::station_call::Call;

/// The bytes with this word there.
pub fn with(bytes: &[u8], at: usize, value: u64) -> Vec<u8> {
    let mut bytes = bytes.to_vec();
    put_word(&mut bytes, at, value);
    bytes
}

/// Every call refuses the bytes with 1, for this alone, and leaves them, also where the call itself
/// has hops beyond the ring.
pub fn refused(bytes: &[u8], fault: &str) {
    assert_eq!(faults(bytes), [fault]);
    let beyond = [
        Call::Client([2, 20, 63]),
        Call::Hear(vec![193, 0xa0, 0, 0, 0, 0, 0, 9, 0, 0, 0, 5]),
    ];
    for call in Call::one_of_each().into_iter().chain(beyond) {
        let other = call.other_slice(7);
        let after = apply(&call, bytes, &other);
        assert_eq!(after.answer, 1, "{call}");
        assert_eq!((&after.station[..], after.other), (bytes, other));
    }
}

/// Stations in range from starts and from many changes, on rings of each size.
pub fn sound(random: &mut Random, count: usize) -> Vec<Vec<u8>> {
    let steps = make_damage::every_step();
    let mut all = Vec::new();
    for at in 0..count {
        let mut words = make_station::settings(random);
        words[30] = (2 + at % 62) as u32;
        let station = write(&make_station::of(words));
        all.push(make_damage::wild(random, &station, &steps));
        all.push(station);
    }
    all
}

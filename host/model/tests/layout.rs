//! The bytes of a station: where each number stands, and the round trip.

use model::make_call::{self, Habit};
use model::make_damage;
use model::make_station;
use model::random::Random;
use model::refusal::Refusal;
use model::station::aging::Rates;
use model::station::layout::{
    self, fairness_name, fairness_place, parts, read, word, write, Slot, FAIRNESS_NUMBERS,
    STATION_LENGTH,
};
use model::station::range::in_range;
use model::station::reading::NAMES;
use model::station::{calls, Station};

fn plain() -> Station {
    make_station::station(&[])
}

/// The words of 4 bytes from there on.
fn words<const N: usize>(bytes: &[u8], at: usize) -> [u64; N] {
    std::array::from_fn(|word_at| word(bytes, at + 4 * word_at))
}

#[test]
fn a_fresh_station() {
    let bytes = write(&plain());
    assert_eq!(bytes.len(), 1_806);
    assert_eq!(words(&bytes, 0), [100; 5]);
    assert!(bytes[20..1_578].iter().all(|byte| *byte == 0));
    assert_eq!(words(&bytes, 1_578), [0; 12]);
    assert_eq!(words(&bytes, 1_626), [10_000, 10_000, 10_000, 1_250]);
    assert_eq!(words(&bytes, 1_642), [0, 0, 0, 255, 0, 0, 0]);
    assert_eq!(words(&bytes, 1_670), make_station::PLAIN.map(u64::from));
    assert_eq!(words(&bytes, 1_790), [63, 0, 3, 64]);
}

/// "0 to 13 | size"; "14 to 19 | hops"; "20 and 21 | class"; "22 | the mark".
#[test]
fn the_bits_of_a_slot() {
    let slot = Slot {
        size: 9_216,
        hops: 63,
        class: 2,
        mark: 1,
        rest: 0,
    };
    assert_eq!(slot.word(), 9_216 | 63 << 14 | 2 << 20 | 1 << 22);
    for word in [
        0,
        1,
        0x3fff,
        0x4000,
        0xf_c000,
        0x10_0000,
        0x40_0000,
        0xffff_ffff,
    ] {
        assert_eq!(Slot::of_word(word).word(), word);
    }
    assert_eq!(Slot::of_word(1 << 23).rest, 1);
    assert_eq!(Slot::of_word(1 << 31).rest, 256);
}

/// "The frames stand from the head on, one slot behind the other, and slot 0 follows slot
/// 127. A slot that holds no frame is 0."
#[test]
fn frames_and_the_head() {
    let mut station = make_station::station(&[(20, 1_048_576)]);
    for size in 16..20 {
        assert_eq!(calls::offer_transit(&mut station, 0, size, 5, 0), 0);
    }
    calls::select(&mut station);
    let bytes = write(&station);
    let frame = |size: u64| size | 5 << 14;
    let expected = [0, frame(17), frame(18), frame(19), 0];
    assert_eq!(words(&bytes, 538), expected);
    assert_eq!(
        (word(&bytes, 1_050), bytes[1_054], bytes[1_055]),
        (54, 1, 3)
    );
    for _ in 0..3 {
        calls::select(&mut station);
    }
    for _ in 0..123 {
        calls::offer_transit(&mut station, 0, 16, 1, 0);
        calls::select(&mut station);
    }
    assert_eq!(write(&station)[1_054..1_056], [127, 0]);
    calls::offer_transit(&mut station, 0, 20, 5, 0);
    calls::offer_transit(&mut station, 0, 21, 5, 0);
    let bytes = write(&station);
    assert_eq!(words(&bytes, 538), [frame(21), 0]);
    assert_eq!(words(&bytes, 538 + 504), [0, frame(20), 41]);
    assert_eq!(bytes[1_054..1_056], [127, 2]);
    assert_eq!(read(&bytes), Ok(station));
}

#[test]
fn control_secondary_and_stage() {
    let mut station = plain();
    calls::offer_control(&mut station, 33);
    calls::offer_transit(&mut station, 1, 40, 9, 1);
    calls::tick(&mut station, 0, 0, 1);
    assert_eq!(calls::offer_client(&mut station, 2, 50, 7), 1 << 32);
    let bytes = write(&station);
    assert_eq!(words(&bytes, 20), [33 | 1 << 14, 0]);
    assert_eq!(words(&bytes, 1_056), [40 | 9 << 14 | 1 << 20 | 1 << 22, 0]);
    assert_eq!(word(&bytes, 1_574), 50 | 7 << 14 | 2 << 20 | 1 << 22);
    assert_eq!([bytes[537], bytes[1_055], bytes[1_573]], [1, 0, 1]);
    assert_eq!(read(&bytes), Ok(station));
}

/// "They are words 13 to 30 of a reading, in the same order; the count between them stands in no
/// reading. Of a smoothed rate the reading has the rate shown, floor(stored number / lpCoef), in
/// one word of 4 bytes."
#[test]
fn the_fairness_state() {
    let mut station = plain();
    station.since = 2;
    let frame = [200, 0xa0, 1, 2, 3, 4, 5, 6, 0, 0, 0x12, 0x34];
    assert_eq!(calls::read_frame(&mut station, &frame), 0);
    station.counters = Rates::each([1, 2, 3, 4]);
    station.stored = Rates::each([63, 64, 0x12_3456_789a, 64 * 2_147_483_648 - 1]);
    let bytes = write(&station);
    let expected = [0, 2, 1, 200, 0x0102, 0x0304_0506, 0x1234];
    assert_eq!(words(&bytes, 1_578 + 64), expected);
    assert_eq!(words::<4>(&bytes, 1_578), station.reading()[13..17]);
    let stored = [63, 0, 64, 0, 0x3456_789a, 0x12, 0xffff_ffff, 0x1f];
    assert_eq!(words(&bytes, 1_578 + 16), stored);
    let shown = [0, 1, 0x12_3456_789a / 64, 2_147_483_647];
    assert_eq!(station.reading()[17..21], shown);
    assert_eq!(words::<5>(&bytes, 1_578 + 48), station.reading()[21..26]);
    assert_eq!(words::<5>(&bytes, 1_578 + 72), station.reading()[26..]);
    assert_eq!(read(&bytes), Ok(station));
}

#[test]
fn each_byte_has_one_part() {
    let parts = parts();
    let mut at = 0;
    for part in &parts {
        assert_eq!(part.at, at, "{}", part.name);
        at += part.length;
    }
    assert_eq!((at, parts.len()), (STATION_LENGTH, 71));
    let place = |name: &str| parts.iter().find(|part| part.name == name).unwrap().at;
    assert_eq!(place("control slots"), 20);
    assert_eq!(place("secondary count"), 1_573);
    assert_eq!(place("stage"), layout::STAGE);
    assert_eq!(place("addRate"), layout::FAIRNESS);
    for number in 0..FAIRNESS_NUMBERS {
        let name = fairness_name(number);
        assert_eq!(place(name), fairness_place(number).start, "{name}");
    }
    let names = NAMES[13..]
        .iter()
        .all(|name| place(name) < layout::SETTINGS);
    assert!(names);
    assert_eq!(place("localFairRate"), layout::LOCAL_FAIR_RATE);
    assert_eq!(place("locallyCongested"), 1_642);
    assert_eq!(place("since"), layout::SINCE);
    assert_eq!(place("downstreamCongested"), layout::DOWNSTREAM);
    assert_eq!(place("receivedTtl"), layout::RECEIVED_TTL);
    assert_eq!(place("addressHigh"), layout::SETTINGS);
    assert_eq!(place("rampDn"), 1_802);
    let mut names: Vec<&str> = parts.iter().map(|part| &part.name[..]).collect();
    names.sort_unstable();
    names.dedup();
    assert_eq!(names.len(), parts.len());
}

#[test]
fn another_length_is_2() {
    for length in [0, 1, 1_786, 1_790, 1_805, 1_807, 3_612] {
        assert_eq!(read(&vec![0; length]), Err(Refusal::Bytes));
    }
    assert_eq!(read(&[0; STATION_LENGTH]), Err(Refusal::Setting));
}

/// A station written and read is that station, after any calls.
#[test]
fn round_trip_of_lives() {
    let mut random = Random::new(1);
    for _ in 0..60 {
        let words = make_station::settings(&mut random);
        let mut station = None;
        calls::start(&model::station::settings::to_bytes(&words), &mut station);
        let mut station = station.unwrap();
        let habit = Habit::new(&mut random);
        for _ in 0..400 {
            let call = make_call::call(&mut random, &station, &habit);
            call.apply(&mut station, &call.other_slice(0));
            assert_eq!(read(&write(&station)).as_ref(), Ok(&station));
        }
    }
}

/// Bytes in range, read and written, are those bytes.
#[test]
fn round_trip_of_bytes() {
    let mut random = Random::new(2);
    let steps = make_damage::every_step();
    for _ in 0..600 {
        let words = make_station::settings(&mut random);
        let settings = model::station::settings::to_bytes(&words);
        let mut station = None;
        calls::start(&settings, &mut station);
        let bytes = make_damage::wild(&mut random, &write(&station.unwrap()), &steps);
        assert!(in_range(&bytes));
        assert_eq!(write(&read(&bytes).unwrap()), bytes);
    }
}

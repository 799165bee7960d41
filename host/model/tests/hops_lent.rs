//! Lent stations that hold hops beyond the ring, and how damage makes them.

mod lent;

use lent::{refused, sound, with};
use model::hops::{alone, every_alone};
use model::make_damage::{self, take, Step};
use model::make_station;
use model::random::Random;
use model::station::calls;
use model::station::layout::{
    read, setting, slot_at, word, write, Slot, COUNT, DOWNSTREAM, QUEUES, QUEUE_NAMES,
    RECEIVED_TTL, SETTINGS, STAGE,
};
use model::station::range::{faults, in_range, most_hops};
use std::collections::BTreeSet;

const RING: usize = SETTINGS + 4 * 30;

/// Three frames in each queue and one in the stage, all of 1 hop.
fn busy(stations: u64) -> Vec<u8> {
    let mut station = make_station::station(&[(30, stations as u32)]);
    calls::tick(&mut station, 1, 1, 1);
    assert_eq!(calls::offer_client(&mut station, 0, 16, 1), 0);
    for _ in 0..3 {
        assert_eq!(calls::offer_control(&mut station, 16), 0);
        assert_eq!(calls::offer_transit(&mut station, 0, 16, 1, 0), 0);
        assert_eq!(calls::offer_transit(&mut station, 1, 16, 1, 1), 0);
    }
    write(&station)
}

/// "a lent station holding such hops, is 1": a frame in any queue, at any place, or in the stage.
#[test]
fn every_ring_with_frames_of_every_number_of_hops() {
    let mut holders = vec![(STAGE, "stage")];
    for (queue, name) in QUEUES.into_iter().zip(QUEUE_NAMES) {
        holders.extend([0, 1, 2].map(|slot| (slot_at(queue, slot), name)));
    }
    for stations in 2..=63 {
        let bytes = busy(stations);
        for (at, name) in &holders {
            let slot = Slot::of_word(word(&bytes, *at));
            for hops in 0..=63 {
                let bytes = with(&bytes, *at, Slot { hops, ..slot }.word());
                let expected = match hops {
                    0 => vec![format!("{name} hops below")],
                    _ if hops < stations => vec![],
                    _ => vec![format!("{name} hops above")],
                };
                assert_eq!(faults(&bytes), expected, "{hops} of {stations}");
            }
            let far = Slot {
                hops: stations,
                ..slot
            };
            let fault = format!("{name} hops above");
            refused(&with(&bytes, *at, far.word()), &fault);
        }
    }
}

/// A received ttl below 257 − stations is 1, congested downstream or not.
#[test]
fn every_ring_with_every_received_ttl() {
    for stations in 2..=63 {
        for congested in [0, 1] {
            let bytes = with(&busy(stations), DOWNSTREAM, congested);
            for ttl in (0..=300).chain([511, 65_791, 0xffff_ffff]) {
                let bytes = with(&bytes, RECEIVED_TTL, ttl);
                let expected = match ttl {
                    256.. => vec!["receivedTtl above"],
                    _ if ttl < 257 - stations => vec!["receivedTtl below"],
                    _ => vec![],
                };
                assert_eq!(faults(&bytes), expected, "{ttl} of {stations}");
            }
            for ttl in [256 - stations, 193] {
                refused(&with(&bytes, RECEIVED_TTL, ttl), "receivedTtl below");
            }
            read(&with(&bytes, RECEIVED_TTL, 257 - stations)).unwrap();
        }
    }
}

/// "a ring size outside 2 to 63 [...] is 1": alone, for the frames are held to no ring then.
#[test]
fn rings_that_are_none() {
    for stations in [0, 1, 64, 65, 258, 65_542, 0x8000_0006, 0xffff_ffff] {
        let bytes = with(&busy(63), RING, stations);
        let side = if stations < 2 { "below" } else { "above" };
        refused(&bytes, &format!("stations {side}"));
    }
    assert_eq!([0, 1, 2, 63, 64].map(most_hops), [63, 63, 1, 62, 63]);
}

/// The same frames and ttl on a smaller ring.
#[test]
fn a_ring_that_the_state_no_longer_fits() {
    let mut station = make_station::station(&[]);
    assert_eq!(calls::offer_transit(&mut station, 1, 16, 9, 0), 0);
    let frame = [249, 0xa0, 0, 0, 0, 0, 0, 9, 0, 0, 0, 5];
    assert_eq!(calls::read_frame(&mut station, &frame), 0);
    for stations in 2..=63 {
        let mut expected = Vec::new();
        if stations < 8 {
            expected.push("receivedTtl below");
        }
        if stations < 10 {
            expected.push("secondary hops above");
        }
        assert_eq!(faults(&with(&write(&station), RING, stations)), expected);
    }
}

/// Each step that takes a frame, a ttl or the ring one too far breaks that rule alone, wherever
/// it starts from, and each place is met.
#[test]
fn damage_that_goes_one_hop_too_far() {
    let mut random = Random::new(13);
    let steps = make_damage::every_step();
    for station in sound(&mut random, 124) {
        let mut seen = BTreeSet::new();
        for step in &steps {
            let mut bytes = station.clone();
            take(&mut random, &mut bytes, *step);
            let stations = setting(&bytes, 30);
            let faults = faults(&bytes);
            let expected = match *step {
                Step::Far(3, _) => "stage hops above".to_string(),
                Step::Far(queue, _) => format!("{} hops above", QUEUE_NAMES[queue]),
                Step::Ttl(_, 1..=3) => "receivedTtl below".to_string(),
                Step::Ttl(_, 4) => "receivedTtl above".to_string(),
                Step::Ttl(..) => {
                    assert!(faults.is_empty(), "{step:?} {faults:?}");
                    assert_eq!(word(&bytes, RECEIVED_TTL), 257 - stations);
                    continue;
                }
                Step::Fitted(30, _) if !(2..=63).contains(&stations) => {
                    let side = if stations < 2 { "below" } else { "above" };
                    format!("stations {side}")
                }
                _ => continue,
            };
            assert_eq!(faults, [expected], "{step:?}");
            seen.extend(alone(&bytes, &faults[0]));
        }
        assert!(seen.into_iter().eq(BTreeSet::from_iter(every_alone())));
    }
}

/// One frame alone has one hop too many; with one less the station is in range.
#[test]
fn the_places_of_a_frame_that_goes_too_far() {
    let mut random = Random::new(14);
    for station in sound(&mut random, 62) {
        for (queue, at) in QUEUES.into_iter().enumerate() {
            for place in 0..5 {
                let mut bytes = station.clone();
                take(&mut random, &mut bytes, Step::Far(queue, place));
                let stations = setting(&bytes, 30);
                let slots = (0..128).map(|slot| slot_at(at, slot));
                let hops = |at: &usize| Slot::of_word(word(&bytes, *at)).hops;
                let far: Vec<usize> = slots.filter(|at| hops(at) >= stations).collect();
                assert_eq!(far.len(), 1);
                assert_eq!(hops(&far[0]), stations);
                assert!(place < 3 || bytes[at + COUNT] == 128);
                let slot = Slot::of_word(word(&bytes, far[0]));
                let hops = stations - 1;
                assert!(in_range(&with(
                    &bytes,
                    far[0],
                    Slot { hops, ..slot }.word()
                )));
            }
        }
    }
}

/// The least ring that frames and ttl still fit, and one station less: that alone is wrong, or
/// with the rest made to fit nothing.
#[test]
fn a_ring_that_just_fits() {
    let mut random = Random::new(15);
    let mut station = make_station::station(&[]);
    assert_eq!(calls::offer_transit(&mut station, 0, 16, 40, 0), 0);
    let frame = [206, 0xa0, 0, 0, 0, 0, 0, 9, 0, 0, 0, 5];
    assert_eq!(calls::read_frame(&mut station, &frame), 0);
    let mut with = |step: Step| {
        let mut bytes = write(&station);
        take(&mut random, &mut bytes, step);
        bytes
    };
    // The last two ends of the word: by frames 41 stations, by the ttl 51.
    for (which, stations, wrong) in [
        (8, 41, vec!["receivedTtl below"]),
        (9, 40, vec!["receivedTtl below", "primary hops above"]),
        (10, 51, vec![]),
        (11, 50, vec!["receivedTtl below"]),
    ] {
        let bytes = with(Step::Setting(30, which));
        assert_eq!(setting(&bytes, 30), stations);
        assert_eq!(faults(&bytes), wrong);
        let fitted = read(&with(Step::Fitted(30, which))).unwrap();
        assert_eq!(fitted.settings.stations, stations);
        assert_eq!(fitted.received.hops(), 50.min(stations - 1));
        assert_eq!(fitted.primary.head().unwrap().hops, 40.min(stations - 1));
    }
}

/// Stations made wild keep to their ring, and come to its last hop.
#[test]
fn wild_stations_keep_to_their_ring() {
    let mut random = Random::new(16);
    let mut last = [0; 2];
    for bytes in sound(&mut random, 400) {
        let station = read(&bytes).unwrap();
        let most = station.settings.stations - 1;
        let staged = station.stage.map_or(1, |frame| frame.hops);
        assert!(staged <= most && station.received.hops() <= most);
        last[0] += u32::from(most > 1 && staged == most);
        last[1] += u32::from(most > 1 && station.received.hops() == most);
    }
    assert!(last.iter().all(|count| *count > 10), "{last:?}");
}

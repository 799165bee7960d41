//! "No hops beyond the ring": every number of stations with every number of hops and every ttl.

use model::make_call::{self, Habit};
use model::make_station;
use model::random::Random;
use model::station::frames::Frame;
use model::station::settings::to_bytes;
use model::station::{calls, Station};

const OWN: [u8; 6] = [0x02, 0x00, 0x5e, 0x00, 0x00, 0x01];
const OTHER: [u8; 6] = [0x02, 0x00, 0x5e, 0x00, 0x00, 0x02];

/// A station of the plain settings on a ring of so many, ticked until client frames may go.
fn on_ring(stations: u64) -> Station {
    let mut station = make_station::station(&[(30, stations as u32)]);
    for _ in 0..10 {
        assert_eq!(calls::tick(&mut station, 1, 1, 1), 0);
    }
    station
}

fn fairness(ttl: u8, base: u8, address: [u8; 6], rate: u16) -> [u8; 12] {
    let [a, b, c, d, e, f] = address;
    let [high, low] = rate.to_be_bytes();
    [ttl, base, a, b, c, d, e, f, 0, 0, high, low]
}

/// The refusal of a call on a copy; 0 where it was carried out. A refused one must leave the
/// copy as the station was, and one carried out must change it.
fn refusal(station: &Station, call: impl FnOnce(&mut Station) -> u64) -> u8 {
    let mut copy = station.clone();
    let answer = call(&mut copy) as u8;
    assert_eq!(copy == *station, answer != 0);
    answer
}

fn heard(station: &Station, frame: [u8; 12]) -> u8 {
    let mut copy = station.clone();
    let answer = calls::read_frame(&mut copy, &frame) as u8;
    assert!(answer == 0 || copy == *station);
    answer
}

/// "new refusal 13, for client and transit hops from the number of stations to 63 (below 1 and
/// above 63 stay 3)".
fn expected(hops: u64, stations: u64) -> u8 {
    match hops {
        0 | 64.. => 3,
        _ if hops >= stations => 13,
        _ => 0,
    }
}

#[test]
fn every_ring_with_every_number_of_hops() {
    for stations in 2..=63 {
        let station = on_ring(stations);
        for hops in (0..=66).chain([257, 1 << 32 | 1, u64::MAX]) {
            let expected = expected(hops, stations);
            for class in 0..3 {
                let client = |lent: &mut Station| calls::offer_client(lent, class, 16, hops);
                assert_eq!(refusal(&station, client), expected, "{hops} of {stations}");
                for mark in 0..=u64::from(class > 0) {
                    let transit =
                        |lent: &mut Station| calls::offer_transit(lent, class, 16, hops, mark);
                    assert_eq!(refusal(&station, transit), expected, "{hops} of {stations}");
                }
            }
        }
        // "given by size alone (class A, 1 hop)": no ring is too small for a control frame.
        for size in [16, 64] {
            let control = |lent: &mut Station| calls::offer_control(lent, size);
            assert_eq!(refusal(&station, control), 0);
        }
    }
}

/// "right after 3": whatever else is wrong with a frame comes before.
#[test]
fn three_comes_before_13() {
    for stations in 2..=63 {
        let station = on_ring(stations);
        for hops in stations..=63 {
            for (class, size, mark) in [
                (3, 16, 0),
                (u64::MAX, 16, 0),
                (2, 15, 0),
                (2, 65, 1),
                (0, 0, 0),
                (0, 16, 1),
                (1, 16, 2),
            ] {
                let transit =
                    |lent: &mut Station| calls::offer_transit(lent, class, size, hops, mark);
                assert_eq!(refusal(&station, transit), 3);
                if mark == 0 {
                    let client = |lent: &mut Station| calls::offer_client(lent, class, size, hops);
                    assert_eq!(refusal(&station, client), 3);
                }
            }
        }
    }
}

/// 13 comes before 4, 5, 6 and 7, which the same frame gets with one hop less.
#[test]
fn four_to_seven_come_behind_13() {
    for stations in 2..=63 {
        let frames = |station: &Station, class: u64, later: u8| {
            for (hops, expected) in [(stations - 1, later), (stations, 13), (63, 13)] {
                let client = |lent: &mut Station| calls::offer_client(lent, class, 16, hops);
                assert_eq!(refusal(station, client), expected);
            }
        };
        let mut full = make_station::station(&[(30, stations as u32), (20, 64), (21, 128)]);
        for (class, size) in [(0, 64), (1, 64), (1, 64)] {
            assert_eq!(calls::offer_transit(&mut full, class, size, 1, 0), 0);
        }
        for class in 0..3 {
            for (hops, expected) in [(stations - 1, 4), (stations, 13), (63, 13)] {
                let transit = |lent: &mut Station| calls::offer_transit(lent, class, 16, hops, 0);
                assert_eq!(refusal(&full, transit), expected);
            }
            frames(&full, class, 6);
        }
        let mut staged = on_ring(stations);
        assert_eq!(calls::offer_client(&mut staged, 0, 16, 1), 0);
        (0..3).for_each(|class| frames(&staged, class, 5));
        let mut congested = on_ring(stations);
        calls::read_frame(&mut congested, &fairness(255, 0xa0, OTHER, 0));
        calls::age(&mut congested);
        // On a ring of 2 no frame goes farther than the first hop.
        frames(&congested, 2, if stations == 2 { 0 } else { 7 });
    }
}

/// 13 "for a fairness frame whose 256 − ttl reaches the number of stations (ttl below 193 stays
/// 3), a FULL_RATE frame too"; "right after 3 and before 11".
#[test]
fn every_ring_with_every_ttl() {
    for stations in 2..=63 {
        let mut station = on_ring(stations);
        calls::read_frame(&mut station, &fairness(255, 0xa0, OTHER, 9));
        for ttl in 0..=255 {
            let hops = 256 - u64::from(ttl);
            let far = match ttl {
                0..=192 => 3,
                _ if hops >= stations => 13,
                _ => 0,
            };
            for rate in [0, 9, 65_534, 65_535] {
                assert_eq!(heard(&station, fairness(ttl, 0xa0, OTHER, rate)), far);
                let own = if far == 0 { 11 } else { far };
                assert_eq!(heard(&station, fairness(ttl, 0xa0, OWN, rate)), own);
                for base in [0x20, 0x80, 0xb0] {
                    assert_eq!(heard(&station, fairness(ttl, base, OWN, rate)), 2);
                }
                let mut other_header = fairness(ttl, 0xa0, OTHER, rate);
                other_header[8] = 0x20;
                assert_eq!(heard(&station, other_header), 2);
            }
        }
    }
}

/// A station that has heard of congestion so many hops away, with this rate.
fn congested(stations: u64, hops: u64, rate: u16) -> Station {
    let mut station = on_ring(stations);
    let frame = fairness((256 - hops) as u8, 0xa0, OTHER, rate);
    assert_eq!(calls::read_frame(&mut station, &frame), 0);
    station
}

/// "FULL_RATE, where it said ttl 193, when the received hops are the number of stations less 1";
/// else "the received rate, its address, ttl less 1". The own rate comes before both.
#[test]
fn what_every_ring_tells_of_every_ttl() {
    let full = fairness(255, 0xa0, OWN, 65_535);
    let own = fairness(255, 0xa0, OWN, 7);
    for stations in 2..=63 {
        for hops in 1..stations {
            let on = |rate: u16| match hops == stations - 1 {
                true => full,
                false => fairness((255 - hops) as u8, 0xa0, OTHER, rate),
            };
            for rate in [0, 6, 7, 8, 65_534] {
                let mut station = congested(stations, hops, rate);
                assert_eq!(station.write_frame(), on(rate), "{hops} of {stations}");
                station.locally_congested = true;
                station.own_rate = 7;
                let told = if rate < 7 { on(rate) } else { own };
                assert_eq!(station.write_frame(), told, "{hops} of {stations}");
            }
        }
    }
}

/// "Reading a written frame, with the same settings but an address it doesn't bear, gives back
/// its ringlet bit, ttl, address and rate."
#[test]
fn a_told_frame_is_never_refused_on_its_ring() {
    for stations in 2..=63 {
        let reader = make_station::station(&[(1, 7), (30, stations as u32)]);
        for hops in 1..stations {
            for rate in [0, 7, 65_534] {
                for local in [false, true] {
                    let mut station = congested(stations, hops, rate);
                    station.locally_congested = local;
                    station.own_rate = 7;
                    let told = station.advertised();
                    let frame = station.write_frame();
                    let mut reader = reader.clone();
                    assert_eq!(calls::read_frame(&mut reader, &frame), 0);
                    assert_eq!(reader.downstream_congested, told.rate != 65_535);
                    if told.rate != 65_535 {
                        assert_eq!(reader.received, told);
                    }
                    assert_eq!((frame[0], frame[1]), (told.ttl as u8, 0xa0));
                }
            }
        }
    }
}

/// From station to station the rate is told from one hop farther, and the last one before its
/// own station tells FULL_RATE: it never comes back to where it was first told.
#[test]
fn a_rate_goes_round_the_ring() {
    for stations in 2..=63_u32 {
        let mut first = on_ring(u64::from(stations));
        first.locally_congested = true;
        first.own_rate = 7;
        let mut frame = first.write_frame();
        for hops in 1..stations {
            assert_eq!(frame, fairness((256 - hops) as u8, 0xa0, OWN, 7));
            let mut next = make_station::station(&[(1, hops), (30, stations)]);
            assert_eq!(calls::read_frame(&mut next, &frame), 0);
            frame = next.write_frame();
        }
        let last = [0x02, 0, 0, 0, 0, (stations - 1) as u8];
        assert_eq!(frame, fairness(255, 0xa0, last, 65_535));
        assert_eq!(calls::read_frame(&mut first, &frame), 0);
        assert!(!first.downstream_congested);
    }
}

/// A frame told on a larger ring may come from too far for a smaller one.
#[test]
fn the_same_number_of_stations_is_needed() {
    let frame = congested(7, 5, 9).write_frame();
    assert_eq!(frame[0], 250);
    for (stations, expected) in [(5, 13), (6, 13), (7, 0), (63, 0)] {
        let reader = make_station::station(&[(1, 7), (30, stations)]);
        assert_eq!(heard(&reader, frame), expected);
    }
}

/// "A faulty card told a ring of six that congestion stood forty hops away, and for a day no
/// frame counted as congested."
#[test]
fn the_night_on_a_ring_of_six() {
    let mut station = congested(6, 3, 5);
    calls::age(&mut station);
    assert_eq!(station.allowed_rate_congested, 40);
    let before = station.clone();
    for rate in [0, 1, 65_534, 65_535] {
        for address in [OTHER, OWN, [9; 6]] {
            let frame = fairness(216, 0xa0, address, rate);
            assert_eq!(calls::read_frame(&mut station, &frame), 13);
            assert_eq!(station, before);
        }
    }
    let offer = |size: u64, hops: u64| calls::offer_client(&mut station.clone(), 2, size, hops);
    assert_eq!([offer(41, 3), offer(40, 4)], [1 << 32; 2]);
    assert_eq!([offer(41, 4), offer(41, 5), offer(41, 6)], [7, 7, 13]);
    for (hops, twin) in [(3, 0), (4, 20), (5, 20)] {
        let mut station = station.clone();
        assert_eq!(calls::offer_client(&mut station, 2, 20, hops), 1 << 32);
        assert_ne!(calls::select(&mut station), 0);
        assert_eq!(calls::offer_transit(&mut station, 1, 20, hops, 1), 0);
        assert_ne!(calls::select(&mut station), 0);
        assert_eq!(station.counters.list(), [20, 20, twin, twin]);
    }
    assert_eq!(station.write_frame(), fairness(252, 0xa0, OTHER, 5));
}

/// Whatever calls are made: no frame held has as many hops as there are stations, no ttl comes
/// from that far, and none is told.
#[test]
fn calls_alone_hold_no_hops_beyond_the_ring() {
    let mut random = Random::new(12);
    let mut refused = 0;
    for _ in 0..250 {
        let words = make_station::settings(&mut random);
        let mut station = None;
        assert_eq!(calls::start(&to_bytes(&words), &mut station), 0);
        let mut station = station.unwrap();
        let stations = station.settings.stations;
        let habit = Habit::new(&mut random);
        for _ in 0..400 {
            let call = make_call::call(&mut random, &station, &habit);
            let (answer, _) = call.apply(&mut station, &call.other_slice(0));
            refused += u32::from(answer == 13);
            assert!(held(&station).all(|frame| (1..stations).contains(&frame.hops)));
            assert!((1..stations).contains(&station.received.hops()));
            let told = 256 - u64::from(station.write_frame()[0]);
            assert!((1..stations).contains(&told));
        }
    }
    assert!(refused > 1_000, "{refused}");
}

fn held(station: &Station) -> impl Iterator<Item = Frame> {
    let queues = [&station.control, &station.primary, &station.secondary];
    let slots = queues.map(|queue| queue.slots());
    slots.into_iter().flatten().flatten().chain(station.stage)
}

/// "where document 01 accepted up to 63": on the largest ring 63 hops are one too many.
#[test]
fn the_largest_ring_has_62_hops() {
    let station = on_ring(63);
    assert_eq!(heard(&station, fairness(193, 0xa0, OTHER, 5)), 13);
    assert_eq!(congested(63, 62, 5).write_frame()[..2], [255, 0xa0]);
    assert_eq!(congested(63, 61, 5).write_frame()[..2], [194, 0xa0]);
}

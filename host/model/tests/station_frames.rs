//! Offers, queues and selection.

use model::make_station::station;
use model::random::Random;
use model::station::{calls, Station, MOST_RATE};

/// An answer of rpr_select.
fn frame(origin: u64, class: u64, hops: u64, eligible: u64, size: u64) -> u64 {
    origin << 8 | class << 16 | hops << 24 | eligible << 32 | size << 48
}

const ELIGIBLE: u64 = 1 << 32;

/// Refused with 6, one byte short.
const SHORT: u64 = 6 | 1 << 32;

/// Ticked until every shaper that can be waited for is full.
fn full(changes: &[(usize, u32)]) -> Station {
    let mut station = station(changes);
    for _ in 0..10 {
        calls::tick(&mut station, 1, 1, 1);
    }
    station
}

fn refused(station: &Station, call: impl FnOnce(&mut Station) -> u64) -> u64 {
    let mut lent = station.clone();
    let answer = call(&mut lent);
    assert_eq!(&lent, station);
    answer
}

/// "Client A needs and charges A."
#[test]
fn client_a() {
    let fresh = station(&[]);
    assert_eq!(
        refused(&fresh, |lent| calls::offer_client(lent, 0, 64, 1)),
        SHORT
    );
    let mut lent = full(&[]);
    assert_eq!(calls::offer_client(&mut lent, 0, 64, 62), 0);
    assert_eq!(lent.reading()[..5], [100, 236, 300, 300, 300]);
    assert_eq!(lent.reading()[11..13], [1, 64]);
    assert_eq!(
        refused(&lent, |lent| calls::offer_client(lent, 0, 64, 1)),
        5
    );
    assert_eq!(calls::select(&mut lent), frame(4, 0, 62, 0, 64));
    assert_eq!(lent.reading()[13..17], [0; 4]);
}

/// "Client B needs and charges B and D; failing that it is tried as excess. Excess B and
/// C need C and D, charge both, and are marked eligible."
#[test]
fn client_b_and_c() {
    let mut lent = full(&[]);
    assert_eq!(calls::offer_client(&mut lent, 1, 60, 5), 0);
    assert_eq!(lent.reading()[..5], [100, 300, 240, 300, 240]);
    let mut lent = full(&[(12, 0)]);
    assert_eq!(calls::offer_client(&mut lent, 1, 60, 5), ELIGIBLE);
    assert_eq!(lent.reading()[..5], [100, 300, 100, 240, 240]);
    assert_eq!(calls::select(&mut lent), frame(4, 1, 5, 1, 60));
    assert_eq!(lent.reading()[13..17], [60, 0, 0, 0]);
    let mut lent = full(&[]);
    assert_eq!(calls::offer_client(&mut lent, 2, 60, 5), ELIGIBLE);
    assert_eq!(lent.reading()[..5], [100, 300, 300, 240, 240]);
}

/// "6 | a needed shaper doesn't permit": each one that is needed.
#[test]
fn shapers_that_do_not_permit() {
    for (class, still, expected) in [
        (0, vec![9], SHORT),
        (0, vec![12, 15, 18], 0),
        (1, vec![12], ELIGIBLE),
        (1, vec![15], 0),
        (1, vec![18], SHORT),
        (1, vec![12, 15], SHORT),
        (1, vec![9], 0),
        (2, vec![15], SHORT),
        (2, vec![18], SHORT),
        (2, vec![9, 12], ELIGIBLE),
    ] {
        let changes: Vec<(usize, u32)> = still.iter().map(|at| (*at, 0)).collect();
        let mut lent = full(&changes);
        let before = lent.clone();
        let answer = calls::offer_client(&mut lent, class, 64, 1);
        assert_eq!(answer, expected, "class {class}, no amount in {still:?}");
        assert_eq!(lent == before, answer == SHORT);
    }
}

/// "permitted exactly when credit > loLimit"
#[test]
fn a_credit_of_one_more_than_the_limit_permits() {
    let mut lent = station(&[(9, 1)]);
    assert_eq!(calls::offer_client(&mut lent, 0, 64, 1), SHORT);
    calls::tick(&mut lent, 1, 0, 0);
    assert_eq!(calls::offer_client(&mut lent, 0, 64, 1), 0);
    assert_eq!(lent.a.credit, 37);
}

/// "4 | a frame's size exceeds the queue's space", by bytes.
#[test]
fn queues_full_by_bytes() {
    let mut lent = station(&[(19, 100), (20, 100), (21, 130)]);
    for (offers, at) in [(1, 5), (1, 7), (2, 9)] {
        let offer = |lent: &mut Station, size: u64| match at {
            5 => calls::offer_control(lent, size),
            7 => calls::offer_transit(lent, 0, size, 1, 0),
            _ => calls::offer_transit(lent, 2, size, 1, 0),
        };
        for _ in 0..offers {
            assert_eq!(offer(&mut lent, 50), 0);
        }
        let left = lent.reading()[at + 1];
        let space = if at == 9 { 130 } else { 100 } - left;
        assert_eq!(refused(&lent, |lent| offer(lent, space + 1)), 4);
        assert_eq!(offer(&mut lent, space), 0);
        assert_eq!(refused(&lent, |lent| offer(lent, 16)), 4);
        assert_eq!(refused(&lent, |lent| offer(lent, 15)), 3);
    }
    assert_eq!(lent.reading()[5..11], [2, 100, 2, 100, 3, 130]);
}

/// "space is [...] 0 with 128 frames held"; "freed room is used again", "first in, first
/// out".
#[test]
fn queues_of_128_frames() {
    let large = [(19, 9_000), (20, 9_000), (21, 9_000)];
    let mut lent = station(&large);
    for at in 0..128 {
        assert_eq!(
            calls::offer_transit(&mut lent, 0, 16 + at % 40, 1 + at % 62, 0),
            0
        );
        assert_eq!(calls::offer_control(&mut lent, 16), 0);
    }
    assert_eq!(
        refused(&lent, |lent| calls::offer_transit(lent, 0, 16, 1, 0)),
        4
    );
    assert_eq!(refused(&lent, |lent| calls::offer_control(lent, 16)), 4);
    assert!(lent.primary.bytes() < 9_000 - 64);
    for at in 0..300 {
        let sent = frame(2, 0, 1 + at % 128 % 62, 0, 16 + at % 128 % 40);
        assert_eq!(calls::select(&mut lent), sent);
        let (size, hops) = (16 + at % 128 % 40, 1 + at % 128 % 62);
        assert_eq!(calls::offer_transit(&mut lent, 0, size, hops, 0), 0);
        assert_eq!(lent.primary.frames(), 128);
    }
}

/// "secondary, if mtu > its space": 128 small frames leave no space.
#[test]
fn a_secondary_queue_of_128_frames_goes_before_the_stage() {
    let mut lent = full(&[(21, 9_000)]);
    calls::offer_client(&mut lent, 0, 64, 1);
    for _ in 0..127 {
        calls::offer_transit(&mut lent, 1, 16, 2, 0);
    }
    assert_eq!(calls::select(&mut lent.clone()), frame(4, 0, 1, 0, 64));
    calls::offer_transit(&mut lent, 1, 16, 2, 0);
    let credit = lent.d.credit;
    assert_eq!(calls::select(&mut lent), frame(3, 1, 2, 0, 16));
    assert_eq!((lent.d.credit, lent.secondary.frames()), (credit, 127));
    assert_eq!(calls::select(&mut lent), frame(4, 0, 1, 0, 64));
}

/// "secondary, if mtu > its space": a space of the mtu itself isn't too little.
#[test]
fn a_secondary_queue_with_space_for_a_frame_waits() {
    let mut lent = station(&[(21, 128)]);
    calls::offer_transit(&mut lent, 1, 64, 2, 0);
    assert_eq!(lent.secondary.space(), lent.settings.mtu);
    assert_eq!(refused(&lent, calls::select), 0);
    calls::offer_transit(&mut lent, 1, 16, 3, 0);
    assert_eq!(calls::select(&mut lent), frame(3, 1, 2, 0, 64));
    assert_eq!(lent.d.credit, 100);
}

/// The rows of selection from the first to the last, each once it holds.
#[test]
fn the_rows_of_selection() {
    let mut lent = full(&[]);
    calls::offer_control(&mut lent, 20);
    calls::offer_transit(&mut lent, 0, 21, 2, 0);
    calls::offer_client(&mut lent, 2, 22, 3);
    for hops in 4..=7 {
        calls::offer_transit(&mut lent, 2, 50, hops, 1);
    }
    calls::tick(&mut lent, 0, 0, 0);
    assert_eq!(lent.m.credit, 150);
    let before = lent.reading();
    assert_eq!(calls::select(&mut lent), frame(1, 0, 1, 0, 20));
    assert_eq!(lent.m.credit, 130);
    assert_eq!(calls::select(&mut lent), frame(2, 0, 2, 0, 21));
    assert_eq!(lent.secondary.space(), 56);
    assert_eq!(calls::select(&mut lent), frame(3, 2, 4, 1, 50));
    assert_eq!(lent.d.credit, before[4]);
    assert_eq!(calls::select(&mut lent), frame(4, 2, 3, 1, 22));
    assert_eq!(lent.d.credit, before[4]);
    assert_eq!(calls::select(&mut lent), frame(3, 2, 5, 1, 50));
    assert_eq!(lent.d.credit, before[4] - 50);
    assert_eq!(lent.reading()[13..17], [22, 100, 0, 0]);
    calls::tick(&mut lent, 0, 0, 0);
    while calls::select(&mut lent) != 0 {}
    assert_eq!(lent.secondary.frames(), 0);
    assert_eq!(refused(&lent, calls::select), 0);
}

/// "secondary, if D permits"
#[test]
fn a_secondary_frame_waits_for_d() {
    let mut lent = station(&[]);
    calls::offer_transit(&mut lent, 1, 64, 9, 0);
    assert_eq!(refused(&lent, calls::select), 0);
    calls::tick(&mut lent, 0, 0, 0);
    assert_eq!(calls::select(&mut lent), frame(3, 1, 9, 0, 64));
    assert_eq!((lent.d.credit, lent.counters.fw), (86, 0));
}

/// "control, if its head's size fits the space of both transit queues and M permits"
#[test]
fn a_control_frame_needs_space_in_both_transit_queues() {
    for (class, capacity) in [(0, 20), (1, 21)] {
        let mut lent = station(&[(capacity, 128)]);
        calls::offer_control(&mut lent, 40);
        assert_eq!(refused(&lent, calls::select), 0);
        calls::tick(&mut lent, 0, 0, 0);
        for size in [64, 24] {
            calls::offer_transit(&mut lent, class, size, 1, 0);
        }
        assert_eq!(calls::select(&mut lent.clone()), frame(1, 0, 1, 0, 40));
        let mut tight = lent.clone();
        assert_eq!(calls::offer_transit(&mut tight, class, 16, 1, 0), 0);
        let origin = if class == 0 { 2 } else { 3 };
        assert_eq!(calls::select(&mut tight), frame(origin, class, 1, 0, 64));
        assert_eq!(calls::select(&mut tight), frame(1, 0, 1, 0, 40));
    }
}

/// "Counters stop at 2,147,483,647."
#[test]
fn counters_stop() {
    let mut lent = full(&[]);
    calls::read_frame(&mut lent, &[255, 0xa0, 0, 0, 0, 0, 0, 9, 0, 0, 0, 9]);
    lent.counters.add = MOST_RATE - 20;
    lent.counters.fw = MOST_RATE - 63;
    lent.counters.fw_congested = MOST_RATE - 64;
    assert_eq!(calls::offer_client(&mut lent, 2, 21, 2), ELIGIBLE);
    lent.counters.add_congested = MOST_RATE;
    calls::offer_transit(&mut lent, 1, 64, 2, 1);
    calls::select(&mut lent);
    calls::select(&mut lent);
    assert_eq!(lent.counters.list(), [MOST_RATE; 4]);
    calls::age(&mut lent);
    assert_eq!(lent.counters.list(), [1_610_612_735; 4]);
}

/// The sizes of what went in and hasn't come out are what the queues hold.
#[test]
fn queues_hold_what_went_in() {
    let mut random = Random::new(5);
    let mut lent = full(&[(20, 700), (21, 900)]);
    let mut inside = 0;
    for _ in 0..20_000 {
        let size = 16 + random.below(49) as u64;
        match random.below(4) {
            0 => drop(calls::tick(&mut lent, 0, 0, 1)),
            1 => inside -= calls::select(&mut lent) >> 48,
            _ => {
                let class = random.below(3) as u64;
                if calls::offer_transit(&mut lent, class, size, 1, 0) == 0 {
                    inside += size;
                }
            }
        }
        assert_eq!(lent.primary.bytes() + lent.secondary.bytes(), inside);
        assert!(lent.secondary.bytes() <= 900 && lent.primary.bytes() <= 700);
    }
}

//! P7 to P9, aging, congestion both ways, advertising and fairness frames.

use model::make_station::station;
use model::station::aging::{aged, own_rate, ramped, shown, smooth};
use model::station::{calls, Station};

/// The address of the plain station.
const OWN: [u8; 6] = [0x02, 0x00, 0x5e, 0x00, 0x00, 0x01];
const OTHER: [u8; 6] = [0x02, 0x00, 0x5e, 0x00, 0x00, 0x02];

fn fairness(ttl: u8, base: u8, address: [u8; 6], rate: u16) -> [u8; 12] {
    let [a, b, c, d, e, f] = address;
    let [high, low] = rate.to_be_bytes();
    [ttl, base, a, b, c, d, e, f, 0, 0, high, low]
}

fn hear(station: &mut Station, ttl: u8, rate: u16) {
    let frame = fairness(ttl, 0xa0, OTHER, rate);
    assert_eq!(calls::read_frame(station, &frame), 0);
}

fn refused(station: &Station, frame: &[u8]) -> u64 {
    let mut lent = station.clone();
    let answer = calls::read_frame(&mut lent, frame);
    assert_eq!(&lent, station);
    answer
}

fn told(station: &Station) -> [u8; 12] {
    station.write_frame()
}

/// 150 bytes in the secondary queue, over the threshold of 128.
fn congest(station: &mut Station) {
    for _ in 0..3 {
        assert_eq!(calls::offer_transit(station, 1, 50, 1, 0), 0);
    }
}

/// "P7 is replaced: s 2,368 and rate 100 give s 2,431, shown 37, and at the next interval
/// s 2,494, shown 38."
#[test]
fn p7() {
    assert_eq!(smooth(2_368, 100, 64), 2_431);
    assert_eq!(smooth(2_431, 100, 64), 2_494);
    assert_eq!([2_368, 2_431, 2_494].map(|s| shown(s, 64)), [37, 37, 38]);
    let mut lent = station(&[]);
    lent.stored.fw = 2_368;
    for (stored, shown) in [(2_431, 37), (2_494, 38)] {
        lent.counters.fw = 100;
        calls::age(&mut lent);
        assert_eq!(lent.stored.list(), [0, stored, 0, 0]);
        assert_eq!(lent.reading()[17..21], [0, shown, 0, 0]);
    }
}

/// "localFairRate: lpAddRate if locally congested": the new one, as it is shown.
#[test]
fn the_local_fair_rate_is_the_new_rate_shown() {
    let mut lent = station(&[(23, 1), (24, 1)]);
    congest(&mut lent);
    lent.stored.add = 2_431;
    lent.counters.add = 100;
    calls::age(&mut lent);
    assert_eq!(lent.stored.add, 2_494);
    assert_eq!(lent.reading()[21..26], [38, 38, 10_000, 38, 1]);
    // Smoothing used the counter before it aged.
    assert_eq!(lent.counters.add, 75);
}

/// "P8 counter 6,400, ageCoef 4: 4,800."
#[test]
fn p8() {
    assert_eq!(aged(6_400, 4), 4_800);
    let mut lent = station(&[]);
    lent.counters.add_congested = 6_400;
    calls::age(&mut lent);
    assert_eq!(lent.counters.list(), [0, 0, 4_800, 0]);
    assert_eq!(lent.stored.list(), [0, 0, 6_400, 0]);
    assert_eq!(lent.shown().list(), [0, 0, 100, 0]);
}

/// "P9 local 1,000, weight 2, unit 4: own 125."
#[test]
fn p9() {
    assert_eq!(own_rate(1_000, 2, 4), 125);
    let mut lent = station(&[]);
    congest(&mut lent);
    lent.counters.add = 64_000;
    calls::age(&mut lent);
    assert_eq!((lent.local_fair_rate, lent.own_rate), (1_000, 125));
}

#[test]
fn the_formulas_at_their_ends() {
    assert_eq!(aged(2_147_483_647, 1), 0);
    assert_eq!(aged(2_147_483_647, 16), 2_013_265_919);
    let most = 512 * 2_147_483_648 - 1;
    assert_eq!(smooth(most, 2_147_483_647, 512), most);
    assert_eq!(smooth(most, 0, 512), most - 2_147_483_647);
    assert_eq!(smooth(0, 2_147_483_647, 512), 2_147_483_647);
    assert_eq!(shown(most, 512), 2_147_483_647);
    assert_eq!([0, 15, 16].map(|stored| shown(stored, 16)), [0, 0, 1]);
    assert_eq!(own_rate(2_147_483_647, 1, 1), 65_534);
    assert_eq!(own_rate(65_535, 1, 1), 65_534);
    assert_eq!(own_rate(65_534, 1, 1), 65_534);
    assert_eq!(own_rate(7, 2, 4), 0);
    assert_eq!(ramped(10_000, 10_000, 64), 10_000);
    assert_eq!(ramped(9_937, 10_000, 64), 9_937);
    assert_eq!(ramped(9_936, 10_000, 64), 9_937);
}

/// "Locally congested: secondary bytes > low threshold."
#[test]
fn local_congestion_on_and_off() {
    let mut lent = station(&[]);
    lent.counters.add = 128_000;
    for size in [64, 64] {
        calls::offer_transit(&mut lent, 2, size, 1, 0);
    }
    calls::age(&mut lent);
    assert!(!lent.locally_congested);
    assert_eq!((lent.shown().add, lent.counters.add), (2_000, 96_000));
    calls::offer_transit(&mut lent, 2, 16, 1, 0);
    assert!(!lent.locally_congested);
    calls::age(&mut lent);
    assert!(lent.locally_congested);
    let lp = (128_000 - 2_000 + 96_000) / 64;
    assert_eq!(lent.reading()[21..25], [lp, lp, 10_000, lp / 8]);
    // "Local congestion and own rate hold till the next interval."
    calls::tick(&mut lent, 0, 0, 0);
    assert_ne!(calls::select(&mut lent), 0);
    assert!(lent.secondary.bytes() <= 128 && lent.locally_congested);
    calls::age(&mut lent);
    assert!(!lent.locally_congested);
    let ramped = lp + (10_000 - lp) / 64;
    assert_eq!(lent.reading()[21..25], [10_000, ramped, 10_000, 1_250]);
}

/// "the smaller of localFairRate and unreservedRate if locally congested"
#[test]
fn the_allowed_rate_is_at_most_the_unreserved_rate() {
    let mut lent = station(&[]);
    congest(&mut lent);
    lent.stored.add = 64 * 50_000;
    calls::age(&mut lent);
    let lp = (64 * 50_000 - 50_000) / 64;
    assert_eq!(lent.reading()[21..25], [lp, 10_000, 10_000, lp / 8]);
}

/// "A rate of 65,535 clears downstream congestion, others set it."
#[test]
fn downstream_congestion_on_and_off() {
    let mut lent = station(&[]);
    hear(&mut lent, 250, 100);
    assert_eq!(lent.reading()[25..], [0, 1, 250, 0x0200, 0x5e00_0002, 100]);
    assert_eq!(lent.allowed_rate_congested, 10_000);
    calls::age(&mut lent);
    assert_eq!(lent.allowed_rate_congested, 800);
    hear(&mut lent, 255, 65_534);
    calls::age(&mut lent);
    assert_eq!(lent.allowed_rate_congested, 10_000);
    hear(&mut lent, 194, 0);
    calls::age(&mut lent);
    assert_eq!(lent.allowed_rate_congested, 0);
    hear(&mut lent, 200, 65_535);
    // "a frame that clears downstream congestion sets these three so too."
    assert_eq!(lent.reading()[25..], [0, 0, 255, 0, 0, 0]);
    calls::age(&mut lent);
    assert_eq!(lent.allowed_rate_congested, 156);
    calls::age(&mut lent);
    assert_eq!(lent.allowed_rate_congested, 156 + (10_000 - 156) / 64);
    assert_eq!(lent.allowed_rate, 10_000);
}

/// "gets 7 when addRateCongested + size > allowedRateCongested", "with hops >
/// hopsToCongestion"; "hopsToCongestion = 256 − ttl".
#[test]
fn the_congested_fair_rate() {
    let mut lent = station(&[]);
    for _ in 0..10 {
        calls::tick(&mut lent, 1, 1, 1);
    }
    hear(&mut lent, 253, 5);
    calls::age(&mut lent);
    assert_eq!(lent.allowed_rate_congested, 40);
    let offer = |size: u64, hops: u64| calls::offer_client(&mut lent.clone(), 2, size, hops);
    assert_eq!(offer(40, 4), 1 << 32);
    assert_eq!(offer(41, 4), 7);
    assert_eq!(offer(41, 3), 1 << 32);
    // A frame within B's own share isn't eligible, one in excess is.
    assert_eq!(calls::offer_client(&mut lent.clone(), 1, 64, 62), 0);
    let mut drained = lent.clone();
    drained.b.credit = 100;
    assert_eq!(calls::offer_client(&mut drained, 1, 64, 62), 7);
    assert_eq!(calls::offer_client(&mut lent.clone(), 0, 64, 62), 0);
    // "the order is [...] 5, 6, 7": a shaper that doesn't permit counts first.
    drained.d.credit = 100;
    assert_eq!(calls::offer_client(&mut drained, 1, 64, 62), 6 | 1 << 32);
    let before = lent.clone();
    assert_eq!(calls::offer_client(&mut lent, 2, 64, 62), 7);
    assert_eq!(lent, before);
    hear(&mut lent, 253, 65_535);
    assert_eq!(calls::offer_client(&mut lent, 2, 64, 62), 1 << 32);
}

/// "also to the Congested twin if downstream congested and hops > hopsToCongestion"
#[test]
fn the_congested_counters() {
    let mut lent = station(&[(15, 50), (18, 100)]);
    for _ in 0..10 {
        calls::tick(&mut lent, 1, 1, 1);
    }
    hear(&mut lent, 253, 65_534);
    for (hops, twin) in [(3, 0), (4, 20)] {
        let before = lent.counters;
        assert_eq!(calls::offer_client(&mut lent, 2, 20, hops), 1 << 32);
        assert_ne!(calls::select(&mut lent), 0);
        calls::offer_transit(&mut lent, 1, 20, hops, 1);
        assert_ne!(calls::select(&mut lent), 0);
        let grown = |at: usize| lent.counters.list()[at] - before.list()[at];
        assert_eq!([0, 1, 2, 3].map(grown), [20, 20, twin, twin]);
    }
    let before = lent.counters;
    calls::offer_transit(&mut lent, 1, 20, 62, 0);
    assert_ne!(calls::select(&mut lent), 0);
    assert_eq!(lent.counters, before);
}

/// Every way of advertising.
#[test]
fn advertising() {
    let mut lent = station(&[]);
    let full = fairness(255, 0xa0, OWN, 65_535);
    // "FULL_RATE [...] when not congested either way"
    assert_eq!(told(&lent), full);
    // Only downstream: "the received rate, its address, ttl less 1"
    hear(&mut lent, 200, 77);
    assert_eq!(told(&lent), fairness(199, 0xa0, OTHER, 77));
    hear(&mut lent, 195, 0);
    assert_eq!(told(&lent), fairness(194, 0xa0, OTHER, 0));
    // "FULL_RATE, where it said ttl 193, when the received hops are the number of stations less
    // 1": 62 of 63.
    hear(&mut lent, 194, 77);
    assert_eq!(told(&lent), full);
    hear(&mut lent, 194, 65_535);
    assert_eq!(told(&lent), full);
    // "own rate when only locally congested"
    congest(&mut lent);
    lent.counters.add = 64_000;
    calls::age(&mut lent);
    let own = fairness(255, 0xa0, OWN, 125);
    assert_eq!(told(&lent), own);
    // "or both and own ≤ received; else the received rate"
    for rate in [125, 126, 65_534] {
        for ttl in [194, 200, 255] {
            hear(&mut lent, ttl, rate);
            assert_eq!(told(&lent), own);
        }
    }
    hear(&mut lent, 255, 124);
    assert_eq!(told(&lent), fairness(254, 0xa0, OTHER, 124));
    hear(&mut lent, 194, 124);
    assert_eq!(told(&lent), full);
}

/// "Another length, type, header kind or a ringlet bit equal to the station's own: 2.
/// ttl 193 to 255, else 3." From 63 hops away it is 13 on a ring of 63.
#[test]
fn frames_that_are_refused() {
    let lent = station(&[]);
    let good = fairness(255, 0xa0, OTHER, 5);
    for length in 0..12 {
        assert_eq!(refused(&lent, &good[..length]), 2);
    }
    assert_eq!(refused(&lent, &[&good[..], &[0]].concat()), 2);
    for base in [0x80, 0x90, 0xb0, 0x20, 0x60, 0x2f] {
        assert_eq!(refused(&lent, &fairness(255, base, OTHER, 5)), 2);
    }
    for bit in 5..8 {
        let mut frame = fairness(0, 0xa0, OWN, 5);
        frame[8] = 1 << bit;
        assert_eq!(refused(&lent, &frame), 2);
    }
    for ttl in [0, 1, 128, 192] {
        assert_eq!(refused(&lent, &fairness(ttl, 0xa0, OTHER, 5)), 3);
        assert_eq!(refused(&lent, &fairness(ttl, 0xa0, OWN, 5)), 3);
        assert_eq!(refused(&lent, &fairness(ttl, 0x20, OWN, 5)), 2);
    }
    for rate in [0, 5, 65_534, 65_535] {
        assert_eq!(refused(&lent, &fairness(193, 0xa0, OWN, rate)), 13);
        assert_eq!(refused(&lent, &fairness(194, 0xa0, OWN, rate)), 11);
    }
}

/// "Other bits are written 0 and not looked at."
#[test]
fn other_bits_are_not_looked_at() {
    let mut plain = station(&[]);
    let mut other = station(&[]);
    hear(&mut plain, 222, 0x1234);
    let mut frame = fairness(222, 0xef, OTHER, 0x1234);
    frame[8..10].copy_from_slice(&[0x1f, 0xff]);
    assert_eq!(calls::read_frame(&mut other, &frame), 0);
    assert_eq!(plain, other);
}

/// "A written frame bears the other ringlet's bit." "Reading a written frame, with the
/// same settings but an address it doesn't bear, gives back its ringlet bit, ttl,
/// address and rate."
#[test]
fn a_written_frame_reads_back() {
    for ringlet in [0, 1] {
        let mut writer = station(&[(2, ringlet)]);
        congest(&mut writer);
        writer.counters.add = 64_000;
        calls::age(&mut writer);
        let frame = told(&writer);
        assert_eq!(u32::from(frame[1] >> 7), 1 - ringlet);
        let mut reader = station(&[(2, ringlet), (1, 7)]);
        assert_eq!(calls::read_frame(&mut reader, &frame), 0);
        assert_eq!(reader.reading()[26..], [1, 255, 0x0200, 0x5e00_0001, 125]);
        assert_eq!(refused(&writer, &frame), 11);
        assert_eq!(refused(&station(&[(2, 1 - ringlet)]), &frame), 2);
        assert_eq!(told(&reader)[..2], [254, frame[1]]);
    }
}

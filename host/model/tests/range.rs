//! Which bytes hold a station in range: each bound, and just past it.

use model::make_station;
use model::station::layout::{
    put_word, read, word, write, ALLOWED, COUNT, HEAD, HELD, QUEUES, QUEUE_NAMES, SETTINGS, STAGE,
};
use model::station::range::{bounds, every_fault, faults, in_range};
use model::station::settings::{LP_COEFS, NAMES};
use model::station::{calls, Station};

/// mtu 100, control and primary queue 3,000 bytes, secondary 4,000, other frames held.
fn busy() -> Vec<u8> {
    let settings = [(3, 100), (19, 3_000), (20, 3_000), (21, 4_000)];
    let mut station: Station = make_station::station(&settings);
    for size in [16, 50, 100] {
        assert_eq!(calls::offer_control(&mut station, size), 0);
        assert_eq!(calls::offer_transit(&mut station, 0, size, 62, 0), 0);
        assert_eq!(calls::offer_transit(&mut station, 1, size, 1, 1), 0);
    }
    calls::tick(&mut station, 1, 1, 1);
    assert_eq!(calls::offer_client(&mut station, 1, 100, 62), 0);
    write(&station)
}

/// The faults with this word in that place.
fn with(bytes: &[u8], at: usize, value: u64) -> Vec<String> {
    let mut bytes = bytes.to_vec();
    put_word(&mut bytes, at, value);
    faults(&bytes)
}

fn with_byte(bytes: &[u8], at: usize, value: u8) -> Vec<String> {
    let mut bytes = bytes.to_vec();
    bytes[at] = value;
    faults(&bytes)
}

fn none() -> Vec<String> {
    Vec::new()
}

#[test]
fn a_busy_station_is_in_range() {
    assert!(in_range(&busy()));
}

/// "credits are 0 to hiLimit, own and received rates at most 65,534, other rates at most
/// 2,147,483,647, allowed rates at most unreservedRate and a received ttl 193 to 255". From the
/// last of 63 stations it is 194.
#[test]
fn each_number_of_the_state() {
    const MOST: u64 = 2_147_483_647;
    let mut ends = vec![(0, 300); 5];
    ends.extend([(0, MOST); 4]);
    ends.extend([(0, 64 * (MOST + 1) - 1); 4]);
    ends.extend([(0, MOST), (0, 10_000), (0, 10_000), (0, 65_534)]);
    ends.extend([(0, 1), (0, 2), (0, 1), (194, 255), (0, 65_535)]);
    ends.extend([(0, 0xffff_ffff), (0, 65_534)]);
    let bytes = busy();
    let bounds = bounds(&bytes);
    assert_eq!(bounds.len(), ends.len());
    for (bound, (least, most)) in bounds.iter().zip(ends) {
        let with = |value: u64| {
            let mut bytes = bytes.clone();
            bound.put(&mut bytes, value);
            faults(&bytes)
        };
        assert_eq!(with(least), none(), "{} {least}", bound.name);
        assert_eq!(with(most), none(), "{} {most}", bound.name);
        let side = |side: &str| match least {
            0 => bound.name.to_string(),
            _ => format!("{} {side}", bound.name),
        };
        if least > 0 {
            assert_eq!(with(least - 1), [side("below")]);
        }
        let bits = 8 * bound.place.len();
        let largest = u64::MAX >> (64 - bits);
        for past in [most + 1, largest, 1 << (bits - 1)] {
            if past > most && past <= largest {
                assert_eq!(with(past), [side("above")], "{past}");
            }
        }
    }
}

#[test]
fn the_places_of_the_numbers() {
    let places = bounds(&busy()).map(|bound| (bound.name, bound.place));
    assert_eq!(places[..2], [("creditM", 0..4), ("creditA", 4..8)]);
    assert_eq!(places[5], ("addRate", 1_578..1_582));
    assert_eq!(places[9], ("lpAddRate", 1_594..1_602));
    assert_eq!(places[12], ("lpFwRateCongested", 1_618..1_626));
    assert_eq!(places[14], ("allowedRate", 1_630..1_634));
    assert_eq!(places[15], ("allowedRateCongested", 1_634..1_638));
    assert_eq!(places[18], ("since", 1_646..1_650));
    assert_eq!(places[20], ("receivedTtl", 1_654..1_658));
    assert_eq!(places[23], ("receivedRate", 1_666..1_670));
}

/// "A lent station's range binds the rate shown, not s itself": with each lpCoef the largest
/// stored number in range shows 2,147,483,647, and the next one more.
#[test]
fn each_stored_number_with_each_lp_coef() {
    for lp_coef in LP_COEFS {
        let bytes = changed(&busy(), 28, lp_coef);
        let first_out = lp_coef * 2_147_483_648;
        for (at, bound) in bounds(&bytes)[9..13].iter().enumerate() {
            let with = |stored: u64| {
                let mut bytes = bytes.clone();
                bound.put(&mut bytes, stored);
                bytes
            };
            for below in [1, 2, lp_coef, lp_coef + 1, first_out] {
                let bytes = with(first_out - below);
                assert_eq!(faults(&bytes), none());
                let shown = read(&bytes).unwrap().reading()[17 + at];
                assert_eq!(shown, (first_out - below) / lp_coef);
            }
            for past in [0, 1, lp_coef, first_out, u64::MAX - first_out] {
                assert_eq!(faults(&with(first_out + past)), [bound.name]);
            }
        }
    }
}

/// The same stored number with another lpCoef.
#[test]
fn an_lp_coef_that_a_stored_number_no_longer_fits() {
    let mut bytes = busy();
    let bound = &bounds(&bytes)[10];
    bound.put(&mut bytes, 64 * 2_147_483_648 - 1);
    for lp_coef in LP_COEFS {
        let expected = match lp_coef < 64 {
            true => vec!["lpFwRate"],
            false => vec![],
        };
        assert_eq!(faults(&changed(&bytes, 28, lp_coef)), expected);
    }
}

/// Size, hops, class, mark and the bits beyond. "frame size 16 to mtu; hops 1 to 63;
/// class A, B or C; only B and C may be marked fairness eligible." A ring of 63 has 62 hops.
const GOOD: [[u64; 5]; 8] = [
    [16, 62, 1, 0, 0],
    [100, 62, 1, 0, 0],
    [50, 1, 1, 0, 0],
    [50, 62, 2, 0, 0],
    [50, 2, 0, 0, 0],
    [50, 2, 1, 1, 0],
    [50, 2, 2, 1, 0],
    [50, 2, 2, 0, 0],
];
const BAD: [([u64; 5], &str); 12] = [
    ([15, 62, 1, 0, 0], "size"),
    ([0, 62, 1, 0, 0], "size"),
    ([101, 62, 1, 0, 0], "size"),
    ([0x3fff, 62, 1, 0, 0], "size"),
    ([50, 0, 1, 0, 0], "hops below"),
    ([50, 63, 1, 0, 0], "hops above"),
    ([50, 2, 0, 1, 0], "mark"),
    ([50, 2, 3, 0, 0], "class"),
    ([50, 2, 3, 1, 0], "class"),
    ([50, 2, 1, 0, 1], "high bits"),
    ([50, 2, 1, 0, 256], "high bits"),
    ([50, 2, 2, 1, 8], "high bits"),
];

fn slot([size, hops, class, mark, rest]: [u64; 5]) -> u64 {
    size | hops << 14 | class << 20 | mark << 22 | rest << 23
}

#[test]
fn frames_in_the_stage() {
    let bytes = busy();
    for frame in GOOD {
        assert_eq!(with(&bytes, STAGE, slot(frame)), none(), "{frame:?}");
    }
    for (frame, fault) in BAD {
        let fault = format!("stage {fault}");
        assert_eq!(with(&bytes, STAGE, slot(frame)), [fault], "{frame:?}");
    }
    assert_eq!(with(&bytes, STAGE, 0), none());
}

/// A frame in any queue and slot; the bytes held are those of the sizes.
#[test]
fn frames_in_the_queues() {
    for (queue, name) in QUEUES.into_iter().zip(QUEUE_NAMES) {
        for at in [0, 1, 2].map(|slot| queue + 4 * slot) {
            let faults_of = |frame: [u64; 5]| {
                let mut bytes = busy();
                // The settings hold whatever the frames may.
                put_word(&mut bytes, SETTINGS + 4 * 19, 1_048_576);
                put_word(&mut bytes, SETTINGS + 4 * 20, 1_048_576);
                put_word(&mut bytes, SETTINGS + 4 * 21, 1_048_576);
                let held = word(&bytes, queue + HELD) + frame[0];
                let size = word(&bytes, at) & 0x3fff;
                put_word(&mut bytes, queue + HELD, held - size);
                with(&bytes, at, slot(frame))
            };
            for frame in GOOD {
                assert_eq!(faults_of(frame), none(), "{frame:?}");
            }
            for (frame, fault) in BAD {
                assert_eq!(faults_of(frame), [format!("{name} {fault}")]);
            }
        }
    }
}

/// "A slot that holds no frame is 0. A station with anything else in such a slot, or with
/// other bytes held than the sum, is out of range (refusal 1)."
#[test]
fn slots_and_bytes_held() {
    let bytes = busy();
    for (queue, name) in QUEUES.into_iter().zip(QUEUE_NAMES) {
        for slot in 3..128 {
            for value in [1, 16 | 1 << 14, 1 << 31] {
                let fault = format!("{name} empty slot");
                assert_eq!(with(&bytes, queue + 4 * slot, value), [fault]);
            }
        }
        for value in [0, 165, 167, 166 + (1 << 16), 0xffff_ffff] {
            let fault = format!("{name} bytes held");
            assert_eq!(with(&bytes, queue + HELD, value), [fault]);
        }
    }
}

#[test]
fn head_and_count() {
    let bytes = busy();
    for (queue, name) in QUEUES.into_iter().zip(QUEUE_NAMES) {
        for head in [128, 129, 255] {
            let fault = format!("{name} head");
            assert_eq!(with_byte(&bytes, queue + HEAD, head), [fault]);
        }
        for count in [129, 130, 255] {
            let fault = format!("{name} count");
            assert_eq!(with_byte(&bytes, queue + COUNT, count), [fault]);
        }
        for head in 1..128 {
            assert_ne!(with_byte(&bytes, queue + HEAD, head), none());
        }
        for count in (0..=128).filter(|count| *count != 3) {
            assert_ne!(with_byte(&bytes, queue + COUNT, count), none());
        }
    }
    let empty = write(&make_station::station(&[]));
    for queue in QUEUES {
        for head in 0..128 {
            assert_eq!(with_byte(&empty, queue + HEAD, head), none());
        }
        assert_ne!(with_byte(&empty, queue + HEAD, 128), none());
        assert_ne!(with_byte(&empty, queue + COUNT, 1), none());
    }
}

/// A queue of 128 frames: any slot may be the first. They hold "at most the capacity".
#[test]
fn a_full_queue() {
    let mut bytes = write(&make_station::station(&[
        (19, 4_096),
        (20, 4_096),
        (21, 4_096),
    ]));
    for queue in QUEUES {
        for slot in 0..128 {
            put_word(&mut bytes, queue + 4 * slot, 32 | 1 << 14);
        }
        put_word(&mut bytes, queue + HELD, 4_096);
        bytes[queue + COUNT] = 128;
    }
    for queue in QUEUES {
        for head in 0..128 {
            assert_eq!(with_byte(&bytes, queue + HEAD, head), none());
        }
        assert_ne!(with_byte(&bytes, queue + COUNT, 127), none());
        assert_ne!(with_byte(&bytes, queue + HEAD, 128), none());
    }
    for (at, name) in (19..).zip(QUEUE_NAMES) {
        let fault = format!("{name} capacity");
        assert_eq!(faults(&changed(&bytes, at, 4_095)), [fault]);
    }
}

/// Settings at and past the bounds that the state sets.
#[test]
fn settings_that_the_state_no_longer_fits() {
    let bytes = busy();
    let cases: [(usize, u64, &str); 8] = [
        (3, 100, "control size"),
        (19, 166, "control capacity"),
        (20, 166, "primary capacity"),
        (21, 200, "secondaryQueue below"),
        (26, 10_000, "allowedRate"),
        (8, 150, "creditA"),
        (14, 150, "creditC"),
        (30, 63, "stage hops above"),
    ];
    for (at, least, fault) in cases {
        let place = SETTINGS + 4 * at;
        assert_eq!(with(&bytes, place, least), none(), "word {at}");
        let faults = with(&bytes, place, least - 1);
        assert!(faults.contains(&fault.to_string()), "word {at}: {faults:?}");
    }
}

/// Limits and queues as large as they may be.
fn wide() -> Vec<u8> {
    let mut words = vec![(19, 1_048_576), (20, 1_048_576), (21, 1_048_576), (22, 9)];
    for lo in [4, 7, 10, 13, 16] {
        words.extend([(lo, 65_536), (lo + 1, 1_048_576)]);
    }
    write(&make_station::station(&words))
}

/// The least and the most of each word of the settings, in the wide station; 0 and the
/// largest word where there is no end.
fn setting_ends(at: usize) -> (u64, u64) {
    match at {
        0 => (0, 65_535),
        1 => (0, 0xffff_ffff),
        2 | 31 => (0, 1),
        3 => (64, 9_216),
        4 | 7 | 10 | 13 | 16 => (64, 65_536),
        5 | 8 | 11 | 14 | 17 => (65_537, 1_048_576),
        6 | 9 | 12 | 15 | 18 => (0, 65_535),
        19 | 20 => (64, 1_048_576),
        21 => (128, 1_048_576),
        22 => (0, 1_048_576),
        23 => (1, 255),
        24 => (1, 1_024),
        25 => (1, 10_000),
        26 => (10_000, 2_147_483_647),
        27 => (1, 16),
        30 => (2, 63),
        32 => (1, 1_000),
        _ => (16, 512),
    }
}

/// Each word of the settings at the ends of its range and past them.
#[test]
fn settings_out_of_range() {
    let bytes = wide();
    let ranged = |at: &usize| *at < 26 || (30..33).contains(at);
    for (at, name) in NAMES.iter().enumerate().filter(|(at, _)| ranged(at)) {
        let (least, most) = setting_ends(at);
        assert_eq!(faults(&changed(&bytes, at, least)), none(), "{name}");
        assert_eq!(faults(&changed(&bytes, at, most)), none(), "{name}");
        if least > 0 {
            let faults = faults(&changed(&bytes, at, least - 1));
            assert_eq!(faults, [format!("{name} below")]);
        }
        if most < 0xffff_ffff {
            let faults = faults(&changed(&bytes, at, most + 1));
            assert_eq!(faults, [format!("{name} above")]);
        }
    }
    for at in (27..30).chain([33]) {
        let (least, most) = setting_ends(at);
        let codes = (0..=1_100).filter(|code| in_range(&changed(&bytes, at, *code)));
        let powers = (0..11).map(|power| 1 << power);
        assert!(codes.eq(powers.filter(|code| (least..=most).contains(code))));
    }
}

/// "unreservedRate 1 to 2,147,483,647", with allowed rates to match.
#[test]
fn what_is_unreserved() {
    let mut bytes = wide();
    put_word(&mut bytes, ALLOWED[0], 0);
    put_word(&mut bytes, ALLOWED[1], 0);
    for (value, expected) in [
        (0, vec!["unreservedRate below"]),
        (1, vec![]),
        (2_147_483_647, vec![]),
        (2_147_483_648, vec!["unreservedRate above"]),
    ] {
        assert_eq!(faults(&changed(&bytes, 26, value)), expected);
    }
}

fn changed(bytes: &[u8], at: usize, value: u64) -> Vec<u8> {
    let mut bytes = bytes.to_vec();
    put_word(&mut bytes, SETTINGS + 4 * at, value);
    bytes
}

#[test]
fn every_fault_has_a_name_of_its_own() {
    let mut names = every_fault();
    assert_eq!(names.len(), 53 + 24 + 33 + 6);
    names.sort_unstable();
    names.dedup();
    assert_eq!(names.len(), 116);
}

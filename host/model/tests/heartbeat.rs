//! Heartbeats, by the sentences of the request: "say whether the pattern, repeated a stated number
//! of times, is permitted throughout from loLimit, and if so the credit at the end".

mod items;

use items::bytes;
use model::heartbeat::{self, most_repeats};
use model::host::{heartbeat, settle, summarize};
use model::item::Listed;
use model::make_heartbeat;
use model::make_runs;
use model::random::Random;
use model::record::Record;
use model::summary::run;
use model::text;

/// Permitted, with this credit at the end: byte 1, and bytes 4 to 7.
fn permitted(end: u64) -> u64 {
    0x100 | end << 32
}

const NOT_PERMITTED: u64 = 0;

/// So many idle ticks of 0, one by one.
fn plain(events: usize) -> Vec<u8> {
    bytes(&"060002000000 ".repeat(events))
}

/// The same, and these items.
fn with(events: usize, items: &str) -> Vec<u8> {
    let mut pattern = plain(events);
    pattern.extend(text::decode(items.as_bytes()).unwrap());
    pattern
}

/// The answers for these numbers of repeats, each with the credit at its end or None.
fn assert_ends(pattern: &[u8], ends: &[(u64, Option<u64>)]) {
    for (repeats, end) in ends {
        let expected = end.map_or(NOT_PERMITTED, permitted);
        assert_eq!(heartbeat(pattern, *repeats), expected, "{repeats}");
    }
}

/// mtu 64, loLimit 100, hiLimit 300: the proved examples, again and again.
#[test]
fn the_proved_examples_repeated() {
    // 100, 250, 190; 340 is cut to 300, 240; and so on.
    let p2 = bytes("060001009600 060003003c00");
    let ends = [(0, 100), (1, 190), (2, 240), (3, 240), (500_000, 240)];
    assert_ends(&p2, &ends.map(|(repeats, end)| (repeats, Some(end))));
    // 126, then 152; 302 is cut to 300, so 176, and so on.
    let p3 = bytes("060001009600 060003003c00 060003004000");
    let ends = [(0, 100), (1, 126), (2, 152), (3, 176), (4, 176)];
    assert_ends(&p3, &ends.map(|(repeats, end)| (repeats, Some(end))));
    // 126, and 176 is cut to 100.
    let example = bytes("060001009600 060003003c00 060003004000 060002003200");
    let ends = [0, 1, 2, 250_000].map(|repeats| (repeats, Some(100)));
    assert_ends(&example, &ends);
    // "credit 100 doesn't permit, 101 does": 101, 85; then 86 does not.
    let p6 = bytes("060001000100 060003001000");
    assert_ends(&p6, &[(0, Some(100)), (1, Some(85)), (2, None), (3, None)]);
    // "Zero repeats are permitted and end at loLimit", also of P4 and P5.
    for sends in [2, 5] {
        let pattern = bytes(&"060003003c00 ".repeat(sends));
        assert_ends(&pattern, &[(0, Some(100)), (1, None), (100_000, None)]);
    }
    let empty = bytes("");
    assert_ends(&empty, &[0, 1, 1_000_001, u64::MAX].map(|n| (n, Some(100))));
}

#[test]
fn credits_that_fall_and_rise() {
    // Each round takes 10, and needs 51 at its beginning.
    let falls = bytes("060001003200 060003003c00");
    assert_ends(
        &falls,
        &[(4, Some(60)), (5, Some(50)), (6, None), (7, None)],
    );
    // Each takes 1, and needs 38: round 64 would begin with 37.
    let slowly = bytes("060001003f00 060003004000");
    assert_ends(&slowly, &[(62, Some(38)), (63, Some(37)), (64, None)]);
    // Each adds 1, up to 300 − 16.
    let rises = bytes("060001001100 060003001000");
    let ends = [(1, 101), (183, 283), (184, 284), (185, 284), (500_000, 284)];
    assert_ends(&rises, &ends.map(|(repeats, end)| (repeats, Some(end))));
    // Each takes what it adds.
    let stays = bytes("060001003c00 060003003c00");
    assert_ends(&stays, &[1, 2, 500_000].map(|repeats| (repeats, Some(100))));
    // From 300 four sends of 64 lead to 44. That is below loLimit, and each round is permitted.
    let below = bytes("06000100ffff 060003004000 060003004000 060003004000 060003004000");
    assert_ends(&below, &[1, 2, 200_000].map(|repeats| (repeats, Some(44))));
}

/// mtu 9,216, loLimit 65,536, hiLimit 1,048,576.
#[test]
fn the_largest_numbers() {
    let header = "0e00 1000 0024 00000100 00001000";
    let pattern = |items: &str| text::decode(format!("{header} {items}").as_bytes()).unwrap();
    let ticks = pattern("06000100ffff");
    let ends = [
        (1, 131_071),
        (14, 983_026),
        (15, 1_048_561),
        (16, 1_048_576),
    ];
    assert_ends(&ticks, &ends.map(|(repeats, end)| (repeats, Some(end))));
    assert_eq!(heartbeat(&ticks, 1_000_000), permitted(1_048_576));
    // Each round takes 1 and adds 9,215 before its send.
    let falls = pattern("06000100ff23 060003000024");
    let ends = [(1, Some(65_535)), (9_215, Some(56_321)), (9_216, None)];
    assert_ends(&falls, &ends);
}

/// "as for records": what a pattern is refused with, whatever the repeats.
fn assert_refused(pattern: &[u8], number: u64) {
    for repeats in [0, 1, 3_906, 3_907, u64::MAX] {
        assert_eq!(heartbeat(pattern, repeats), number, "{repeats}");
    }
}

#[test]
fn the_earliest_fault_of_a_pattern() {
    assert_refused(&[], 2);
    assert_refused(&bytes("")[..13], 2);
    for (hex, number) in [
        ("0f00 1000 4000 64000000 2c010000", 2),
        ("0e00 1100 4000 64000000 2c010000", 2),
        ("0e00 1000 3f00 64000000 2c010000 00", 1),
        ("0e00 1000 4000 3f000000 2c010000", 1),
        ("0e00 1000 4000 64000000 64000000 060003000f00", 1),
    ] {
        assert_refused(&text::decode(hex.as_bytes()).unwrap(), number);
    }
    for (items, number) in [
        ("0600010096", 2),
        ("060005009600", 2),
        ("0e00 1000 4000 64000000 2c010000", 2),
        ("060003000f00 060005009600", 3),
        ("060003004100 06", 3),
        ("060005009600 060003000f00", 2),
        ("0a000400030000000200", 2),
        ("0a000400020000000100 060003000f00", 2),
        ("060003000f00 0a000400020000000100", 3),
    ] {
        assert_refused(&bytes(items), number);
    }
}

/// "3 at a 257th event"; "any byte (or a run) past the 256th event is 3"
#[test]
fn the_256th_event_is_the_last() {
    assert_eq!(heartbeat(&plain(255), 1), permitted(100));
    assert_eq!(heartbeat(&plain(256), 1), permitted(100));
    assert_refused(&plain(257), 3);
    assert_refused(&plain(1_000), 3);
    for byte in 0..=255 {
        let pattern = [plain(256), vec![byte]].concat();
        assert_refused(&pattern, 3);
    }
    // What stands there is not looked at; what stands at the 256th event is.
    for (items, last) in [
        ("0600", 2),
        ("060005000000", 2),
        ("060003000f00", 3),
        ("0a000400020000000100", 2),
        ("0a000400030000000200", 2),
        ("0a0004000200000002", 2),
        ("060004000200000002", 2),
        ("0e00 1000 4000 64000000 2c010000", 2),
    ] {
        assert_refused(&with(256, items), 3);
        assert_refused(&with(255, items), last);
        assert_refused(&with(254, items), last);
    }
}

/// A run of so many idle ticks of 0.
fn run_of(count: u16) -> String {
    let [low, high] = count.to_le_bytes();
    format!("0a00040002000000{low:02x}{high:02x}")
}

/// "Events are counted unrolled"
#[test]
fn runs_at_the_256th_event() {
    for (before, count, number) in [
        (0, 256, 0),
        (0, 257, 3),
        (0, 512, 3),
        (0, 65_535, 3),
        (1, 255, 0),
        (1, 256, 3),
        (254, 2, 0),
        (254, 3, 3),
        (255, 2, 3),
        (255, 65_535, 3),
        (256, 2, 3),
    ] {
        let pattern = with(before, &run_of(count));
        match number {
            0 => assert_eq!(heartbeat(&pattern, 3_906), permitted(100)),
            _ => assert_refused(&pattern, number),
        }
        // A run that passes comes before what stands behind it.
        let behind = with(before, &format!("{} 060005000000", run_of(count)));
        assert_refused(&behind, 3);
    }
    let twos = bytes(&run_of(2).repeat(128));
    assert_eq!(heartbeat(&twos, 3_906), permitted(100));
    assert_eq!(heartbeat(&twos, 3_907), 9);
    assert_refused(&bytes(&(run_of(2).repeat(128) + "06")), 3);
    assert_refused(&bytes(&(run_of(2).repeat(127) + &run_of(3))), 3);
    // 15 × 17 + 1
    let some = bytes(&(run_of(17).repeat(15) + "060002000000"));
    assert_eq!(heartbeat(&some, 3_907), 9);
}

/// "9 when repeats times pattern events exceed 1,000,000"
#[test]
fn the_most_repeats() {
    for (events, most) in [
        (1, 1_000_000),
        (2, 500_000),
        (3, 333_333),
        (7, 142_857),
        (16, 62_500),
        (255, 3_921),
        (256, 3_906),
    ] {
        assert_eq!(most_repeats(events), most);
        let pattern = plain(events);
        assert_eq!(heartbeat(&pattern, most), permitted(100), "{events}");
        assert_eq!(heartbeat(&pattern, most + 1), 9, "{events}");
        // A pattern that is not permitted is refused so all the same.
        let lost = with(events - 1, "060003001000");
        assert_eq!(heartbeat(&lost, most), NOT_PERMITTED, "{events}");
        assert_eq!(heartbeat(&lost, most + 1), 9, "{events}");
    }
    // Products of which 32 or 64 bits would keep little: 2^32, 2^64, 2^64 + 2, 2^64 − 256.
    for (events, repeats) in [
        (1, 1 << 32),
        (256, 1 << 24),
        (2, 1 << 63),
        (256, 1 << 56),
        (3, 6_148_914_691_236_517_206),
        (256, u64::MAX),
        (1, u64::MAX),
    ] {
        assert_eq!(heartbeat(&plain(events), repeats), 9, "{repeats}");
    }
}

/// Any pattern, and the most repeats that are still quick to write out.
fn pattern(random: &mut Random) -> (Listed, Record, u64) {
    let listed = make_heartbeat::pattern(random);
    let record = listed.unrolled();
    let most = 20_000 / record.events.len().max(1);
    (listed, record, most as u64)
}

/// "equal the answer from the written-out record", by its events and by its summary.
#[test]
fn the_written_out_record() {
    let mut random = Random::new(1);
    let mut ended = [0; 2];
    for _ in 0..2_000 {
        let (listed, record, most) = pattern(&mut random);
        let any = random.word() % (most + 1);
        let repeats = random.pick(&[0, 1, 2, 3, most, any]);
        let written = heartbeat::written_out(&record, repeats);
        assert_eq!(
            written.events.len() as u64,
            repeats * record.events.len() as u64
        );
        let lo = u64::from(record.settings.lo_limit);
        let end = run(&record.settings, &written.events, i128::from(lo));
        let expected = end.map_or(NOT_PERMITTED, |end| permitted(end as u64));
        assert_eq!(heartbeat(&listed.to_bytes(), repeats), expected);
        let (answer, sheet) = summarize(&written.to_bytes(), &[0; 48]);
        assert_eq!((answer, settle(&sheet, lo)), (0, expected));
        ended[usize::from(end.is_some())] += 1;
    }
    assert!(ended[0] > 300 && ended[1] > 300, "{ended:?}");
}

/// "in either form"
#[test]
fn the_same_answer_on_either_form() {
    let mut random = Random::new(2);
    for _ in 0..3_000 {
        let record = make_heartbeat::pattern(&mut random).unrolled();
        let repeats = make_heartbeat::repeats(&mut random, &record);
        let rolled = make_runs::split(&mut random, &record);
        let old = heartbeat(&record.to_bytes(), repeats);
        assert_eq!(heartbeat(&rolled.to_bytes(), repeats), old);
    }
}

/// "Where one run from loLimit is permitted and ends at loLimit or above, show that every number
/// of repeats within the limit is permitted." And once it is not permitted it stays so.
#[test]
fn what_fewer_repeats_say() {
    let mut random = Random::new(3);
    let (mut steady, mut lost_later) = (0, 0);
    for _ in 0..2_000 {
        let (_, record, most) = pattern(&mut random);
        let bytes = record.to_bytes();
        let once = heartbeat(&bytes, 1);
        let ends_high = once >> 32 >= u64::from(record.settings.lo_limit);
        let mut lost = false;
        for repeats in (0..50).chain([most.max(50), most_repeats(record.events.len())]) {
            let permitted = heartbeat(&bytes, repeats) != NOT_PERMITTED;
            assert!(permitted || !ends_high, "{repeats}");
            assert!(!(permitted && lost), "{repeats}");
            lost |= !permitted;
        }
        steady += usize::from(ends_high);
        lost_later += usize::from(once != NOT_PERMITTED && lost);
    }
    assert!(steady > 300 && lost_later > 100, "{steady} {lost_later}");
}

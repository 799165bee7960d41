//! The calls over byte slices.

use model::host;
use model::lent::Lent;
use model::make;
use model::random::Random;
use model::record::{Event, Record, Settings};
use model::summary::Summary;

const SETTINGS: Settings = Settings {
    mtu: 64,
    lo_limit: 100,
    hi_limit: 300,
};

fn p3() -> Vec<u8> {
    let events = vec![Event::Waiting(150), Event::Send(60), Event::Send(64)];
    let settings = SETTINGS;
    Record { settings, events }.to_bytes()
}

#[test]
fn the_layout_of_a_summary() {
    let (answer, room) = host::summarize(&p3(), &[7; 48]);
    assert_eq!(answer, 0);
    let mut expected = vec![64, 0, 0, 0, 100, 0, 0, 0, 44, 1, 0, 0, 3, 0, 0, 0];
    for word in [150_u64, 124, 176, 11] {
        expected.extend(word.to_le_bytes());
    }
    assert_eq!(room, expected);
}

#[test]
fn a_negative_ceiling_is_twos_complement() {
    let mut summary = Summary::empty(SETTINGS);
    summary.ceiling = -20;
    let bytes = host::to_bytes(&summary);
    assert_eq!(bytes[32..40], (-20_i64).to_le_bytes());
    assert_eq!(host::from_bytes(&bytes), Ok(summary));
}

#[test]
fn a_refusal_leaves_the_room() {
    for length in [0, 1, 47, 49, 96] {
        let room = vec![7; length];
        assert_eq!(host::summarize(&p3(), &room), (2, room.clone()));
        assert_eq!(host::summarize(&p3()[..20], &room), (2, room));
    }
    let mut bad = p3();
    bad[4] = 63;
    assert_eq!(host::summarize(&bad, &[7; 48]), (1, vec![7; 48]));
    assert_eq!(host::summarize(&bad, &[7; 47]), (2, vec![7; 47]));
}

#[test]
fn joins_by_bytes() {
    let summary = host::to_bytes(&Summary::empty(SETTINGS));
    assert_eq!(
        host::join(&summary, &summary, &[7; 48]),
        (0, summary.clone())
    );
    for lengths in [[47, 48, 48], [48, 49, 48], [48, 48, 0]] {
        let [first, second, room] = lengths.map(|length| vec![0; length]);
        assert_eq!(host::join(&first, &second, &room), (2, room));
    }
    assert_eq!(host::join(&summary, &[0; 48], &[7; 48]), (3, vec![7; 48]));
    let mut other = summary.clone();
    other[0] = 65;
    assert_eq!(host::join(&summary, &other, &[7; 48]), (10, vec![7; 48]));
    other[0] = 64;
    other[12..16].copy_from_slice(&1_000_000_u32.to_le_bytes());
    assert_eq!(host::join(&summary, &other, &[7; 48]), (0, other.clone()));
    assert_eq!(host::join(&other, &other, &[7; 48]), (9, vec![7; 48]));
}

#[test]
fn settles_by_bytes() {
    let (_, summary) = host::summarize(&p3(), &[0; 48]);
    assert_eq!(host::settle(&summary, 11), 1 << 8 | 37 << 32);
    assert_eq!(host::settle(&summary, 10), 0);
    assert_eq!(host::settle(&summary, 300), 1 << 8 | 176 << 32);
    for start in [301, 1 << 32, u64::MAX] {
        assert_eq!(host::settle(&summary, start), 3);
    }
    assert_eq!(host::settle(&summary[..47], 11), 2);
    assert_eq!(host::settle(&[0; 48], 11), 3);
}

#[test]
fn each_bound_of_the_range_decides() {
    let mut random = Random::new(9);
    let (mut inside, mut outside) = (0, 0);
    for _ in 0..50_000 {
        let settings = make::settings(&mut random);
        let summary = make::summary_of(&mut random, settings);
        let near = make::summary_near(&mut random, summary);
        let read = host::from_bytes(&host::to_bytes(&near)).unwrap();
        match read.in_range() {
            true => inside += 1,
            false => outside += 1,
        }
        assert_eq!(near.in_range(), read.in_range());
    }
    assert!(inside > 5_000 && outside > 5_000, "{inside} {outside}");
}

#[test]
fn guards_show_a_write_beside_the_slice() {
    let mut random = Random::new(10);
    let lent = Lent::new(&mut random, b"abc");
    assert_eq!((lent.bytes(), lent.length()), (&b"abc"[..], 3));
    assert!(lent.guards_intact());
    assert_ne!(make::wrong_length(&mut random, 48), 48);
}

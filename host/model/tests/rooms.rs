//! What the movers answer and leave in the lent room: "bytes 4 to 7: bytes written; bytes of the
//! room behind them stay"; "the record's earliest fault [...]; then 12".

mod items;

use items::bytes;
use model::host::{roll, unroll};
use model::make_runs;
use model::movers;
use model::random::Random;
use model::record::{Event, Record, Settings, MOST_EVENTS};

type Mover = fn(&[u8], &[u8]) -> (u64, Vec<u8>);

/// This record moves to those bytes, in a room of just that length and in larger ones; in each
/// smaller one it is 12.
fn assert_moves(mover: Mover, record: &[u8], output: &[u8]) {
    let length = output.len();
    for more in [0, 1, 9, 100] {
        let room = vec![0xa5; length + more];
        let (answer, after) = mover(record, &room);
        assert_eq!(answer, (length as u64) << 32);
        assert_eq!(after[..length], *output);
        assert_eq!(after[length..], room[length..]);
    }
    for room in [0, 1, length / 2, length - 1] {
        let room = vec![0xa5; room];
        assert_eq!(mover(record, &room), (12, room));
    }
}

/// This record is refused, whatever the room.
fn assert_refuses(mover: Mover, record: &[u8], number: u64) {
    for length in [0, 1, record.len(), 2 * record.len(), 1_000] {
        let room = vec![0xa5; length];
        assert_eq!(mover(record, &room), (number, room));
    }
}

#[test]
fn rooms_worked_out_by_hand() {
    let header = bytes("");
    assert_moves(roll, &header, &header);
    assert_moves(unroll, &header, &header);
    let old = bytes("060003003c00 060002003200 060002003200 060002003200");
    let new = bytes("060003003c00 0a000400020032000300");
    assert_moves(roll, &old, &new);
    assert_moves(unroll, &new, &old);
    assert_moves(unroll, &old, &old);
}

/// A room that is longer than the new form and shorter than the old is enough.
#[test]
fn the_room_is_for_what_is_written() {
    let settings = Settings {
        mtu: 64,
        lo_limit: 100,
        hi_limit: 300,
    };
    let events = vec![Event::Idle(1); 1_000];
    let old = Record { settings, events }.to_bytes();
    let (answer, after) = roll(&old, &[9; 30]);
    assert_eq!(answer, 24 << 32);
    assert_eq!(after[24..], [9; 6]);
    assert_eq!(unroll(&after[..24], &[9; 6_013]), (12, vec![9; 6_013]));
    assert_eq!(unroll(&after[..24], &[9; 6_014]), (6_014 << 32, old));
}

#[test]
fn random_rooms() {
    let mut random = Random::new(1);
    for _ in 0..2_000 {
        let listed = make_runs::listed(&mut random);
        let old = listed.unrolled().to_bytes();
        assert_moves(unroll, &listed.to_bytes(), &old);
        assert_moves(unroll, &old, &old);
        assert_moves(roll, &old, &movers::roll(&old).unwrap());
    }
}

/// "the record's earliest fault; then 12"
#[test]
fn a_fault_of_the_record_comes_before_12() {
    for (items, rolled, unrolled) in [
        ("060003000f00", 3, 3),
        ("0600010001", 2, 2),
        ("060005000100", 2, 2),
        ("060001000100 0a0004", 2, 2),
        ("060001000100 0a000400010001000100", 2, 2),
        ("0a000400010001000000 060003000f00", 2, 2),
        ("060003000f00 0a000400010001000200", 3, 3),
        ("0a000400010001000200 060003000f00", 2, 3),
    ] {
        assert_refuses(roll, &bytes(items), rolled);
        assert_refuses(unroll, &bytes(items), unrolled);
    }
    let mut setting = bytes("0a000400010001000000");
    setting[4] = 63;
    assert_refuses(roll, &setting, 1);
    assert_refuses(unroll, &setting, 1);
    assert_refuses(roll, &setting[..13], 2);
    assert_refuses(unroll, &setting[..13], 2);
    // A run, whole: the old form has none.
    assert_refuses(roll, &bytes("0a000400010001000200"), 2);
}

#[test]
fn the_million_comes_before_12() {
    let mut random = Random::new(2);
    for last in [1, 2, 65_535] {
        let listed = make_runs::filled(&mut random, MOST_EVENTS + 1 - usize::from(last), last);
        assert_refuses(unroll, &listed.to_bytes(), 9);
        assert_refuses(roll, &listed.unrolled().to_bytes(), 9);
    }
    let full = make_runs::filled(&mut random, MOST_EVENTS - 2, 2);
    assert_moves(unroll, &full.to_bytes(), &full.unrolled().to_bytes());
}

/// No room, and rooms of less, of as much and of more.
#[test]
fn sorts_of_rooms() {
    let mut random = Random::new(3);
    for bytes in [14, 20, 1_000] {
        for (sort, name) in make_runs::ROOMS.iter().enumerate() {
            for _ in 0..20 {
                let room = make_runs::room(&mut random, sort, bytes);
                assert_eq!(room.cmp(&bytes), sort.max(2).cmp(&3), "{name}");
            }
        }
    }
}

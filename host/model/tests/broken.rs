//! Each rule of runs broken alone.

use model::host::{roll, summarize, unroll};
use model::make_broken::{self, Fault};
use model::random::Random;

/// The number that it is refused with, or 0 where it is taken; the room is as it was.
fn refusal(record: &[u8]) -> u64 {
    let room = vec![0xa5; 48];
    let (answer, after) = summarize(record, &room);
    assert!(answer == 0 || after == room);
    answer
}

/// A million events done and any byte is 9; else the item's own fault comes before the million's.
#[test]
fn each_fault_at_the_million() {
    let mut random = Random::new(2);
    for broken in make_broken::EVERY {
        for (left, number) in [(0, 9), (1, broken.number), (2, broken.number)] {
            let bytes = make_broken::at_million(&mut random, left, broken.fault);
            let room = vec![0xa5; 100];
            let expected = match broken.fault {
                // Not too many for so many that are left.
                Fault::Million(_, count) if usize::from(count) <= left => 0,
                _ => u64::from(number),
            };
            assert_eq!(refusal(&bytes), expected, "{}, {left} left", broken.name);
            if expected > 0 {
                assert_eq!(unroll(&bytes, &room), (expected, room.clone()));
            }
        }
    }
}

/// The whole record beside it is taken.
#[test]
fn each_rule_of_runs_broken_alone() {
    let mut random = Random::new(1);
    for broken in make_broken::EVERY {
        let often = match broken.number {
            9 => 3,
            _ => 100,
        };
        for _ in 0..often {
            let (whole, bytes) = make_broken::make(&mut random, broken.fault);
            let (name, number) = (broken.name, u64::from(broken.number));
            assert_eq!(refusal(&whole), 0, "{name}");
            assert_eq!(refusal(&bytes), number, "{name}");
            let room = vec![0xa5; 100];
            assert_eq!(unroll(&bytes, &room), (number, room.clone()), "{name}");
            // "kind 4 where an old record is moved is 2"
            assert_eq!(roll(&bytes, &room), (2, room), "{name}");
        }
    }
}

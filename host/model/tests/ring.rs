//! P10 to P12, the refusals, and the case file of rings.

use model::host;
use model::refusal::Refusal;
use model::ring::{Choice, Path, Ring, Side, Wish};
use model::ring_cases;
use std::collections::BTreeSet;

const FILE: &str = include_str!("../cases-ring.txt");

/// A ring with all links usable but these.
fn ring(stations: u64, down: &[u64]) -> Ring {
    Ring::new(stations, links(stations, down)).unwrap()
}

fn links(stations: u64, down: &[u64]) -> u64 {
    let mut links = (1 << stations) - 1;
    for link in down {
        links &= !(1 << link);
    }
    links
}

fn chosen(side: Side, distance: usize) -> Result<Choice, Refusal> {
    Ok(Choice {
        side,
        distance,
        ttl: distance,
        mark: false,
    })
}

/// "P10 five stations, 0 to 2, default: right, distance 2; link 1 down: left, 3."
#[test]
fn p10() {
    for protected in [true, false] {
        let choice = ring(5, &[]).choose((0, 2), Wish::Default, protected, false);
        assert_eq!(choice, chosen(Side::Right, 2));
    }
    let choice = ring(5, &[1]).choose((0, 2), Wish::Default, true, false);
    assert_eq!(choice, chosen(Side::Left, 3));
}

/// "the shorter side that reaches (unprotected: the shorter)"; ties are in `ties.rs`.
#[test]
fn the_shorter_side() {
    for protected in [true, false] {
        let choice = ring(4, &[]).choose((0, 3), Wish::Default, protected, false);
        assert_eq!(choice, chosen(Side::Left, 1));
        let choice = ring(4, &[]).choose((3, 0), Wish::Default, protected, false);
        assert_eq!(choice, chosen(Side::Right, 1));
    }
    let broken = ring(4, &[3]);
    let choice = broken.choose((0, 3), Wish::Default, true, false);
    assert_eq!(choice, chosen(Side::Right, 3));
    let choice = broken.choose((0, 3), Wish::Default, false, false);
    assert_eq!(choice, chosen(Side::Left, 1));
}

/// "Protected left or right: that side if it reaches, else the other if it reaches"
#[test]
fn the_side_asked_for() {
    let left = Wish::This(Side::Left);
    let whole = ring(5, &[]);
    assert_eq!(
        whole.choose((0, 1), left, true, false),
        chosen(Side::Left, 4)
    );
    let broken = ring(5, &[3]);
    assert_eq!(
        broken.choose((0, 1), left, true, false),
        chosen(Side::Right, 1)
    );
    assert_eq!(
        broken.choose((0, 1), left, false, false),
        chosen(Side::Left, 4)
    );
}

/// "P11 links 1 and 3 down, protected: 8."
#[test]
fn p11() {
    let broken = ring(5, &[1, 3]);
    for wish in [
        Wish::Default,
        Wish::This(Side::Left),
        Wish::This(Side::Right),
    ] {
        let choice = broken.choose((0, 2), wish, true, false);
        assert_eq!(choice, Err(Refusal::NoWay));
        assert!(broken.choose((0, 2), wish, false, false).is_ok());
    }
}

/// "P12 wrap-marked from 0 to 2, home side right, link 1 down: path of 5 hops."
#[test]
fn p12() {
    let path = ring(5, &[1]).path((0, 2), Side::Right);
    let links = vec![0, 0, 4, 3, 2];
    let delivered = true;
    assert_eq!(path, Path { delivered, links });
    let answer = host::path(5, 0, 2, 0b11101, 2);
    assert_eq!(answer, 1 << 8 | 5 << 16);
}

/// "Delivered when on the home side at the target": passing the target on the opposite
/// ringlet isn't delivery.
#[test]
fn a_frame_on_the_opposite_ringlet_passes_its_target() {
    let path = ring(6, &[2]).path((2, 1), Side::Right);
    assert_eq!(path.links, [1, 0, 5, 4, 3, 3, 4, 5, 0]);
    assert!(path.delivered);
}

#[test]
fn a_frame_turns_at_once_where_the_link_ahead_of_its_own_station_is_unusable() {
    let path = ring(4, &[0]).path((0, 1), Side::Right);
    assert_eq!((path.delivered, &path.links[..]), (true, &[3, 2, 1][..]));
}

#[test]
fn a_frame_that_is_not_delivered_moves_twice_the_stations() {
    let path = ring(5, &[1, 3]).path((0, 2), Side::Right);
    assert_eq!((path.delivered, path.links.len()), (false, 10));
    assert_eq!(path.links, [0, 0, 4, 4, 0, 0, 4, 4, 0, 0]);
}

#[test]
fn a_station_without_a_usable_link_moves_nothing() {
    for home in [Side::Left, Side::Right] {
        let path = ring(5, &[0, 4]).path((0, 2), home);
        assert_eq!((path.delivered, path.links.len()), (false, 0));
    }
}

/// "equal to the path's length": each link of the list joins the stations that the
/// frame moves between, is usable, and a delivered frame ends at its target.
#[test]
fn every_path_of_small_rings_is_a_walk_over_usable_links() {
    for stations in 2..=6 {
        for word in 0..1 << stations {
            let lines = Ring::new(stations, word).unwrap();
            for own in 0..stations as usize {
                for target in (0..stations as usize).filter(|target| *target != own) {
                    for home in [Side::Left, Side::Right] {
                        let path = lines.path((own, target), home);
                        check_walk(stations as usize, word, (own, target), &path);
                    }
                }
            }
        }
    }
}

fn check_walk(stations: usize, word: u64, (own, target): (usize, usize), path: &Path) {
    let mut ends = BTreeSet::from([own]);
    for link in &path.links {
        assert_eq!(word >> link & 1, 1);
        let joined = [*link, (link + 1) % stations];
        let next = |at: &usize| joined.iter().position(|end| end == at);
        ends = ends
            .iter()
            .filter_map(|at| next(at).map(|end| joined[1 - end]))
            .collect();
        assert_eq!(ends.len(), 1, "no link of the station");
    }
    assert!(!path.delivered || ends.contains(&target));
    assert!(path.links.len() <= 2 * stations);
    assert!(path.delivered || [0, 2 * stations].contains(&path.links.len()));
    assert!(!path.delivered || path.links.len() < 2 * stations);
}

/// "ttl: the distance on a steering ring, 63 on a wrapping one. Wrap mark: protected
/// on a wrapping ring." "Unspecified means default and protected."
#[test]
fn ttl_and_mark() {
    for (protection, mark) in [(0, 1), (1, 1), (2, 0)] {
        let steering = host::choose(5, 0, 2, 31, 0, protection, 0);
        assert_eq!(steering, 2 << 8 | 2 << 16 | 2 << 24);
        let wrapping = host::choose(5, 0, 2, 31, 0, protection, 1);
        assert_eq!(wrapping, 2 << 8 | 2 << 16 | 63 << 24 | mark << 32);
    }
}

#[test]
fn the_order_of_refusals_is_1_3_8() {
    let beyond = u64::MAX;
    assert_eq!(host::choose(64, 64, 64, beyond, 4, 3, 2), 1);
    assert_eq!(host::choose(beyond, 0, 2, 0, 0, 0, 0), 1);
    assert_eq!(host::choose(5, 0, 2, 0, 0, 0, 0), 8);
    for (own, target) in [(5, 2), (0, 5), (2, 2), (beyond, 2), (0, beyond)] {
        assert_eq!(host::choose(5, own, target, 0, 0, 0, 0), 3);
        assert_eq!(host::path(5, own, target, 0, 1), 3);
    }
    for links in [32, 1 << 63, beyond] {
        assert_eq!(host::choose(5, 0, 2, links, 0, 0, 0), 3);
        assert_eq!(host::path(5, 0, 2, links, 1), 3);
    }
    for (side, protection, ring) in [(4, 0, 0), (0, 3, 0), (0, 0, 2), (1 << 8, 0, 0)] {
        assert_eq!(host::choose(5, 0, 2, 0, side, protection, ring), 3);
    }
    for home in [0, 3, 1 << 32, beyond] {
        assert_eq!(host::path(5, 0, 2, 31, home), 3);
        assert_eq!(host::path(1, 0, 2, 31, home), 1);
    }
}

#[test]
fn every_case_prints_and_every_outcome_is_there() {
    let mut outcomes = BTreeSet::new();
    for line in FILE.lines() {
        if let Some(printed) = ring_cases::print(line).unwrap() {
            let words: Vec<&str> = printed.split_whitespace().take(3).collect();
            outcomes.insert(words.join(" "));
        }
    }
    for outcome in [
        "choose refused 1",
        "choose refused 3",
        "choose refused 8",
        "choose side 1",
        "choose side 2",
        "path refused 1",
        "path refused 3",
        "path delivered 0",
        "path delivered 1",
    ] {
        assert!(outcomes.contains(outcome), "{outcome}");
    }
}

#[test]
fn a_line_that_is_no_case_is_named() {
    assert_eq!(ring_cases::print("# words"), Ok(None));
    assert_eq!(ring_cases::print("  "), Ok(None));
    for line in [
        "turn 1",
        "path 1 2 3 4",
        "choose 1 2 3 4 5 6 -7",
        "path a 1 2 3 4",
    ] {
        assert!(ring_cases::print(line).unwrap_err().starts_with(line));
    }
}

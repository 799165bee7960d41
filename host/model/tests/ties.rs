//! The default with equal distance both ways: "Ties should not split a pair."

use model::host;
use model::refusal::Refusal;
use model::ring::{Choice, Ring, Side, Wish};

/// Own, target, the side taken, and the links on that side in the order of the hops.
type Tie = (u64, u64, Side, [usize; 2]);

/// Every tie of four stations.
const OF_FOUR: [Tie; 4] = [
    (0, 2, Side::Right, [0, 1]),
    (2, 0, Side::Left, [1, 0]),
    (1, 3, Side::Right, [1, 2]),
    (3, 1, Side::Left, [2, 1]),
];

/// The word of a ring with all links usable.
fn whole(stations: u64) -> u64 {
    (1 << stations) - 1
}

fn chosen(side: Side, distance: usize) -> Result<Choice, Refusal> {
    Ok(Choice {
        side,
        distance,
        ttl: distance,
        mark: false,
    })
}

/// Asks for the default of a tie on a whole ring in every way: all take this side.
fn takes(stations: u64, (own, target): (u64, u64), side: Side) {
    let (links, half) = (whole(stations), stations / 2);
    let lines = Ring::new(stations, links).unwrap();
    for protected in [true, false] {
        let pair = (own as usize, target as usize);
        let choice = lines.choose(pair, Wish::Default, protected, false);
        assert_eq!(choice, chosen(side, half as usize));
    }
    for code in [0, 3] {
        for (protection, mark) in [(0, 1), (1, 1), (2, 0)] {
            let low = host::side_code(side) << 8 | half << 16;
            let steering = host::choose(stations, own, target, links, code, protection, 0);
            assert_eq!(steering, low | half << 24);
            let wrapping = host::choose(stations, own, target, links, code, protection, 1);
            assert_eq!(wrapping, low | 63 << 24 | mark << 32);
        }
    }
}

/// "right if the own index is lower than the target's, otherwise left"; "A call with
/// nothing specified follows".
#[test]
fn the_lower_index_takes_right_and_the_higher_left() {
    for (own, target, side, _) in OF_FOUR {
        takes(4, (own, target), side);
    }
}

#[test]
fn two_stations_both_take_link_0() {
    takes(2, (0, 1), Side::Right);
    takes(2, (1, 0), Side::Left);
    let lines = Ring::new(2, whole(2)).unwrap();
    assert_eq!(lines.crossed(0, Side::Right, 1), [0]);
    assert_eq!(lines.crossed(1, Side::Left, 1), [0]);
}

#[test]
fn every_tie_of_62_stations() {
    for lower in 0..31 {
        takes(62, (lower, lower + 31), Side::Right);
        takes(62, (lower + 31, lower), Side::Left);
    }
}

/// What the default is with these links of four stations down, protected and not.
fn with_down(down: &[usize], (own, target): (u64, u64)) -> [Result<Choice, Refusal>; 2] {
    let mut links = whole(4);
    for link in down {
        links &= !(1 << link);
    }
    let lines = Ring::new(4, links).unwrap();
    let pair = (own as usize, target as usize);
    [true, false].map(|protected| lines.choose(pair, Wish::Default, protected, false))
}

/// The links on a tie's other side: those that its own side doesn't cross.
fn other_links(own_links: [usize; 2]) -> Vec<usize> {
    (0..4).filter(|link| !own_links.contains(link)).collect()
}

/// "the shorter side that reaches (unprotected: the shorter)"
#[test]
fn a_broken_side_yields_to_the_other_when_protected() {
    for (own, target, side, links) in OF_FOUR {
        let (mine, others) = (chosen(side, 2), chosen(side.other(), 2));
        for link in links {
            let down = with_down(&[link], (own, target));
            assert_eq!(down, [others, mine]);
        }
        assert_eq!(with_down(&links, (own, target)), [others, mine]);
        for link in other_links(links) {
            let down = with_down(&[link], (own, target));
            assert_eq!(down, [mine, mine]);
        }
    }
}

/// "8 if none", and never unprotected.
#[test]
fn both_sides_broken() {
    for (own, target, side, links) in OF_FOUR {
        for mine in links {
            for other in other_links(links) {
                let down = with_down(&[mine, other], (own, target));
                assert_eq!(down, [Err(Refusal::NoWay), chosen(side, 2)]);
                let word = whole(4) & !(1 << mine) & !(1 << other);
                assert_eq!(host::choose(4, own, target, word, 0, 0, 0), 8);
                assert_eq!(host::choose(4, own, target, word, 3, 1, 1), 8);
            }
        }
    }
}

#[test]
fn the_links_crossed_are_those_of_the_hops() {
    let lines = Ring::new(4, whole(4)).unwrap();
    for (own, _, side, links) in OF_FOUR {
        assert_eq!(lines.crossed(own as usize, side, 2), links);
    }
    assert_eq!(lines.crossed(3, Side::Right, 3), [3, 0, 1]);
    assert_eq!(lines.crossed(1, Side::Left, 3), [0, 3, 2]);
    assert!(lines.crossed(1, Side::Left, 0).is_empty());
}

/// Calls this with every ring of 2 to 8 stations, its word of links, and every two
/// different stations of it.
fn every_pair(mut look: impl FnMut(&Ring, u64, (usize, usize))) {
    for stations in 2..=8 {
        for word in 0..=whole(stations) {
            let lines = Ring::new(stations, word).unwrap();
            for own in 0..stations as usize {
                for target in (0..stations as usize).filter(|target| *target != own) {
                    look(&lines, word, (own, target));
                }
            }
        }
    }
}

fn is_tie(lines: &Ring, (own, target): (usize, usize)) -> bool {
    let [left, right] = [Side::Left, Side::Right].map(|side| lines.distance(own, target, side));
    left == right
}

/// How often `every_pair` comes to a tie: the words of 2, 4, 6 and 8 links, each times the
/// stations, as each has one opposite.
const TIES: u64 = 4 * 2 + 16 * 4 + 64 * 6 + 256 * 8;

/// "two opposite stations talk over different links": no two stations do, opposite or
/// not. The links there are the links back, in reverse order, or both ends are refused
/// alike.
#[test]
fn every_pair_talks_over_the_same_links() {
    let mut ties = 0;
    every_pair(|lines, word, (own, target)| {
        for protected in [true, false] {
            let there = lines.choose((own, target), Wish::Default, protected, false);
            let back = lines.choose((target, own), Wish::Default, protected, false);
            let (Ok(there), Ok(back)) = (there, back) else {
                assert_eq!(there, back);
                continue;
            };
            let links = lines.crossed(own, there.side, there.distance);
            let mut links_back = lines.crossed(target, back.side, back.distance);
            links_back.reverse();
            assert_eq!(links, links_back);
            let usable = links.iter().all(|link| word >> link & 1 == 1);
            assert!(usable || !protected);
        }
        ties += u64::from(is_tie(lines, (own, target)));
    });
    assert_eq!(ties, TIES);
}

/// Whether all links to the opposite station on this side are usable.
fn reaches(lines: &Ring, word: u64, own: usize, side: Side) -> bool {
    let links = lines.crossed(own, side, lines.stations() / 2);
    links.iter().all(|link| word >> link & 1 == 1)
}

/// What the default was on a tie before this request: right if it reaches, else left if
/// it reaches, else 8; unprotected right.
fn old_tie(lines: &Ring, word: u64, own: usize, protected: bool) -> Result<Choice, Refusal> {
    let half = lines.stations() / 2;
    if !protected || reaches(lines, word, own, Side::Right) {
        chosen(Side::Right, half)
    } else if reaches(lines, word, own, Side::Left) {
        chosen(Side::Left, half)
    } else {
        Err(Refusal::NoWay)
    }
}

/// "hall scripts that relied on right must name it": on a tie, right by name is what the
/// default was.
#[test]
fn who_relied_on_right_names_it() {
    let right = Wish::This(Side::Right);
    let mut ties = 0;
    every_pair(|lines, word, pair| {
        if !is_tie(lines, pair) {
            return;
        }
        for protected in [true, false] {
            let named = lines.choose(pair, right, protected, false);
            assert_eq!(named, old_tie(lines, word, pair.0, protected));
        }
        ties += 1;
    });
    assert_eq!(ties, TIES);
}

/// Only the higher index sees the change, and only where left reaches or it isn't
/// protected.
#[test]
fn the_rest_of_a_tie_is_what_it_was() {
    every_pair(|lines, word, (own, target)| {
        if !is_tie(lines, (own, target)) {
            return;
        }
        for protected in [true, false] {
            let left = !protected || reaches(lines, word, own, Side::Left);
            let expected = match own > target && left {
                true => chosen(Side::Left, lines.stations() / 2),
                false => old_tie(lines, word, own, protected),
            };
            let now = lines.choose((own, target), Wish::Default, protected, false);
            assert_eq!(now, expected);
        }
    });
}

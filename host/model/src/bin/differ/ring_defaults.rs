//! A default asked from both ends of a pair, and what must have come up on ties.
//!
//! "Ties should not split a pair": the library's two answers are held to each other. The
//! model's answer has no part in this.

use crate::ring::{ask, show_choose, Place, SMALL};
use model::line::byte;
use model::report::Outcome;
use model::ring::{Ring, Side};
use std::collections::BTreeSet;
use std::fmt;

/// The same ring from the target's end.
fn turned(place: Place) -> Place {
    Place {
        own: place.target,
        target: place.own,
        ..place
    }
}

/// The links that a frame crosses from the own station with this answer's side and
/// distance, one by one.
fn crossed(place: Place, answer: u64) -> Option<Vec<usize>> {
    let lines = Ring::new(place.stations, place.links).ok()?;
    let side = match byte(answer, 1) {
        1 => Side::Left,
        2 => Side::Right,
        _ => return None,
    };
    let distance = usize::from(byte(answer, 2));
    Some(lines.crossed(place.own as usize, side, distance))
}

/// Whether the answers from both ends fit: the same refusal; or opposite sides, all else
/// the same, and the same links in reverse order.
fn fits(place: Place, there: u64, back: u64) -> bool {
    if byte(there, 0) != 0 || byte(back, 0) != 0 {
        return there == back;
    }
    let sides = [there, back].map(|answer| byte(answer, 1));
    let rests = [there, back].map(|answer| answer & !0xff00);
    let links = crossed(place, there);
    let links_back = crossed(turned(place), back).map(|mut links| {
        links.reverse();
        links
    });
    sides[0] != sides[1] && rests[0] == rests[1] && links.is_some() && links == links_back
}

/// Equal distance both ways. True of some numbers too that are no ring.
fn is_tie(place: Place) -> bool {
    let apart = place.own.abs_diff(place.target);
    place.stations % 2 == 0 && apart == place.stations / 2
}

/// What the default must have come to on ties of rings that aren't small: from the lower
/// index, and from the higher.
const ON_TIES: [[&str; 3]; 2] = [
    [
        "tie from the lower index: right",
        "tie from the lower index: left, as right is broken",
        "tie from the lower index: 8",
    ],
    [
        "tie from the higher index: left",
        "tie from the higher index: right, as left is broken",
        "tie from the higher index: 8",
    ],
];

/// The random defaults: how many there were, and what came up.
#[derive(Default)]
pub struct Defaults {
    asked: u64,
    ties: u64,
    seen: BTreeSet<&'static str>,
}

impl Defaults {
    /// A call for a default, with its answer: asks from the other end too.
    pub fn look(&mut self, place: Place, codes: [u64; 3], answer: u64) -> Outcome<()> {
        let back = ask(turned(place), codes);
        if !fits(place, answer, back) {
            let call = show_choose(place, codes);
            return Err(format!(
                "{call}: answer {answer:#018x}, from the other end {back:#018x}"
            ));
        }
        self.asked += 1;
        if is_tie(place) && place.stations > SMALL {
            self.look_at_tie(place, answer);
        }
        Ok(())
    }

    fn look_at_tie(&mut self, place: Place, answer: u64) {
        let end = usize::from(place.own > place.target);
        let first_side = [2, 1][end];
        let came_to = match (byte(answer, 0), byte(answer, 1)) {
            (0, side) if side == first_side => 0,
            (0, _) => 1,
            (8, _) => 2,
            _ => return,
        };
        self.ties += 1;
        self.seen.insert(ON_TIES[end][came_to]);
    }

    pub fn missing(&self) -> Vec<String> {
        let all = ON_TIES.iter().flatten();
        all.filter(|sight| !self.seen.contains(**sight))
            .map(|sight| sight.to_string())
            .collect()
    }
}

impl fmt::Display for Defaults {
    fn fmt(&self, out: &mut fmt::Formatter<'_>) -> fmt::Result {
        let (asked, ties) = (self.asked, self.ties);
        write!(
            out,
            "{asked} defaults asked from both ends, {ties} on ties of more than {SMALL} stations"
        )
    }
}

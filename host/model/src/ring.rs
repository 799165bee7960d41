//! Ringlet choice and the path of a wrap-marked frame.

use crate::refusal::Refusal;
use std::cmp::Ordering;

#[derive(Clone, Copy, Debug, PartialEq, Eq)]
pub enum Side {
    Left,
    Right,
}

impl Side {
    pub fn other(self) -> Side {
        match self {
            Side::Left => Side::Right,
            Side::Right => Side::Left,
        }
    }
}

/// What the host asks for, with "unspecified" already replaced.
#[derive(Clone, Copy, Debug, PartialEq, Eq)]
pub enum Wish {
    This(Side),
    Default,
}

/// The stations and which links are usable, one entry for each link.
#[derive(Clone, Debug, PartialEq, Eq)]
pub struct Ring {
    usable: Vec<bool>,
}

#[derive(Clone, Copy, Debug, PartialEq, Eq)]
pub struct Choice {
    pub side: Side,
    pub distance: usize,
    pub ttl: usize,
    pub mark: bool,
}

#[derive(Clone, Debug, PartialEq, Eq)]
pub struct Path {
    pub delivered: bool,
    /// The links moved over, in order: one for each hop.
    pub links: Vec<usize>,
}

/// Document 02, A9: "Change document 01's default tie: right if the own index is lower
/// than the target's, otherwise left." So both ends of a tie use the same links.
fn on_a_tie(own: usize, target: usize) -> Side {
    if own < target {
        Side::Right
    } else {
        Side::Left
    }
}

impl Ring {
    /// "2 to 63 stations (else 1), numbered from 0"; "One 64-bit word holds a bit per
    /// link, set if usable, and higher bits set give 3."
    pub fn new(stations: u64, links: u64) -> Result<Ring, Refusal> {
        if !(2..=63).contains(&stations) {
            return Err(Refusal::Setting);
        }
        for bit in stations..64 {
            if links >> bit & 1 == 1 {
                return Err(Refusal::Range);
            }
        }
        let usable = (0..stations).map(|k| links >> k & 1 == 1).collect();
        Ok(Ring { usable })
    }

    pub fn stations(&self) -> usize {
        self.usable.len()
    }

    /// "Own and target index differ, else 3."
    pub fn pair(&self, own: u64, target: u64) -> Result<(usize, usize), Refusal> {
        let stations = self.stations() as u64;
        if own >= stations || target >= stations || own == target {
            return Err(Refusal::Range);
        }
        Ok((own as usize, target as usize))
    }

    /// "right goes to the next higher number", "the last joins 0".
    fn next(&self, at: usize, side: Side) -> usize {
        let last = self.stations() - 1;
        match side {
            Side::Right if at == last => 0,
            Side::Right => at + 1,
            Side::Left if at == 0 => last,
            Side::Left => at - 1,
        }
    }

    /// "link k joins k and k+1, the last joins 0": the link that a frame at this
    /// station takes to this side.
    fn link_ahead(&self, at: usize, side: Side) -> usize {
        match side {
            Side::Right => at,
            Side::Left => self.next(at, Side::Left),
        }
    }

    fn usable_ahead(&self, at: usize, side: Side) -> bool {
        self.usable[self.link_ahead(at, side)]
    }

    /// The hops from own to target on this side.
    pub fn distance(&self, own: usize, target: usize, side: Side) -> usize {
        let (mut at, mut hops) = (own, 0);
        while at != target {
            at = self.next(at, side);
            hops += 1;
        }
        hops
    }

    /// "How far each side reaches is the unbroken run of usable links from the
    /// station."
    pub fn reach(&self, own: usize, side: Side) -> usize {
        let (mut at, mut run) = (own, 0);
        while run < self.stations() && self.usable_ahead(at, side) {
            at = self.next(at, side);
            run += 1;
        }
        run
    }

    /// The links that so many hops from own to this side cross, in order.
    pub fn crossed(&self, own: usize, side: Side, hops: usize) -> Vec<usize> {
        let mut at = own;
        let mut links = Vec::new();
        for _ in 0..hops {
            links.push(self.link_ahead(at, side));
            at = self.next(at, side);
        }
        links
    }

    fn reaches(&self, own: usize, target: usize, side: Side) -> bool {
        self.reach(own, side) >= self.distance(own, target, side)
    }

    /// The shorter of both sides; "With equal distance both ways" the tie's.
    fn shorter(&self, own: usize, target: usize) -> Side {
        let left = self.distance(own, target, Side::Left);
        let right = self.distance(own, target, Side::Right);
        match left.cmp(&right) {
            Ordering::Less => Side::Left,
            Ordering::Greater => Side::Right,
            Ordering::Equal => on_a_tie(own, target),
        }
    }

    /// "Protected left or right: that side if it reaches, else the other if it
    /// reaches, else 8. Unprotected: that side regardless. Default: the shorter side
    /// that reaches (unprotected: the shorter), [...] 8 if none."
    fn side(&self, own: usize, target: usize, wish: Wish, protected: bool) -> Option<Side> {
        let first = match wish {
            Wish::This(side) => side,
            Wish::Default => self.shorter(own, target),
        };
        if !protected {
            return Some(first);
        }
        [first, first.other()]
            .into_iter()
            .find(|side| self.reaches(own, target, *side))
    }

    pub fn choose(
        &self,
        (own, target): (usize, usize),
        wish: Wish,
        protected: bool,
        wrapping: bool,
    ) -> Result<Choice, Refusal> {
        let side = self.side(own, target, wish, protected);
        let side = side.ok_or(Refusal::NoWay)?;
        let distance = self.distance(own, target, side);
        Ok(Choice {
            side,
            distance,
            // "ttl: the distance on a steering ring, 63 on a wrapping one."
            ttl: if wrapping { 63 } else { distance },
            // "Wrap mark: protected on a wrapping ring."
            mark: protected && wrapping,
        })
    }

    /// "Path of a wrap-marked frame: on its home side it moves on until the link ahead
    /// is unusable, then turns to the opposite ringlet, and back again at the next
    /// break."
    pub fn path(&self, (own, target): (usize, usize), home: Side) -> Path {
        let (mut at, mut side) = (own, home);
        let mut links = Vec::new();
        loop {
            // "Delivered when on the home side at the target, also just after a turn."
            let delivered = at == target && side == home;
            // "Not delivered once 2 × stations hops are used, or if both links of the
            // station are unusable (no refusal)."
            let used = links.len() >= 2 * self.stations();
            let cut_off = !self.usable_ahead(at, Side::Left) && !self.usable_ahead(at, Side::Right);
            if delivered || used || cut_off {
                return Path { delivered, links };
            }
            if self.usable_ahead(at, side) {
                links.push(self.link_ahead(at, side));
                at = self.next(at, side);
            } else {
                side = side.other();
            }
        }
    }
}

//! Ringlet choice and path: every small ring, then random rings and random arguments.

use crate::calls::{rpr_choose, rpr_path};
use crate::ring_defaults::Defaults;
use model::host;
use model::random::Random;
use model::report::Outcome;
use model::tally::{self, Tally};

/// The most stations of a small ring.
pub const SMALL: u64 = 6;

/// The arguments that both calls share.
#[derive(Clone, Copy)]
pub struct Place {
    pub stations: u64,
    pub own: u64,
    pub target: u64,
    pub links: u64,
}

impl Place {
    fn show(&self) -> String {
        let Place {
            stations,
            own,
            target,
            links,
        } = self;
        format!("{stations} {own} {target} {links:#x}")
    }
}

fn same(call: String, expected: u64, got: u64) -> Outcome<()> {
    if expected == got {
        return Ok(());
    }
    Err(format!(
        "{call}: answer {got:#018x}, model {expected:#018x}"
    ))
}

pub fn show_choose(place: Place, [side, protection, ring]: [u64; 3]) -> String {
    format!("choose {} {side} {protection} {ring}", place.show())
}

/// What the library answers to rpr_choose.
pub fn ask(place: Place, [side, protection, ring]: [u64; 3]) -> u64 {
    let Place {
        stations,
        own,
        target,
        links,
    } = place;
    // SAFETY: numbers alone cross.
    unsafe { rpr_choose(stations, own, target, links, side, protection, ring) }
}

/// Calls rpr_choose; the answer.
fn choose(at: Place, codes: [u64; 3]) -> Outcome<u64> {
    let [side, protection, ring] = codes;
    let expected = host::choose(
        at.stations,
        at.own,
        at.target,
        at.links,
        side,
        protection,
        ring,
    );
    let got = ask(at, codes);
    same(show_choose(at, codes), expected, got).map(|()| got)
}

/// Calls rpr_path; the answer.
fn path(place: Place, home: u64) -> Outcome<u64> {
    let Place {
        stations,
        own,
        target,
        links,
    } = place;
    // SAFETY: numbers alone cross.
    let got = unsafe { rpr_path(stations, own, target, links, home) };
    let expected = host::path(stations, own, target, links, home);
    same(format!("path {} {home}", place.show()), expected, got).map(|()| got)
}

/// Every side, protection, ring and home, and one code beyond each range.
fn every_code(place: Place) -> Outcome<u64> {
    let mut calls = 0;
    for side in 0..=4 {
        for protection in 0..=3 {
            for ring in 0..=2 {
                choose(place, [side, protection, ring])?;
                calls += 1;
            }
        }
    }
    for home in 0..=3 {
        path(place, home)?;
        calls += 1;
    }
    Ok(calls)
}

/// Every ring of 1 to `SMALL` stations with every link word and index, and one beyond each.
/// They aren't in the tally: most are refused. Answers how many calls that was.
fn every_small_ring() -> Outcome<u64> {
    let mut calls = 0;
    for stations in 1..=SMALL {
        for links in 0..=1 << stations {
            for own in 0..=stations {
                for target in 0..=stations {
                    calls += every_code(Place {
                        stations,
                        own,
                        target,
                        links,
                    })?;
                }
            }
        }
    }
    Ok(calls)
}

/// A number of no use: just beyond, a small one with a high bit set, or any.
fn raw(random: &mut Random, beyond: u64) -> u64 {
    let any = random.word();
    let small = random.below(4) as u64;
    match random.below(6) {
        0 => beyond,
        1 => beyond + small,
        2 => small | 1 << random.pick(&[8, 16, 31, 32, 63]),
        3 => any >> random.below(64),
        4 => random.pick(&[u64::MAX, u64::MAX - 1, 1 << 63, 1 << 32, 256]),
        _ => any,
    }
}

/// A ring with few links down, half of them, or nearly all.
fn links(random: &mut Random, stations: u64) -> u64 {
    let all = u64::MAX >> (64 - stations);
    let mut links = match random.below(8) {
        0 => random.word(),
        1 => random.word() & random.word() & random.word(),
        _ => all,
    };
    for _ in 0..random.below(4) {
        links ^= 1 << random.below(stations as usize);
    }
    links & all
}

/// Two stations of a ring; of rings that have ties at least one in three gives one.
fn place(random: &mut Random) -> Place {
    let stations = random.often_extreme(2, 63) as u64;
    let own = random.below(stations as usize) as u64;
    let away = match stations % 2 == 0 && random.one_in(3) {
        true => stations / 2,
        false => 1 + random.below(stations as usize - 1) as u64,
    };
    let target = (own + away) % stations;
    let links = links(random, stations);
    Place {
        stations,
        own,
        target,
        links,
    }
}

struct Trial {
    random: Random,
    tally: Tally,
    defaults: Defaults,
}

impl Trial {
    /// Arguments in range, or one or more of them replaced.
    fn round(&mut self) -> Outcome<()> {
        let random = &mut self.random;
        let mut place = place(random);
        let mut codes = [4, 3, 2].map(|count| random.below(count) as u64);
        let mut home = 1 + random.below(2) as u64;
        let spoiled = match random.below(8) {
            0 => 1,
            1 => random.below(4),
            _ => 0,
        };
        for _ in 0..spoiled {
            match random.below(8) {
                0 => place.stations = random.pick(&[0, 1, 64, raw_stations(place)]),
                1 => place.own = raw(random, place.stations),
                2 => place.target = raw(random, place.stations),
                3 => place.target = place.own,
                4 => place.links |= 1 << random.below(64),
                5 => place.links = random.word(),
                6 => place.stations = raw(random, 64),
                _ => {
                    let code = random.below(3);
                    codes[code] = raw(random, 4 - code as u64);
                    home = raw(random, 3);
                }
            }
        }
        self.call(place, codes, home)
    }

    /// Nothing but random numbers.
    fn raw_round(&mut self) -> Outcome<()> {
        let random = &mut self.random;
        let place = Place {
            stations: raw(random, 64),
            own: raw(random, 2),
            target: raw(random, 1),
            links: raw(random, 4),
        };
        let codes = [4, 3, 2].map(|beyond| raw(random, beyond));
        let home = raw(random, 3);
        self.call(place, codes, home)
    }

    fn call(&mut self, place: Place, codes: [u64; 3], home: u64) -> Outcome<()> {
        if self.random.one_in(2) {
            let answer = choose(place, codes)?;
            self.tally.count("rpr_choose", answer, false);
            if [0, 3].contains(&codes[0]) {
                self.defaults.look(place, codes, answer)?;
            }
        } else {
            let answer = path(place, home)?;
            self.tally.count("rpr_path", answer, false);
        }
        Ok(())
    }

    /// So many random calls, after every small ring. What was never seen.
    fn rounds(&mut self, calls: u64) -> Outcome<Vec<String>> {
        println!("{} calls about every small ring", every_small_ring()?);
        while self.tally.calls() < calls {
            match self.random.one_in(20) {
                true => self.raw_round()?,
                false => self.round()?,
            }
        }
        Ok(self.defaults.missing())
    }
}

/// A number of stations whose low byte is in range.
fn raw_stations(place: Place) -> u64 {
    place.stations | 1 << 32
}

/// The tally of so many random calls, and the first difference or what was never seen.
pub fn run(seed: u64, calls: u64) -> (Tally, Outcome<Vec<String>>) {
    let mut trial = Trial {
        random: Random::new(seed),
        tally: Tally::new(tally::OF_RINGS),
        defaults: Defaults::default(),
    };
    let outcome = trial.rounds(calls);
    println!("{}", trial.defaults);
    (trial.tally, outcome)
}

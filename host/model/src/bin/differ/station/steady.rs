//! Counters that stand at the same rates at each interval, until the rates shown are these
//! rates and stay there: by the library's own bytes and readings.

use super::counters::frame;
use super::life::Life;
use super::{library, Trial};
use model::make_station;
use model::report::Outcome;
use model::station::aging::Rates;
use model::station::layout::{self, fairness_place, number, word, STORED};
use model::station::range::most_stored;
use model::station::reading::READING_LENGTH;
use model::station::settings::LP_COEFS;
use model::station::MOST_RATE;
use model::station_call::Call;
use model::steady::{Smoothed, Steady, Way, BY_FRAMES, LENT, SHOWN};

/// Where this word of a reading stands.
const LOCALLY_CONGESTED: usize = 4 * 25;

/// What brings the counters back to their rates before an interval.
enum Source {
    /// They are put into the lent bytes.
    Lent(Rates),
    /// Two frames of this size, an own one and one in transit. With ageCoef 1 nothing else
    /// is left of the interval before.
    Frames(u64),
}

impl Source {
    fn rates(&self) -> [u64; 4] {
        match self {
            Source::Lent(rates) => rates.list(),
            Source::Frames(size) => [*size; 4],
        }
    }

    /// How they are steady, by the library's reading.
    fn how(&self, reading: &[u8]) -> &'static str {
        match self {
            Source::Lent(_) => LENT,
            Source::Frames(_) => BY_FRAMES[word(reading, LOCALLY_CONGESTED) as usize],
        }
    }

    fn bring(&self, trial: &mut Trial, life: &mut Life) -> Outcome<()> {
        match self {
            Source::Lent(rates) => {
                life.model.counters = *rates;
                life.memory = layout::write(&life.model);
                life.script.push(format!("# counters at {rates:?}"));
            }
            Source::Frames(size) => {
                let calls = [
                    Call::Tick([0, 0, 1]),
                    Call::Client([2, *size, 2]),
                    Call::Select,
                    Call::Transit([2, *size, 2, 1]),
                    Call::Select,
                ];
                for call in &calls {
                    life.carry_out(&mut trial.random, call)?;
                }
            }
        }
        Ok(())
    }
}

/// The library's reading, and its four smoothed rates.
fn look(life: &Life) -> ([u8; READING_LENGTH], [Smoothed; 4]) {
    let mut room = [0; READING_LENGTH];
    let show = Call::Show(READING_LENGTH);
    library::call(&show, &mut life.memory.clone(), &mut room);
    let smoothed = std::array::from_fn(|at| Smoothed {
        stored: number(&life.memory[fairness_place(STORED.start + at)]),
        shown: word(&room, 4 * (SHOWN.start + at)),
    });
    (room, smoothed)
}

/// An interval with the counters at the source's rates. What the library makes of the
/// smoothed rates; localFairRate is the first of them that is shown, where the station is
/// locally congested.
fn interval(trial: &mut Trial, life: &mut Life, source: &Source) -> Outcome<[Smoothed; 4]> {
    source.bring(trial, life)?;
    let (reading, _) = look(life);
    let counters = [13, 14, 15, 16].map(|at| word(&reading, 4 * at));
    if counters != source.rates() {
        return Err(life.fault(&format!("the counters are not steady: {counters:?}")));
    }
    life.carry_out(&mut trial.random, &Call::Age)?;
    let (reading, smoothed) = look(life);
    let fair = word(&reading, 4 * 21);
    if word(&reading, LOCALLY_CONGESTED) == 1 && fair != smoothed[0].shown {
        return Err(life.fault(&format!("localFairRate {fair}: {smoothed:?}")));
    }
    Ok(smoothed)
}

/// Intervals until each rate shown must have come to its rate, and some more.
fn walk(steady: &mut Steady, trial: &mut Trial, life: &mut Life, source: &Source) -> Outcome<()> {
    let lp_coef = life.model.settings.lp_coef;
    let (_, first) = look(life);
    let rates = source.rates();
    let mut ways = [0, 1, 2, 3].map(|at| Way::new(rates[at], lp_coef, first[at]));
    let bound = ways.iter().map(|way| way.bound).fold(0, u64::max);
    let kept = life.script.len();
    for before in 0..bound + lp_coef {
        life.script.truncate(kept);
        life.script
            .push(format!("# {before} intervals before, each with:"));
        let smoothed = interval(trial, life, source)?;
        for (way, next) in ways.iter_mut().zip(smoothed) {
            way.go(next).map_err(|what| life.fault(&what))?;
        }
    }
    let (reading, _) = look(life);
    steady.look(&ways, source.how(&reading), lp_coef);
    Ok(())
}

/// A station that sends frames of 100 bytes, then of 20, while downstream is congested: all
/// four counters count them. A frame stays in the secondary queue, so the threshold decides
/// whether it is locally congested. It has saved up credit by then.
fn by_frames(steady: &mut Steady, trial: &mut Trial, lp_coef: u64, threshold: u32) -> Outcome<()> {
    let mut words = make_station::words(&[(3, 100), (21, 1_000), (22, threshold)]);
    for at in [4, 7, 10, 13, 16] {
        words[at..at + 3].copy_from_slice(&[100, 1_048_576, 65_535]);
    }
    words[23..29].copy_from_slice(&[1, 1, 1, 100_000, 1, lp_coef as u32]);
    let Some(mut life) = trial.start(&words)? else {
        return Err("the settings of a steady source are refused".to_string());
    };
    life.carry_out(&mut trial.random, &frame(65_534))?;
    for _ in 0..20 {
        life.carry_out(&mut trial.random, &Call::Tick([0, 0, 1]))?;
    }
    life.carry_out(&mut trial.random, &Call::Transit([2, 100, 2, 1]))?;
    walk(steady, trial, &mut life, &Source::Frames(100))?;
    // The frame that is held is still one of 100 bytes.
    Source::Frames(20).bring(trial, &mut life)?;
    life.carry_out(&mut trial.random, &Call::Age)?;
    walk(steady, trial, &mut life, &Source::Frames(20))
}

/// A locally congested station that is lent with these stored numbers, and with these
/// counters at each interval.
fn lent(
    steady: &mut Steady,
    trial: &mut Trial,
    lp_coef: u64,
    [stored, rates]: [[u64; 4]; 2],
) -> Outcome<()> {
    let mut station = make_station::station(&[(22, 0), (28, lp_coef as u32)]);
    Call::Transit([2, 16, 1, 0]).apply(&mut station, &[]);
    station.stored = Rates::each(stored);
    let Some(mut life) = Life::of_bytes(&layout::write(&station)) else {
        return Err("stored numbers are out of range".to_string());
    };
    walk(steady, trial, &mut life, &Source::Lent(Rates::each(rates)))
}

/// Any rate or stored number up to this one.
fn any(trial: &mut Trial, most: u64) -> u64 {
    trial.random.often_extreme(0, i128::from(most)) as u64
}

/// Stored numbers and rates: all the way up and down, from 0, from 37 to 100, down from the
/// most, and from anywhere to anywhere.
fn cases(trial: &mut Trial, lp_coef: u64) -> [[[u64; 4]; 2]; 6] {
    let most = most_stored(lp_coef);
    let rests = [0, 1, any(trial, lp_coef - 1), lp_coef - 1];
    let near = [1; 4].map(|rate| rate + any(trial, 999));
    let below = [1; 4].map(|rate| rate + any(trial, MOST_RATE - 2));
    [
        [[0; 4], [MOST_RATE; 4]],
        [[most; 4], [0; 4]],
        [rests, near],
        [rests.map(|rest| 37 * lp_coef + rest), [100; 4]],
        [[most; 4], below],
        [most, MOST_RATE].map(|most| [0; 4].map(|_| any(trial, most))),
    ]
}

/// Every lpCoef: by frames, congested and not, and in lent bytes. None of these calls are in
/// the tally.
pub fn walks(seed: u64) -> Outcome<Steady> {
    let mut trial = Trial::new(seed);
    let mut steady = Steady::default();
    for lp_coef in LP_COEFS {
        for threshold in [0, 1_000] {
            by_frames(&mut steady, &mut trial, lp_coef, threshold)?;
        }
        for case in cases(&mut trial, lp_coef) {
            lent(&mut steady, &mut trial, lp_coef, case)?;
        }
    }
    Ok(steady)
}

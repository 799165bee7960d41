//! "Counters stop at 2,147,483,647", and what intervals make of counters that have
//! stopped.

use super::life::Life;
use super::{library, Trial};
use model::make_station;
use model::report::Outcome;
use model::station::aging::Rates;
use model::station::range::most_stored;
use model::station::settings::{LP_COEFS, WORDS};
use model::station::{layout, Station, MOST_RATE};
use model::station_call::Call;

/// The received rate while downstream is congested. Times the largest weight and unit it
/// just passes 32 bits: what they would keep of the product is a small number.
const RECEIVED: u16 = 16_449;

/// Settings of the largest frames, with room and credit for them, the largest weight and
/// unit and the slowest coefficients.
fn largest() -> [u32; WORDS] {
    let mut words = make_station::words(&[(3, 9_216), (19, 9_216), (20, 9_216), (21, 18_432)]);
    for at in [4, 7, 10, 13, 16] {
        words[at..at + 3].copy_from_slice(&[65_536, 1_048_576, 65_535]);
    }
    words[23..30].copy_from_slice(&[255, 1_024, 1, MOST_RATE as u32, 16, 512, 512]);
    words
}

/// A fairness frame with this rate.
pub fn frame(rate: u16) -> Call {
    let [high, low] = rate.to_be_bytes();
    Call::Hear(vec![255, 0xa0, 0, 0, 0, 0, 0, 9, 0, 0, high, low])
}

/// An eligible transit frame of the largest size.
const TRANSIT: Call = Call::Transit([2, 9_216, 2, 1]);

/// Sends the largest frames until all four counters have stopped. How many calls that
/// was.
fn stop(life: &mut Life) -> Outcome<u64> {
    let round = [
        frame(65_535),
        Call::Tick([0, 0, 1]),
        Call::Client([2, 9_216, 2]),
        frame(RECEIVED),
        Call::Select,
        TRANSIT,
        Call::Select,
    ];
    let mut made = 0;
    while life.model.counters.list() != [MOST_RATE; 4] {
        for call in &round {
            let mut other = call.other_slice(0);
            let answer = library::call(call, &mut life.memory, &mut other);
            let (expected, _) = call.apply(&mut life.model, &[]);
            let same = answer == expected && life.memory == layout::write(&life.model);
            if !same || expected as u8 != 0 {
                let what = format!("{call}: {answer:#x}, model {expected:#x}, call {made}");
                return Err(life.fault(&what));
            }
            made += 1;
        }
    }
    let note = format!("# {made} calls until all counters have stopped");
    life.script.push(note);
    Ok(made)
}

/// Intervals while downstream is congested, both ways, only locally and not at all, with
/// rates that rise again in the end.
fn age(trial: &mut Trial, life: &mut Life) -> Outcome<()> {
    let calls = [
        Call::Age,
        TRANSIT,
        Call::Age,
        frame(1),
        Call::Age,
        frame(65_535),
        Call::Age,
        Call::Select,
        Call::Age,
        Call::Age,
    ];
    for call in &calls {
        life.carry_out(&mut trial.random, call)?;
        life.compare(&mut trial.random)?;
    }
    Ok(())
}

/// The stopped counters aged and smoothed with every coefficient, from stored numbers of 0
/// and of the most that there is, and where the rate shown has just come to its most.
fn age_each(trial: &mut Trial, stopped: &Station) -> Outcome<()> {
    for age_coef in [1, 2, 4, 8, 16] {
        for slow in LP_COEFS {
            let there = slow * MOST_RATE;
            for stored in [0, there - 1, there, most_stored(slow)] {
                let mut station = stopped.clone();
                station.settings.age_coef = age_coef;
                station.settings.lp_coef = slow;
                station.settings.ramp_up = slow;
                station.stored = Rates::each([stored; 4]);
                let Some(mut life) = Life::of_bytes(&layout::write(&station)) else {
                    return Err("stopped counters are out of range".to_string());
                };
                age(trial, &mut life)?;
            }
        }
    }
    Ok(())
}

/// Stops the counters by calls alone, and ages what is left. Answers how many calls it
/// took to stop them; none of these are in the tally.
pub fn stopping() -> Outcome<u64> {
    let mut trial = Trial::new(0);
    let Some(mut life) = trial.start(&largest())? else {
        return Err("the largest settings are refused".to_string());
    };
    let made = stop(&mut life)?;
    life.compare(&mut trial.random)?;
    let stopped = life.model.clone();
    age(&mut trial, &mut life)?;
    age_each(&mut trial, &stopped)?;
    Ok(made)
}

//! Lives of conservative stations from their start, by the library's own readings: what they show
//! from interval to interval, and what they tell.

use super::life::Life;
use super::{library, Trial};
use model::apart::{Apart, Shown};
use model::make_method;
use model::make_station;
use model::report::Outcome;
use model::station::fairness::FRAME_LENGTH;
use model::station::layout::word;
use model::station::reading::READING_LENGTH;
use model::station::settings::Settings;
use model::station_call::Call;

const INTERVALS: usize = 400;
const ROUND_TRIPS: [u32; 5] = [1, 2, 3, 7, 40];

/// The library's reading.
fn reading(life: &Life) -> [u8; READING_LENGTH] {
    let mut room = [0; READING_LENGTH];
    let show = Call::Show(READING_LENGTH);
    library::call(&show, &mut life.memory.clone(), &mut room);
    room
}

/// What the library shows now.
fn shown(life: &Life) -> Shown {
    let reading = reading(life);
    Shown::of(|at| word(&reading, 4 * at))
}

/// Document 01's test, by the bytes that the secondary queue holds.
fn test(life: &Life, settings: &Settings) -> bool {
    word(&reading(life), 4 * 10) > settings.low_threshold
}

/// The rate that the library tells.
fn told(life: &Life) -> u64 {
    let mut room = [0; FRAME_LENGTH];
    let tell = Call::Tell(FRAME_LENGTH);
    library::call(&tell, &mut life.memory.clone(), &mut room);
    u64::from(u16::from_be_bytes([room[10], room[11]]))
}

/// Own frames, and now and then so many of transit that the test is true, or all of them sent.
fn traffic(trial: &mut Trial, life: &mut Life) -> Outcome<()> {
    let mut calls = vec![Call::Tick([0, 0, 1]); trial.random.below(6)];
    for _ in 0..trial.random.below(4) {
        calls.extend([Call::Client([2, 64, 1]), Call::Select]);
    }
    match trial.random.below(24) {
        0 => calls.extend(vec![Call::Transit([2, 64, 1, 0]); 4]),
        1 => {
            let sent = [Call::Tick([0, 0, 1]), Call::Select, Call::Select];
            (0..12).for_each(|_| calls.extend(sent.clone()));
        }
        _ => {}
    }
    for call in calls {
        life.make(&mut trial.random, &call)?;
    }
    Ok(())
}

/// One life with this round trip: how often localFairRate was lowered and raised.
fn life(trial: &mut Trial, round_trip: u32, unreserved: u32) -> Outcome<[u64; 2]> {
    let changes = make_method::small(round_trip, unreserved);
    let Some(mut life) = trial.start(&make_station::words(&changes))? else {
        return Err("the settings of a conservative station are refused".to_string());
    };
    let settings = life.model.settings;
    let mut apart = Apart::new(settings, shown(&life));
    for _ in 0..INTERVALS {
        traffic(trial, &mut life)?;
        let test = test(&life, &settings);
        life.carry_out(&mut trial.random, &Call::Age)?;
        let next = shown(&life);
        apart.go(test, next).map_err(|what| life.fault(&what))?;
        let expected = if next.congested { next.own } else { 65_535 };
        if told(&life) != expected {
            return Err(life.fault(&format!("told {}: {next:?}", told(&life))));
        }
    }
    Ok(apart.steps)
}

/// How often localFairRate was lowered and raised in all; each must happen with each round trip.
pub fn lives(seed: u64) -> Outcome<[u64; 2]> {
    let mut trial = Trial::new(seed);
    let mut all = [0; 2];
    for round_trip in ROUND_TRIPS {
        let mut steps = [0; 2];
        for unreserved in [40, 200, 600] {
            let made = life(&mut trial, round_trip, unreserved)?;
            steps = [0, 1].map(|at| steps[at] + made[at]);
        }
        if steps.contains(&0) {
            let what = "localFairRate was not both lowered and raised";
            return Err(format!(
                "{what} with a round trip of {round_trip}: {steps:?}"
            ));
        }
        all = [0, 1].map(|at| all[at] + steps[at]);
    }
    Ok(all)
}

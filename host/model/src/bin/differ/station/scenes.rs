//! Lives that lead where random calls seldom do.

use super::Trial;
use model::make_method;
use model::make_station;
use model::report::Outcome;
use model::station_call::Call;

/// Settings to replace in the plain ones, and calls.
type Scene = (Vec<(usize, u32)>, Vec<Call>);

/// Each queue gets two frames more than it has slots, then gives two away and gets them
/// again.
fn full() -> Scene {
    let offers = [
        Call::Control(16),
        Call::Transit([0, 16, 1, 0]),
        Call::Transit([2, 16, 9, 1]),
    ];
    let mut calls = Vec::new();
    for offer in &offers {
        calls.extend(vec![offer.clone(); 130]);
    }
    for offer in &offers {
        calls.extend([Call::Tick([0, 0, 0]), Call::Select, Call::Select]);
        calls.extend(vec![offer.clone(); 2]);
    }
    (vec![(19, 8_192), (20, 8_192), (21, 8_192)], calls)
}

/// Own excess frames pass a congested secondary queue until lpAddRate exceeds what is
/// unreserved.
fn fair_rate() -> Scene {
    let mut calls = vec![Call::Transit([2, 16, 1, 0])];
    for _ in 0..16 {
        calls.extend(vec![Call::Tick([0, 0, 1]); 22]);
        calls.extend([Call::Client([2, 64, 1]), Call::Select]);
    }
    calls.extend([Call::Age, Call::Tick([0, 0, 1]), Call::Tell(12), Call::Age]);
    let changes = vec![(22, 0), (25, 1), (26, 50), (27, 16), (28, 16)];
    (changes, calls)
}

/// Offers with the most hops of a ring and with one more, where nothing else is wrong with the
/// frame, where something is, and where 4, 5, 6 or 7 applies too.
fn offers(stations: u32) -> Scene {
    let far = u64::from(stations);
    let most = far - 1;
    let mut calls = vec![Call::Client([0, 16, far])];
    calls.extend(vec![Call::Tick([1, 1, 1]); 2]);
    calls.extend([far, most, far].map(|hops| Call::Client([0, 16, hops])));
    calls.extend([Call::Client([3, 16, far]), Call::Select]);
    calls.extend([far, most].map(|hops| Call::Transit([1, 16, hops, 1])));
    calls.extend(vec![Call::Transit([0, 64, most, 0]); 4]);
    calls.extend([0, 1].map(|mark| Call::Transit([0, 16, far, mark])));
    calls.extend([heard(1, 2, 0), Call::Age, Call::Tick([0, 0, 1])]);
    calls.push(Call::Client([2, 16, far]));
    (vec![(30, stations)], calls)
}

/// Fairness frames from the last hop of a ring, from one hop before and from one farther; what is
/// told then, and once more while locally congested, with an own rate of 4.
fn told(stations: u32) -> Scene {
    let far = u64::from(stations);
    let mut calls = Vec::new();
    for hops in [far.max(3) - 2, far - 1, far] {
        for rate in [65_535, 9] {
            calls.extend([heard(hops, 2, rate), Call::Tell(12)]);
        }
    }
    calls.extend([heard(far, 2, 65_535), heard(far, 1, 9)]);
    calls.extend([heard(far - 1, 1, 9), heard(1, 2, 65_535)]);
    calls.extend(vec![Call::Tick([0, 0, 1]); 2]);
    calls.extend([Call::Client([2, 64, 1]), Call::Select]);
    calls.extend([Call::Transit([1, 16, 1, 0]), Call::Age]);
    for rate in [4, 3] {
        calls.extend([heard(far - 1, 2, rate), Call::Tell(12)]);
    }
    let changes = vec![(22, 0), (23, 1), (24, 1), (28, 16), (30, stations)];
    (changes, calls)
}

/// A conservative station through the rows of its table: not congested, entered at 4, held, lowered
/// by 0, held and raised to 5, 15 below what is unreserved, and left.
fn calm(round_trip: u32) -> Scene {
    let wait = vec![Call::Age; round_trip as usize];
    let mut calls = vec![Call::Age, Call::Tick([0, 0, 1]), Call::Tick([0, 0, 1])];
    calls.extend([Call::Client([2, 64, 1]), Call::Select]);
    calls.extend([Call::Transit([2, 16, 1, 0]), Call::Age]);
    calls.extend(wait.clone());
    calls.push(Call::Select);
    calls.extend(wait);
    calls.extend([Call::Tell(12), Call::Age, Call::Tell(12), Call::Age]);
    let small = make_method::small(round_trip, 20);
    ([&small[..], &[(22, 0), (27, 1)]].concat(), calls)
}

/// A fairness frame from so many hops away; the plain station's own address ends with 1.
fn heard(hops: u64, address: u8, rate: u16) -> Call {
    let [high, low] = rate.to_be_bytes();
    let ttl = (256 - hops) as u8;
    Call::Hear(vec![ttl, 0xa0, 2, 0, 0x5e, 0, 0, address, 0, 0, high, low])
}

pub fn play(trial: &mut Trial) -> Outcome<()> {
    let mut scenes = vec![full(), fair_rate(), calm(1), calm(3)];
    for stations in [2, 6, 63] {
        scenes.extend([offers(stations), told(stations)]);
    }
    for (changes, calls) in scenes {
        let Some(mut life) = trial.start(&make_station::words(&changes))? else {
            return Err("the settings of a scene are refused".to_string());
        };
        for call in &calls {
            trial.call(&mut life, call)?;
        }
    }
    Ok(())
}

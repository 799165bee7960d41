//! "Over any calls from a fresh station, [...] a shaper's credit equals that of its
//! record: one event per tick, one send per charge."

use model::make_station;
use model::random::Random;
use model::record::{Event, Record, Settings as Limits};
use model::station::frames::Class;
use model::station::shaper::Shaper;
use model::station::{calls, settings, Station};
use model::summary::Summary;

fn shapers(station: &Station) -> [Shaper; 5] {
    [station.m, station.a, station.b, station.c, station.d]
}

/// The tick's event for each shaper, told from what the station holds before it.
fn tick_events(station: &Station, [a, b, c]: [bool; 3]) -> [Event; 5] {
    let holds = station.stage.is_some() || station.secondary.frames() > 0;
    let waits = [station.control.frames() > 0, a, b, b || c, b || c || holds];
    let set = &station.settings;
    let limits = [set.m, set.a, set.b, set.c, set.d];
    std::array::from_fn(|at| {
        let amount = match at {
            3 => station.c_amount() as u16,
            _ => limits[at].amount as u16,
        };
        match waits[at] {
            true => Event::Waiting(amount),
            false => Event::Idle(amount),
        }
    })
}

/// One random call; the events that it is for each shaper.
fn call(random: &mut Random, station: &mut Station) -> [Option<Event>; 5] {
    if random.one_in(3) {
        let waits = [0; 3].map(|_| random.one_in(2));
        let events = tick_events(station, waits);
        let [a, b, c] = waits.map(u64::from);
        assert_eq!(calls::tick(station, a, b, c), 0);
        return events.map(Some);
    }
    let before = shapers(station).map(|shaper| shaper.credit);
    let mtu = i128::from(station.settings.mtu as u32);
    let size = random.often_extreme(16, mtu) as u64;
    let class = random.pick(&[Class::A, Class::B, Class::C]).code();
    let hops = random.between(1, i128::from(station.settings.stations) - 1) as u64;
    let sent = match random.below(6) {
        0 | 1 => {
            calls::offer_client(station, class, size, hops);
            size
        }
        2 => {
            calls::offer_transit(station, class, size, hops, 0);
            size
        }
        3 => {
            calls::offer_control(station, size);
            size
        }
        4 if random.one_in(3) => calls::age(station),
        _ => calls::select(station) >> 48,
    };
    let after = shapers(station).map(|shaper| shaper.credit);
    std::array::from_fn(|at| {
        let charged = before[at] - after[at];
        assert!(charged == 0 || charged == sent);
        (charged > 0).then_some(Event::Send(charged as u16))
    })
}

#[test]
fn a_credit_equals_that_of_its_record() {
    let mut random = Random::new(6);
    let mut sends = [0; 5];
    for _ in 0..150 {
        let words = make_station::settings(&mut random);
        let settings = settings::read(&settings::to_bytes(&words)).unwrap();
        let mut station = Station::new(settings);
        let mut events: [Vec<Event>; 5] = Default::default();
        for _ in 0..1 + random.below(400) {
            for (at, event) in call(&mut random, &mut station).into_iter().enumerate() {
                sends[at] += usize::from(matches!(event, Some(Event::Send(_))));
                events[at].extend(event);
            }
        }
        for (shaper, events) in shapers(&station).iter().zip(events) {
            same_credit(settings.mtu, shaper, events);
        }
    }
    assert!(sends.iter().all(|count| *count > 100), "{sends:?}");
}

fn same_credit(mtu: u64, shaper: &Shaper, events: Vec<Event>) {
    let settings = Limits {
        mtu: mtu as u32,
        lo_limit: shaper.lo_limit as u32,
        hi_limit: shaper.hi_limit as u32,
    };
    let summary = Summary::of_record(&Record { settings, events }).unwrap();
    let end = summary.settle(i128::from(shaper.lo_limit));
    assert_eq!(end, Ok(Some(i128::from(shaper.credit))));
}

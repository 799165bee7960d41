//! "Tell me how far short": refusal 6 carries the bytes missing.

use model::line::{byte, short};
use model::make_call::{self, Habit};
use model::make_station;
use model::random::Random;
use model::refusal::Refusal;
use model::shortfalls::Shortfalls;
use model::station::layout::{self, word, STAGE};
use model::station::range::in_range;
use model::station::settings::to_bytes;
use model::station::shaper::Shaper;
use model::station::{calls, Station};
use model::station_call::Call;
use model::tally::{Tally, OF_STATIONS};
use model::{entry_script, lent_call, make_damage, make_short};

/// The answer of a client call that lacks so many bytes.
fn six(missing: u64) -> u64 {
    6 | missing << 32
}

/// The least amount whose addition makes all of these permit, tried from 0 on.
fn least(shapers: &[Shaper]) -> u64 {
    let permits = |shaper: &Shaper, amount: u64| {
        let credit = shaper.credit + amount;
        Shaper { credit, ..*shaper }.permits()
    };
    let all_permit = |amount: &u64| shapers.iter().all(|shaper| permits(shaper, *amount));
    (0..).find(all_permit).unwrap()
}

/// Limits of their own: loLimit of A 64, B 65, C 66, D 67, hiLimit 70. A, C and D get
/// `amount` with a tick, B gets nothing.
fn station(credits: [u64; 4], amount: u32) -> Station {
    let mut changes = Vec::new();
    for (shaper, lo) in (64..68).enumerate() {
        let at = 7 + 3 * shaper;
        changes.extend([(at, lo), (at + 1, 70), (at + 2, amount)]);
    }
    changes.push((12, 0));
    let mut station = make_station::station(&changes);
    let [a, b, c, d] = credits;
    station.a.credit = a;
    station.b.credit = b;
    station.c.credit = c;
    station.d.credit = d;
    station
}

/// What a client frame of this class is answered. Refused, it must leave the station as it
/// was.
fn offered(station: &Station, class: u64) -> u64 {
    let mut lent = station.clone();
    let answer = calls::offer_client(&mut lent, class, 16, 1);
    assert_eq!(lent == *station, byte(answer, 0) != 0);
    answer
}

#[test]
fn the_least_amount_that_permits() {
    for lo_limit in 0..=40 {
        let hi_limit = lo_limit + 3;
        for credit in 0..=hi_limit {
            let shaper = Shaper {
                lo_limit,
                hi_limit,
                credit,
            };
            assert_eq!(shaper.shortfall(), least(&[shaper]), "{shaper:?}");
        }
    }
}

#[test]
fn class_a_lacks_what_a_lacks() {
    for credit in 0..=70 {
        let lent = station([credit, 70, 0, 0], 0);
        let expected = match lent.a.permits() {
            true => 0,
            false => six(least(&[lent.a])),
        };
        assert_eq!(offered(&lent, 0), expected, "{credit}");
    }
}

/// "Where two shapers are needed, give the larger shortfall; for client B, give that of the
/// excess attempt."
#[test]
fn classes_b_and_c_lack_what_c_and_d_lack() {
    for c in 0..=70 {
        for d in 0..=70 {
            for b in [0, 40, 65, 66] {
                let lent = station([0, b, c, d], 0);
                let excess = lent.c.permits() && lent.d.permits();
                let own = lent.b.permits() && lent.d.permits();
                let missing = six(least(&[lent.c, lent.d]));
                let class_b = match (own, excess) {
                    (true, _) => 0,
                    (false, true) => 1 << 32,
                    (false, false) => missing,
                };
                assert_eq!(offered(&lent, 1), class_b, "B {b}, C {c}, D {d}");
                let class_c = if excess { 1 << 32 } else { missing };
                assert_eq!(offered(&lent, 2), class_c, "C {c}, D {d}");
            }
        }
    }
}

/// "how long to wait": a tick of the shortfall is enough, one of a byte less leaves 1.
#[test]
fn a_tick_of_the_shortfall() {
    let mut refused = [0; 3];
    for first in (0..=70).step_by(3) {
        for second in 0..=70 {
            for class in [0, 1, 2] {
                let credits = [second, 65, first, second];
                let missing = short(offered(&station(credits, 0), class));
                if missing == 0 {
                    continue;
                }
                refused[class as usize] += 1;
                for less in [0, 1] {
                    let amount = missing - less;
                    let mut waited = station(credits, amount as u32);
                    assert_eq!(waited.c_amount(), amount);
                    assert_eq!(calls::tick(&mut waited, 1, 1, 1), 0);
                    let answer = offered(&waited, class);
                    assert_eq!(byte(answer, 0) == 6, less == 1, "{class} {credits:?}");
                    assert_eq!(short(answer), less);
                }
            }
        }
    }
    assert!(refused.iter().all(|count| *count > 1_000), "{refused:?}");
}

/// What is told is the excess attempt's; where B itself permits, what D lacks is enough.
#[test]
fn class_b_may_pass_before() {
    let mut lent = station([0, 70, 27, 58], 10);
    assert_eq!(offered(&lent, 1), six(40));
    calls::tick(&mut lent, 0, 1, 0);
    assert_eq!(offered(&lent, 1), 0);
    assert_eq!(offered(&lent, 2), six(30));
}

/// "(1 to 65,537)"
#[test]
fn the_most_that_can_be_missing() {
    for (lo, credit, expected) in [
        (65_536, 0, six(65_537)),
        (65_536, 1, six(65_536)),
        (65_535, 0, six(65_536)),
        (65_536, 65_536, six(1)),
        (65_536, 65_537, 0),
        (65_536, 1_048_576, 0),
        (64, 0, six(65)),
    ] {
        let mut lent = make_station::station(&[(7, lo), (8, 1_048_576)]);
        lent.a.credit = credit;
        assert_eq!(offered(&lent, 0), expected, "{lo} {credit}");
    }
    let most = [(13, 65_536), (14, 65_537), (16, 65_536), (17, 65_537)];
    for (c, d) in [(0, 65_537), (65_537, 0), (0, 0)] {
        let mut lent = make_station::station(&most);
        lent.c.credit = c;
        lent.d.credit = d;
        assert_eq!([1, 2].map(|class| offered(&lent, class)), [six(65_537); 2]);
    }
}

/// Frames of any size are told the same.
#[test]
fn the_size_does_not_count() {
    let lent = station([30, 30, 30, 30], 0);
    for class in [0, 1, 2] {
        for size in 16..=64 {
            let answer = calls::offer_client(&mut lent.clone(), class, size, 9);
            assert_eq!(answer, offered(&lent, class));
        }
    }
}

#[test]
fn only_6_has_more_than_its_number() {
    let others = [
        Refusal::Setting,
        Refusal::Bytes,
        Refusal::Range,
        Refusal::Space,
        Refusal::Stage,
        Refusal::FairRate,
        Refusal::NoWay,
        Refusal::Events,
        Refusal::Settings,
        Refusal::OwnAddress,
        Refusal::Hops,
    ];
    let numbers = [1, 2, 3, 4, 5, 7, 8, 9, 10, 11, 13];
    assert_eq!(others.map(Refusal::answer), numbers);
    assert_eq!(others.map(|refusal| u64::from(refusal.number())), numbers);
    assert_eq!(Refusal::Shaper(65_537).number(), 6);
    assert_eq!(Refusal::Shaper(65_537).answer(), six(65_537));
}

/// Counts the answer. Refused, it is 6 with what is missing, or another number alone.
fn count(tally: &mut Tally, function: &'static str, answer: u64) {
    tally.count(function, answer, false);
    match byte(answer, 0) {
        0 => {}
        6 => assert_eq!(answer, six(short(answer).clamp(1, 65_537))),
        number => assert_eq!(answer, u64::from(number), "{function}"),
    }
}

/// A station of random settings, after starts that are mostly refused.
fn started(random: &mut Random, tally: &mut Tally) -> Station {
    let mut station = None;
    let near = to_bytes(&make_station::settings_near(random));
    let good = to_bytes(&make_station::settings(random));
    for settings in [&near[..], &good[1..], &good] {
        count(tally, "rpr_start", calls::start(settings, &mut station));
    }
    station.unwrap()
}

/// "Every other refusal of every call is its number alone", and leaves the station: of
/// calls on a station, on its bytes damaged, and on fewer bytes.
#[test]
fn other_refusals_are_their_number_alone() {
    let mut random = Random::new(8);
    let mut tally = Tally::new(OF_STATIONS);
    let steps = make_damage::every_step();
    for _ in 0..60 {
        let mut lent = started(&mut random, &mut tally);
        let habit = Habit::new(&mut random);
        for _ in 0..400 {
            let call = make_call::call(&mut random, &lent, &habit);
            let other = call.other_slice(7);
            let (before, mut bytes) = (lent.clone(), layout::write(&lent));
            let (answer, room) = call.apply(&mut lent, &other);
            count(&mut tally, call.function(), answer);
            if byte(answer, 0) != 0 {
                assert_eq!((&lent, &room), (&before, &other), "{call}");
            }
            let step = random.pick(&steps);
            match random.one_in(20) {
                true => drop(bytes.pop()),
                false => make_damage::take(&mut random, &mut bytes, step),
            }
            let answer = lent_call::apply(&call, &bytes, &other).answer;
            count(&mut tally, call.function(), answer);
        }
    }
    assert_eq!(tally.faults(), Vec::<String>::new());
}

/// What is seen in a client call of this class, by its answer.
fn seen(class: u64, credits: [u64; 4], answer: u64) -> Vec<String> {
    let mut shortfalls = Shortfalls::default();
    let mut sights = shortfalls.missing();
    let call = Call::Client([class, 16, 1]);
    shortfalls.look(&station(credits, 0), &call, answer);
    let missing = shortfalls.missing();
    sights.retain(|sight| !missing.contains(sight));
    sights
}

#[test]
fn kinds_of_shortfalls() {
    let cases: [(u64, [u64; 4], &[&str]); 9] = [
        (0, [60, 0, 0, 0], &["class A is short"]),
        (0, [64, 0, 0, 0], &["class A is short", "1 byte is missing"]),
        (0, [65, 0, 0, 0], &[]),
        (2, [0, 0, 60, 62], &["class C: C lacks more than D"]),
        (2, [0, 0, 63, 60], &["class C: D lacks more than C"]),
        (2, [0, 0, 60, 68], &["class C: only C lacks"]),
        (2, [0, 0, 67, 60], &["class C: only D lacks"]),
        (2, [0, 0, 60, 61], &["class C: C and D lack the same"]),
        (1, [0, 59, 60, 61], &["class B: C and D lack the same"]),
    ];
    for (class, credits, expected) in cases {
        let answer = offered(&station(credits, 0), class);
        let sights = seen(class, credits, answer);
        assert_eq!(sights, expected, "{class} {credits:?}");
    }
}

#[test]
fn kinds_of_class_b_and_sizes() {
    let more = seen(1, [0, 50, 60, 62], six(7));
    assert_eq!(more[1], "class B: B lacks more than is told");
    let less = seen(1, [0, 62, 63, 60], six(8));
    assert_eq!(less[1..], ["class B: B lacks less than is told, but lacks"]);
    let both = seen(1, [0, 70, 60, 62], six(7));
    assert_eq!(both[1..], ["class B: B and D both lack less than is told"]);
    for (missing, sight) in [(65_536, "65,536"), (65_537, "65,537")] {
        let sizes = seen(0, [0; 4], six(missing));
        assert_eq!(sizes[1], format!("{sight} bytes are missing"));
    }
    for other in [0, 1 << 32, 5, 7] {
        assert!(seen(1, [0; 4], other).is_empty());
    }
}

/// Stations in range, which show every kind. A wait that adds what is missing ends 6.
#[test]
fn stations_made_short() {
    let mut random = Random::new(9);
    let mut shortfalls = Shortfalls::default();
    let steps = make_damage::every_step();
    for _ in 0..300 {
        let lent = started(&mut random, &mut Tally::new(OF_STATIONS));
        let wild = make_damage::wild(&mut random, &layout::write(&lent), &steps);
        let bytes = make_short::station(&mut random, &wild);
        assert!(in_range(&bytes) && word(&bytes, STAGE) == 0);
        let lent = layout::read(&bytes).unwrap();
        for class in [0, 1, 2] {
            let call = make_call::client(&mut random, &lent, class);
            let answer = lent_call::apply(&call, &bytes, &[]).answer;
            shortfalls.look(&lent, &call, answer);
            if byte(answer, 0) != 6 {
                continue;
            }
            for less in [0, 1] {
                let waited = make_short::waited(&bytes, class, short(answer) - less);
                let answer = lent_call::apply(&call, &waited, &[]).answer;
                assert_eq!([byte(answer, 0) == 6, answer == six(1)], [less == 1; 2]);
            }
        }
    }
    assert_eq!(shortfalls.missing(), Vec::<String>::new());
}

#[test]
fn what_the_entry_script_prints() {
    let start = make_station::PLAIN.map(|word| word.to_string()).join(" ");
    let calls = format!(
        "shaper 100 300\ncharge 60\nwaiting 1\ncharge 60\ncharge 60\n\
         start {start}\nclient 0 16 1\ntick 0 0 1\nclient 2 64 1\nclient 2 64 1"
    );
    let expected = [
        "shaper charge 6 short 1 credit 100",
        "shaper tick credit 101",
        "shaper charge 0 short 0 credit 41",
        "shaper charge 6 short 60 credit 41",
        "mark 0 short 1 client 6 credits 100 100 100 100 100 held 0 0 0 received 0",
        "tick 0 credits 100 100 100 150 150 held 0 0 0 received 0",
        "mark 1 short 0 client 0 credits 100 100 100 86 86 held 0 0 0 received 0",
        "mark 0 short 0 client 5 credits 100 100 100 86 86 held 0 0 0 received 0",
    ];
    let mut script = entry_script::Script::default();
    let print = |line: &str| script.print(line).unwrap().unwrap();
    let printed: String = calls.lines().map(print).collect();
    assert_eq!(printed.lines().collect::<Vec<_>>(), expected);
}

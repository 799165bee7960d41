//! The script of a day.

use model::line::short;
use model::make_call::{self, Habit};
use model::make_station;
use model::random::Random;
use model::station::calls;
use model::station::reading::{NAMES, WORDS};
use model::station::settings::to_bytes;
use model::station_script::Script;
use std::collections::BTreeSet;

const FILE: &str = include_str!("../cases-station.txt");
const STARTS: &str = include_str!("../cases-start.txt");
const PLAIN: &str = "start 0x200 1 0 64 100 300 50 100 300 50 100 300 50 100 300 50 100 300 50 \
                     256 256 256 128 2 4 10 10000 4 64 64 63 0 3 64";

/// How the lives begin of a steady source, of hops within the ring and of the conservative
/// method, in the order of the day.
const STEADY: &str = "# A steady source of 100 bytes";
const SIX: &str = "# A ring of six. A station 3 hops away";
const EDGES: &str = "# Hops on a ring of six";
const ORDER: &str = "# 13 comes before 4, 5, 6 and 7";
const HEARD: &str = "# Fairness frames on a ring of six";
const TWO: &str = "# A ring of two";
const CALM: &str = "# The conservative method: a round trip of 3";
const LOW: &str = "# Entered at 17";
const EACH: &str = "# A round trip of 1";
const JUMPS: &str = "# The calls of the first of these with the aggressive method";

fn printed(script: &str) -> Vec<String> {
    let mut run = Script::default();
    let mut lines = Vec::new();
    for line in script.lines() {
        let text = run.print(line).unwrap().unwrap_or_default();
        lines.extend(text.lines().map(str::to_string));
    }
    lines
}

/// Each call's every outcome.
#[test]
fn the_day_reaches_every_refusal_of_every_call() {
    let lines = printed(FILE);
    assert!(lines.len() > 500);
    let reached: BTreeSet<&str> = lines.iter().map(|line| line.trim_end()).collect();
    let refusals: [(&str, &[u8]); 9] = [
        ("start", &[1, 2]),
        ("tick", &[3]),
        ("client", &[3, 5, 7, 13]),
        ("transit", &[3, 4, 13]),
        ("control", &[3, 4]),
        ("hear", &[2, 3, 11, 13]),
        ("tell", &[2]),
        ("show", &[2]),
        ("age", &[]),
    ];
    for (call, numbers) in refusals {
        for number in 1..=13 {
            let line = format!("{call} refused {number}");
            assert_eq!(
                reached.contains(&line[..]),
                numbers.contains(&number),
                "{line}"
            );
        }
    }
    for line in [
        "client eligible 0",
        "client eligible 1",
        "start done",
        "age done",
    ] {
        assert!(reached.contains(line), "{line}");
    }
    for origin in 0..=4 {
        let start = format!("select origin {origin} ");
        assert!(reached.iter().any(|line| line.starts_with(&start)));
    }
}

/// Only a client call refused with 6 has more than its number.
#[test]
fn the_day_says_how_far_short() {
    let lines = printed(FILE);
    let told = lines
        .iter()
        .filter_map(|line| line.strip_prefix("client refused 6 short "));
    let told: Vec<u64> = told.map(|missing| missing.parse().unwrap()).collect();
    for missing in [1, 15, 26, 32, 51, 63, 64, 9_215, 9_216] {
        assert!(told.contains(&missing), "{missing}");
    }
    let short = lines.iter().filter(|line| line.contains("short"));
    assert_eq!(short.count(), told.len());
}

/// Each word outside its range, then each at an end of it.
#[test]
fn the_starts_are_refused_then_carried_out() {
    let lines = printed(STARTS);
    let starts: Vec<&str> = lines
        .iter()
        .filter_map(|line| line.strip_prefix("start "))
        .collect();
    for run in ["refused 2", "refused 1", "done"] {
        assert!(starts.iter().filter(|start| **start == run).count() > 4);
    }
    assert_eq!(starts.chunk_by(|one, next| one == next).count(), 3);
}

/// The words of every reading that is shown.
fn readings(lines: &[String]) -> Vec<Vec<u32>> {
    let shows = lines.iter().filter(|line| line.starts_with("show creditM"));
    let words = shows.map(|line| {
        let words: Vec<&str> = line.split_whitespace().skip(1).collect();
        assert!(words.iter().step_by(2).eq(&NAMES));
        let values = words.iter().skip(1).step_by(2);
        values.map(|value| value.parse().unwrap()).collect()
    });
    words.collect()
}

/// Every word of a reading is something else at some time, and congested both ways.
#[test]
fn the_day_moves_every_word_of_a_reading() {
    let mut seen = vec![BTreeSet::new(); WORDS];
    let mut both = BTreeSet::new();
    for values in readings(&printed(FILE)) {
        assert_eq!(values.len(), WORDS);
        for (at, value) in values.iter().enumerate() {
            seen[at].insert(*value);
        }
        both.insert((values[25], values[26]));
    }
    for (name, values) in NAMES.iter().zip(seen) {
        assert!(values.len() > 1, "{name} is always {values:?}");
    }
    assert_eq!(both.len(), 4);
}

/// The lines of the day from this comment to that one, or to its end.
fn lives(from: &str, to: &str) -> Vec<String> {
    let place = |comment: &str| FILE.find(comment).unwrap();
    let end = if to.is_empty() { FILE.len() } else { place(to) };
    printed(&FILE[place(from)..end])
}

/// What these calls answer in the lives from this comment to that one: 0 where one was carried
/// out, else its refusal.
fn answers(call: &str, from: &str, to: &str) -> Vec<u8> {
    let lines = lives(from, to);
    let answers = lines.iter().filter_map(|line| line.strip_prefix(call));
    let number = |answer: &str| match answer.strip_prefix(" refused ") {
        Some(number) => number.split(' ').next().unwrap().parse().unwrap(),
        None => 0,
    };
    answers.map(number).collect()
}

/// The steady source of 100 comes to stand at 100, from below and from above; then once more
/// while the station is congested, when localFairRate and own rate are the rate shown.
#[test]
fn the_day_has_a_steady_source() {
    let readings = readings(&lives(STEADY, SIX));
    assert_eq!(readings.len(), 18);
    let (free, congested) = readings.split_at(9);
    let rates = [37, 37, 38, 99, 100, 100, 101, 100, 100];
    for (at, rate) in rates.into_iter().enumerate() {
        let expected = [rate, rate, rate, rate, 100_000, 100_000, 65_534, 65_534, 0];
        assert_eq!(free[at][17..26], expected);
        let expected = [rate, 0, 0, 0, rate, rate, 100_000, rate, 1];
        assert_eq!(congested[at][17..26], expected);
    }
}

/// "A faulty card told a ring of six that congestion stood forty hops away": it is refused and
/// changes nothing. What was known before, 3 hops away, is still told on, binds the frames that
/// go farther, and counts them.
#[test]
fn the_day_has_a_night_on_a_ring_of_six() {
    let lines = lives(SIX, EDGES);
    let readings = readings(&lines);
    assert_eq!(readings[1], readings[0]);
    assert_eq!(readings[1][26..], [1, 253, 0x0200, 0x5e00_0002, 5]);
    assert_eq!(readings[2][13..17], [81, 40, 40, 20]);
    let refused = lines.iter().filter(|line| line.contains("refused"));
    let refusals = ["hear refused 13"; 2]
        .into_iter()
        .chain(["client refused 7"; 2]);
    assert!(refused.eq(refusals));
    assert!(lines.contains(&"tell fca002005e00000200000005".to_string()));
}

/// The last hop and one more, in each call that names hops, on rings of six and of two.
#[test]
fn the_day_comes_to_the_last_hop() {
    let edges = |call: &str| answers(call, EDGES, ORDER);
    let client = [0, 13, 0, 13, 0, 13, 13, 13, 3, 3, 3, 3, 3, 3];
    assert_eq!(edges("client"), client);
    let transit = [0, 13, 0, 13, 0, 13, 13, 3, 3, 3, 3, 3, 3];
    assert_eq!(edges("transit"), transit);
    assert_eq!(edges("control"), [0, 3]);
    assert_eq!(answers("transit", ORDER, HEARD), [0, 13, 4]);
    let client = [13, 6, 0, 13, 5, 13, 7, 0];
    assert_eq!(answers("client", ORDER, HEARD), client);
    let heard = [0, 0, 13, 13, 3, 13, 13, 3, 13, 13, 11, 11, 2, 2, 2, 2, 0];
    let both_ways = [0, 0, 0, 13];
    assert_eq!(
        answers("hear", HEARD, TWO),
        [&heard[..], &both_ways].concat()
    );
    assert_eq!(answers("hear", TWO, CALM), [0, 13, 13, 13, 11, 0]);
    assert_eq!(answers("client", TWO, CALM), [0, 13, 13, 0]);
    assert_eq!(answers("transit", TWO, CALM), [0, 13]);
    assert_eq!(answers("control", TWO, CALM), [0]);
}

/// What is told there: at the last hop FULL_RATE, or the own rate where it comes first.
#[test]
fn the_day_tells_at_the_last_hop() {
    let full = "ffa002005e0000010000ffff";
    let own = "ffa002005e00000100000004";
    let on = "fba002005e00000200000003";
    let expected = ["fba002005e00000200000064", full, full, full];
    let both_ways = [own, own, full, on, on];
    let lines = lives(HEARD, CALM);
    let told = lines.iter().filter_map(|line| line.strip_prefix("tell "));
    assert!(told.eq([&expected[..], &both_ways, &[full; 2]].concat()));
}

/// localFairRate and whether the station is locally congested, of each reading; the allowed rate
/// and the own rate are localFairRate while it is.
fn fair_rates(from: &str, to: &str) -> Vec<(u32, u32)> {
    let of = |words: Vec<u32>| {
        let [fair, allowed, _, own, congested] = words[21..26] else {
            panic!("a reading has words 21 to 25");
        };
        assert_eq!(own, fair);
        assert!(congested == 0 || allowed == fair.min(100));
        (fair, congested)
    };
    readings(&lives(from, to)).into_iter().map(of).collect()
}

/// Entered at what is unreserved and below it, held, lowered, by 0 too, raised, and left 15 below
/// unreservedRate but not 16 below. With a round trip of 3 every third interval changes it.
#[test]
fn the_day_has_conservative_stations() {
    let cut = [100, 100, 94, 89, 84].map(|rate| (rate, 1));
    let left = [(84, 1), (85, 1), (100, 0), (100, 0), (100, 1), (100, 0)];
    let first = [&[(100, 0)][..], &cut, &left].concat();
    assert_eq!(fair_rates(CALM, LOW), first);
    let low = [17, 17, 16, 15, 15, 15, 20, 20, 19].map(|rate| (rate, 1));
    assert_eq!(fair_rates(LOW, EACH), low);
    let each = [100, 94, 89, 84, 79, 80, 81, 85].map(|rate| (rate, 1));
    let left = [(100, 0), (100, 1)];
    assert_eq!(fair_rates(EACH, JUMPS), [&each[..], &left].concat());
    assert_eq!(fair_rates(JUMPS, ""), [(576, 1), (474, 1), (100, 0)]);
}

/// It tells its own rate until it leaves, and what was received where that is less.
#[test]
fn the_day_tells_of_conservative_stations() {
    let own = |rate: &str| format!("ffa002005e0000010000{rate}");
    let told = |from: &str, to: &str| {
        let lines = lives(from, to);
        let told = lines.iter().filter_map(|line| line.strip_prefix("tell "));
        told.map(str::to_string).collect::<Vec<String>>()
    };
    let received = "fea002005e00000200000053".to_string();
    let congested = [own("0064"), own("0054"), own("0054"), received, own("0055")];
    let first = [&congested[..], &[own("ffff")]].concat();
    assert_eq!(told(CALM, LOW), first);
    assert_eq!(told(EACH, JUMPS), [own("0055"), own("ffff")]);
    assert_eq!(told(JUMPS, ""), [own("0240"), own("ffff")]);
}

#[test]
fn what_the_calls_print() {
    let script = format!(
        "# words\n\n{PLAIN}\ntell\nclient 0 16 1\ntick 0 0 1\nclient 2 0x20 9\nselect\nselect\n\
         control 16\ntransit 0 16 1 1\nhear ff a0 000000000002 0000 0005\ntell\ntell 11\nshow 1"
    );
    let expected = [
        "start done",
        "tell ffa00200000000010000ffff",
        "client refused 6 short 1",
        "tick done",
        "client eligible 1",
        "select origin 4 class 2 hops 9 eligible 1 size 32",
        "select origin 0 class 0 hops 0 eligible 0 size 0",
        "control done",
        "transit refused 3",
        "hear done",
        "tell fea000000000000200000005",
        "tell refused 2",
        "show refused 2",
    ];
    let lines = printed(&script);
    let lines: Vec<&str> = lines.iter().map(|line| line.trim_end()).collect();
    assert_eq!(lines, expected);
}

#[test]
fn a_call_repeats() {
    let once = format!("{PLAIN}\ntick 1 0 0\ntick 1 0 0\nselect\nselect\nselect\nshow");
    let short = format!("{PLAIN}\n2*tick 1 0 0\n3*select\n1*show");
    assert_eq!(printed(&short), printed(&once));
}

/// A random call as a line is that call.
#[test]
fn random_calls_as_lines() {
    let mut random = Random::new(7);
    for _ in 0..30 {
        let words = make_station::settings(&mut random);
        let mut model = None;
        calls::start(&to_bytes(&words), &mut model);
        let mut model = model.unwrap();
        let mut script = Script::default();
        let words = words.map(|word| word.to_string());
        script.print(&format!("start {}", words.join(" "))).unwrap();
        let habit = Habit::new(&mut random);
        for _ in 0..300 {
            let call = make_call::call(&mut random, &model, &habit);
            let (answer, _) = call.apply(&mut model, &call.other_slice(7));
            let line = script.print(&call.to_string()).unwrap().unwrap();
            let number = answer as u8;
            let refused = match short(answer) {
                0 => format!(" refused {number}\n"),
                missing => format!(" refused {number} short {missing}\n"),
            };
            assert_eq!(line.ends_with(&refused), number != 0, "{line}");
            assert_eq!(script.station(), Some(&model));
        }
    }
}

#[test]
fn a_line_that_is_no_call_is_named() {
    for line in [
        "tick 0 0",
        "select 1",
        "age 1",
        "hear 0",
        "hear xy",
        "tell 1 2",
        "client 1 2",
        "control a",
        "start 4294967296",
        "stop",
        "x*select",
        "2*stop",
    ] {
        let mut script = Script::default();
        script.print(PLAIN).unwrap();
        assert!(script.print(line).unwrap_err().starts_with(line));
    }
    assert!(Script::default().print("select").is_err());
}

//! The station: lives of random calls on sound and on damaged stations; each answer,
//! each lent byte, all bytes of the station and each reading compared.

mod apart;
mod counters;
mod difference;
mod every_method;
mod every_ring;
mod harm;
mod library;
mod life;
mod method;
mod scenes;
mod short;
mod sights;
mod steady;

use self::difference::part_by_part;
use self::harm::Harm;
use self::life::Life;
use self::sights::Sights;
use model::hops::Hops;
use model::lent::Lent;
use model::lent_call;
use model::make::wrong_length;
use model::make_call::{self, Habit};
use model::make_station;
use model::methods::Methods;
use model::random::Random;
use model::report::Outcome;
use model::shortfalls::Shortfalls;
use model::station::settings::{to_bytes, SETTINGS_LENGTH};
use model::station::{calls, layout, range};
use model::station_call::Call;
use model::tally::{self, Tally};
use model::text;

struct Trial {
    random: Random,
    tally: Tally,
    sights: Sights,
    shortfalls: Shortfalls,
    hops: Hops,
    methods: Methods,
    harm: Harm,
}

impl Trial {
    fn new(seed: u64) -> Trial {
        Trial {
            random: Random::new(seed),
            tally: Tally::new(tally::OF_STATIONS),
            sights: Sights::default(),
            shortfalls: Shortfalls::default(),
            hops: Hops::default(),
            methods: Methods::default(),
            harm: Harm::new(),
        }
    }

    /// A fresh station over whatever the memory held.
    fn start(&mut self, words: &[u32]) -> Outcome<Option<Life>> {
        let settings = to_bytes(words);
        let memory = self.random.bytes(library::station_length());
        let mut lent = Lent::new(&mut self.random, &memory);
        let answer = library::start(&settings, lent.bytes_mut());
        let mut model = None;
        let expected = calls::start(&settings, &mut model);
        let words: Vec<String> = words.iter().map(u32::to_string).collect();
        let line = format!("start {}", words.join(" "));
        if answer != expected || !lent.guards_intact() {
            return Err(format!("answer {answer:#x}, model {expected:#x}: {line}"));
        }
        let after = model.as_ref().map_or(memory, layout::write);
        if lent.bytes() != after {
            let what = part_by_part(lent.bytes(), &after, "model");
            return Err(format!("{what}: {line}"));
        }
        self.tally.count("rpr_start", answer, false);
        Ok(model.map(|model| Life {
            memory: after,
            model,
            script: vec![line],
            started: true,
        }))
    }

    /// Settings or a station of another length: 2, and nothing changes.
    fn start_of_another_length(&mut self) -> Outcome<()> {
        let random = &mut self.random;
        let right = [SETTINGS_LENGTH, library::station_length()];
        let mut lengths = right;
        let at = random.below(2);
        lengths[at] = wrong_length(random, right[at]);
        let mut settings = to_bytes(&make_station::settings_near(random));
        settings.resize(lengths[0], 0);
        let before = random.bytes(lengths[1]);
        let mut station = before.clone();
        let answer = library::start(&settings, &mut station);
        if answer != 2 || station != before {
            return Err(format!("start with lengths {lengths:?}: {answer:#x}"));
        }
        self.tally.count("rpr_start", answer, false);
        Ok(())
    }

    /// The answer, which is the model's too.
    fn call(&mut self, life: &mut Life, call: &Call) -> Outcome<u64> {
        self.methods.look(&life.model, call);
        if life.started {
            self.sights.look_before(&life.model, call);
        }
        let answer = life.make(&mut self.random, call)?;
        self.tally.count(call.function(), answer, false);
        self.shortfalls.look(&life.model, call, answer);
        self.hops.look(&life.model, call, answer);
        if life.started {
            self.sights.look(&life.model, call, answer);
        }
        if answer as u8 == 0 {
            life.compare(&mut self.random)?;
        }
        Ok(answer)
    }

    fn random_call(&mut self, life: &mut Life, habit: &Habit) -> Outcome<u64> {
        let call = make_call::call(&mut self.random, &life.model, habit);
        self.call(life, &call)
    }

    fn another_length(&mut self, life: &Life, habit: &Habit) -> Outcome<()> {
        let call = make_call::call(&mut self.random, &life.model, habit);
        let answer = life.another_length(&mut self.random, &call)?;
        self.tally.count(call.function(), answer, false);
        Ok(())
    }

    /// The station damaged, or one far from it, and calls on it.
    fn damage(&mut self, life: &Life, habit: &Habit) -> Outcome<()> {
        if self.random.one_in(3) {
            let bytes = self.harm.wild(&mut self.random, &life.memory);
            if let Some(wild) = Life::of_bytes(&bytes) {
                return self.damage_of(&wild, habit);
            }
        }
        self.damage_of(life, habit)
    }

    /// Each of the nine calls on a damaged station, and where it is in range now and then
    /// a life that goes on from it.
    fn damage_of(&mut self, life: &Life, habit: &Habit) -> Outcome<()> {
        let bytes = self.harm.damaged(&mut self.random, &life.memory);
        self.nine_calls(life, &bytes, habit).map_err(|what| {
            let changed = part_by_part(&bytes, &life.memory, "was");
            let faults = range::faults(&bytes).join(", ");
            let bytes = text::encode(&bytes);
            format!("{what}\n  changed: {changed}\n  out of range: {faults}\n  station: {bytes}")
        })?;
        if let Some(mut other) = Life::of_bytes(&bytes) {
            for _ in 0..self.random.pick(&[0, 12]) {
                self.random_call(&mut other, habit)?;
            }
        }
        Ok(())
    }

    /// Each call on a copy of the bytes.
    fn nine_calls(&mut self, life: &Life, bytes: &[u8], habit: &Habit) -> Outcome<()> {
        let read = layout::read(bytes);
        let model = read.as_ref().unwrap_or(&life.model);
        for kind in 0..make_call::KINDS {
            let call = make_call::of_kind(&mut self.random, kind, model, habit);
            let other = call.other_slice(self.random.word() as u8);
            let after = lent_call::apply(&call, bytes, &other);
            let mut copy = bytes.to_vec();
            let answer = life::same(&mut self.random, &call, &mut copy, &other, &after)
                .map_err(|what| format!("{call}: {what}"))?;
            self.tally.count(call.function(), answer, false);
            self.shortfalls.look(model, &call, answer);
            match &read {
                Ok(station) => {
                    self.hops.look(station, &call, answer);
                    self.methods.look(station, &call);
                }
                Err(_) => self.harm.look_at_order(&call, bytes, &life.model, answer),
            }
        }
        Ok(())
    }

    /// A station from its start through some hundred calls.
    fn life(&mut self) -> Outcome<()> {
        let words = make_station::settings(&mut self.random);
        let Some(mut life) = self.start(&words)? else {
            return Ok(());
        };
        life.compare(&mut self.random)?;
        let mut habit = Habit::new(&mut self.random);
        for _ in 0..3 {
            self.damage(&life, &habit)?;
        }
        for _ in 0..self.random.between(20, 900) {
            if self.random.one_in(60) {
                habit = Habit::new(&mut self.random);
            }
            if self.random.one_in(60) {
                self.another_length(&life, &habit)?;
            }
            if self.random.one_in(12) {
                self.damage(&life, &habit)?;
            }
            if self.random.one_in(40) {
                self.short(&life)?;
                self.at_edge(&life)?;
            }
            self.random_call(&mut life, &habit)?;
        }
        Ok(())
    }

    /// Lives, and starts that are refused, until so many calls are made. What was never
    /// seen.
    fn rounds(&mut self, calls: u64) -> Outcome<Vec<String>> {
        if library::station_length() != layout::STATION_LENGTH {
            return Err("a station has another length than the layout says".to_string());
        }
        println!("{} calls until counters stop", counters::stopping()?);
        println!("{} calls on every ring", every_ring::every_ring()?);
        println!("{} calls at every edge", every_method::every_method()?);
        let [down, up] = apart::lives(self.random.word())?;
        println!("localFairRate lowered {down} times and raised {up} times, each apart");
        let steady = steady::walks(self.random.word())?;
        println!("{steady}");
        scenes::play(self)?;
        while self.tally.calls() < calls {
            self.life()?;
            let words = make_station::settings_near(&mut self.random);
            if let Some(mut life) = self.start(&words)? {
                life.compare(&mut self.random)?;
            }
            self.start_of_another_length()?;
        }
        let mut missing = self.sights.missing();
        missing.extend(steady.missing());
        missing.extend(self.shortfalls.missing());
        missing.extend(self.hops.missing());
        missing.extend(self.methods.missing());
        missing.extend(self.harm.missing());
        Ok(missing)
    }
}

/// The tally of so many calls, and the first difference or what was never seen.
pub fn run(seed: u64, calls: u64) -> (Tally, Outcome<Vec<String>>) {
    let mut trial = Trial::new(seed);
    let outcome = trial.rounds(calls);
    println!("{}\n{}\n{}", trial.harm, trial.shortfalls, trial.hops);
    println!("{}", trial.methods);
    (trial.tally, outcome)
}

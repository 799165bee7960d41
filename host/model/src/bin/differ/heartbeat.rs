//! Heartbeats: random patterns and repeats, every answer and every lent byte compared, and what the
//! library itself answers about the written-out record.

use crate::calls::{rpr_heartbeat, rpr_settle, rpr_summarize};
use crate::edge::Edge;
use model::heartbeat::{self, most_repeats, MOST_IN_PATTERN};
use model::heartbeats::Heartbeats;
use model::host::{self, SUMMARY_LENGTH};
use model::item::Listed;
use model::lent::Lent;
use model::make_broken;
use model::make_heartbeat::{self, Fault};
use model::random::Random;
use model::record::{Record, MOST_EVENTS};
use model::report::{Call, Outcome};
use model::tally::{self, Tally};
use std::collections::BTreeSet;

/// A written-out record of more events is summed one time in so many.
const SHORT: usize = 2_000;
const LONG_ONE_IN: usize = 1_000;

/// What is seen of written-out records: not permitted, permitted, and refused.
const WRITTEN_OUT: [&str; 3] = [
    "a written-out record that is not permitted",
    "a written-out record that is permitted",
    "a written-out record of over 1000000 events",
];
/// What is seen of the laws.
const STEADY: &str = "steady: every number of repeats is permitted";
const LOST: &str = "lost: no greater number of repeats is permitted";

struct Trial {
    random: Random,
    edge: Edge,
    tally: Tally,
    sights: Heartbeats,
    seen: BTreeSet<String>,
}

impl Trial {
    fn see(&mut self, sight: &str) {
        self.seen.insert(sight.to_string());
    }

    /// Calls rpr_heartbeat, twice: with other bytes around the pattern, and with nothing behind it
    /// that may be read. The answer.
    fn heartbeat(&mut self, pattern: &[u8], repeats: u64) -> Outcome<u64> {
        let mut lent = Lent::new(&mut self.random, pattern);
        // SAFETY: the slice is real memory that nothing else uses.
        let answer = unsafe { rpr_heartbeat(lent.pointer(), lent.length(), repeats) };
        let call = of_heartbeat(pattern, repeats);
        call.same_answer(host::heartbeat(pattern, repeats), answer)?;
        call.same_bytes("pattern", pattern, &lent)?;
        if let Some(place) = self.edge.lend(pattern) {
            // SAFETY: so many bytes stand there, and nothing else uses them.
            let again = unsafe { rpr_heartbeat(place, pattern.len(), repeats) };
            call.same_answer(answer, again)?;
        }
        self.tally.count(call.function, answer, false);
        Ok(answer)
    }

    /// A call, and what the library itself answers about the written-out record.
    fn call(&mut self, (pattern, repeats): &make_heartbeat::Call) -> Outcome<()> {
        let answer = self.heartbeat(pattern, *repeats)?;
        self.sights.look(pattern, *repeats);
        let Ok(read) = heartbeat::pattern(pattern) else {
            return Ok(());
        };
        let events = u128::from(*repeats) * read.events.len() as u128;
        let long = events > SHORT as u128;
        if events > 2 * MOST_EVENTS as u128 || long && !self.random.one_in(LONG_ONE_IN) {
            return Ok(());
        }
        self.written_out(&read, *repeats, answer)
    }

    /// "equal the answer from the written-out record", by rpr_summarize and rpr_settle.
    fn written_out(&mut self, pattern: &Record, repeats: u64, answer: u64) -> Outcome<()> {
        let mut record = heartbeat::written_out(pattern, repeats).to_bytes();
        let mut room = [0; SUMMARY_LENGTH];
        let start = u64::from(pattern.settings.lo_limit);
        // SAFETY: both slices are real memory that nothing else uses.
        let settled = unsafe {
            let room = room.as_mut_ptr();
            match rpr_summarize(record.as_mut_ptr(), record.len(), room, SUMMARY_LENGTH) {
                0 => rpr_settle(room, SUMMARY_LENGTH, start),
                refused => refused,
            }
        };
        let sight = match settled as u8 {
            0 => (settled >> 8) as usize & 1,
            _ => 2,
        };
        self.see(WRITTEN_OUT[sight]);
        if settled == answer {
            return Ok(());
        }
        let pattern = pattern.to_bytes();
        let what = format!("answer {answer:#018x}, of the written-out record {settled:#018x}");
        Err(of_heartbeat(&pattern, repeats).fault(&what))
    }

    /// By the library's own answers: where one round ends at loLimit or above, every number of
    /// repeats is permitted; and once a number is not permitted, no greater one is.
    fn laws(&mut self) -> Outcome<()> {
        let pattern = make_heartbeat::pattern(&mut self.random);
        let bytes = pattern.to_bytes();
        let once = self.heartbeat(&bytes, 1)?;
        let steady = once != 0 && once >> 32 >= u64::from(pattern.settings.lo_limit);
        let mut lost = once == 0;
        let most = most_repeats(pattern.events());
        let mut numbers: Vec<u64> = (0..6)
            .map(|_| 2 + self.random.word() % (most - 1).max(1))
            .filter(|number| *number <= most)
            .collect();
        numbers.extend([2, 3, most]);
        numbers.sort_unstable();
        for number in numbers {
            let permitted = self.heartbeat(&bytes, number)? != 0;
            if permitted && lost || !permitted && steady {
                let call = of_heartbeat(&bytes, number);
                return Err(call.fault("not what fewer repeats say"));
            }
            lost |= !permitted;
        }
        if steady {
            self.see(STEADY);
        } else if lost {
            self.see(LOST);
        }
        Ok(())
    }

    /// A pattern with runs and the same without have the same answer.
    fn forms(&mut self) -> Outcome<()> {
        let pattern = make_heartbeat::pattern(&mut self.random);
        let old = Listed::plain(&pattern.unrolled());
        let repeats = make_heartbeat::repeats(&mut self.random, &pattern.unrolled());
        let answers = [
            self.heartbeat(&pattern.to_bytes(), repeats)?,
            self.heartbeat(&old.to_bytes(), repeats)?,
        ];
        if answers[0] == answers[1] {
            return Ok(());
        }
        Err(of_heartbeat(&pattern.to_bytes(), repeats).fault("another answer without runs"))
    }

    /// The call without a fault too.
    fn broken(&mut self, (name, fault): (&str, Fault)) -> Outcome<()> {
        let (whole, call) = make_heartbeat::make(&mut self.random, fault);
        self.call(&whole)?;
        self.call(&call)?;
        self.see(name);
        Ok(())
    }

    /// Each rule broken alone, and each rule of runs at the 256th event and behind it.
    fn every_broken(&mut self) -> Outcome<()> {
        for broken in make_heartbeat::EVERY {
            self.broken(*broken)?;
        }
        for broken in make_broken::EVERY {
            for left in 0..3 {
                let events = MOST_IN_PATTERN - left;
                let bytes = make_broken::behind(&mut self.random, events, broken.fault);
                self.call(&(bytes, 1))?;
            }
        }
        Ok(())
    }

    /// Written-out records of a million events, and of more, come first.
    fn rounds(&mut self, calls: u64) -> Outcome<()> {
        for (events, repeats) in [(256, 3_906), (256, 3_907), (1, MOST_EVENTS as u64)] {
            let pattern = make_heartbeat::pattern_of(&mut self.random, events);
            let answer = self.heartbeat(&pattern.to_bytes(), repeats)?;
            self.written_out(&pattern.unrolled(), repeats, answer)?;
        }
        for _ in 0..20 {
            self.every_broken()?;
        }
        while self.tally.calls() < calls {
            match self.random.below(10) {
                0 => self.laws()?,
                1 => self.forms()?,
                _ => {
                    let call = make_heartbeat::any(&mut self.random);
                    self.call(&call)?;
                }
            }
        }
        Ok(())
    }

    fn missing(&self) -> Vec<String> {
        let broken = make_heartbeat::EVERY.iter().map(|(name, _)| *name);
        let names = broken.chain(WRITTEN_OUT).chain([STEADY, LOST]);
        let unseen = names.filter(|name| !self.seen.contains(*name));
        let unseen = unseen.map(str::to_string);
        unseen.chain(self.sights.missing()).collect()
    }
}

fn of_heartbeat(pattern: &[u8], repeats: u64) -> Call<'_> {
    Call {
        function: "rpr_heartbeat",
        slices: vec![("pattern", pattern)],
        number: Some(("repeats", repeats)),
    }
}

/// The tally of so many calls, and the first difference.
pub fn run(seed: u64, calls: u64) -> (Tally, Outcome<Vec<String>>) {
    let mut trial = Trial {
        random: Random::new(seed),
        edge: Edge::new(),
        tally: Tally::new(tally::OF_HEARTBEATS),
        sights: Heartbeats::default(),
        seen: BTreeSet::new(),
    };
    let outcome = trial.rounds(calls);
    let missing = trial.missing();
    (trial.tally, outcome.map(|()| missing))
}

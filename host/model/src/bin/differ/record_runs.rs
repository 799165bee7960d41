//! The movers, and records in which a rule of runs is broken.

use crate::calls::{rpr_roll, rpr_unroll};
use crate::record::{Reads, Trial};
use model::host;
use model::make;
use model::make_broken::{self, Broken};
use model::make_runs::{self, LONG, ROOMS};
use model::movers;
use model::record::Record;
use model::refusal::Refusal;
use model::report::{notation, Outcome};
use std::collections::BTreeSet;

/// A mover's call, and the bytes that it moves a record to.
struct Mover {
    call: Reads,
    output: fn(&[u8]) -> Result<Vec<u8>, Refusal>,
}

const ROLL: Mover = Mover {
    call: Reads {
        function: "rpr_roll",
        library: rpr_roll,
        model: host::roll,
    },
    output: movers::roll,
};
const UNROLL: Mover = Mover {
    call: Reads {
        function: "rpr_unroll",
        library: rpr_unroll,
        model: host::unroll,
    },
    output: movers::unroll,
};

const AGAIN: [&str; 2] = [
    "other bytes when rolled again",
    "the same bytes when rolled again",
];
const CUT: &str = "a cut inside a run";

/// What must have come up beside every refusal.
#[derive(Default)]
pub struct Sights {
    seen: BTreeSet<String>,
}

impl Sights {
    fn see(&mut self, sight: &str) {
        self.seen.insert(sight.to_string());
    }

    pub fn see_cut(&mut self, inside: bool) {
        if inside {
            self.see(CUT);
        }
    }

    pub fn missing(&self) -> Vec<String> {
        let mut all: Vec<String> = AGAIN.map(str::to_string).to_vec();
        all.push(CUT.to_string());
        for room in ROOMS {
            all.extend([ROLL, UNROLL].map(|mover| in_room(&mover, room)));
        }
        let broken = make_broken::EVERY.iter();
        all.extend(broken.map(|broken| broken.name.to_string()));
        all.retain(|sight| !self.seen.contains(sight));
        all
    }
}

fn in_room(mover: &Mover, room: &str) -> String {
    format!("{}, {room}", mover.call.function)
}

impl Trial {
    /// Calls a mover, with a room of any sort; what it wrote, where it did.
    fn moved(&mut self, mover: &Mover, record: &[u8]) -> Outcome<Option<Vec<u8>>> {
        let output = (mover.output)(record);
        let needed = output.as_ref().map_or(record.len(), Vec::len);
        let sort = self.random.pick(&[0, 1, 2, 3, 3, 3, 4, 4, 4, 4]);
        let length = make_runs::room(&mut self.random, sort, needed);
        let room = self.random.bytes(length);
        let (answer, after) = self.reads(&mover.call, record, &room)?;
        if output.is_ok() {
            self.sights.see(&in_room(mover, ROOMS[sort]));
        }
        // "bytes 4 to 7: bytes written"
        let written = (answer >> 32) as usize;
        Ok((answer as u8 == 0).then(|| after[..written].to_vec()))
    }

    /// Both movers on bytes that may be no record.
    pub fn moved_both_ways(&mut self, record: &[u8]) -> Outcome<()> {
        self.moved(&ROLL, record)?;
        self.moved(&UNROLL, record).map(|_| ())
    }

    /// "Old to new to old gives the same bytes", by the library's own answers.
    fn moved_and_back(&mut self, record: &Record) -> Outcome<()> {
        let old = record.to_bytes();
        let Some(new) = self.moved(&ROLL, &old)? else {
            return Ok(());
        };
        match self.moved(&UNROLL, &new)? {
            Some(back) if back != old => {
                let record = notation(&old);
                Err(format!("rolled and unrolled differs\n  record: {record}"))
            }
            _ => Ok(()),
        }
    }

    pub fn any_moved_and_back(&mut self) -> Outcome<()> {
        let record = match self.random.one_in(3) {
            true => make::record(&mut self.random, 200),
            false => make_runs::record(&mut self.random),
        };
        self.moved_and_back(&record)
    }

    /// Stretches at the ends of the longest runs, each some times.
    pub fn long_moved_and_back(&mut self) -> Outcome<()> {
        for ticks in LONG.repeat(4) {
            let record = make_runs::long_stretch(&mut self.random, ticks);
            self.moved_and_back(&record)?;
        }
        Ok(())
    }

    /// "New to old to new gives the same bytes exactly when the runs were already longest." And
    /// both forms have the same summary.
    pub fn moved_again(&mut self) -> Outcome<()> {
        let record = make_runs::listed(&mut self.random);
        let new = record.to_bytes();
        let differs = |what: &str| Err(format!("{what}\n  record: {}", notation(&new)));
        let Some(old) = self.moved(&UNROLL, &new)? else {
            return Ok(());
        };
        if self.summarize(&new)? != self.summarize(&old)? {
            return differs("the summaries of both forms differ");
        }
        let Some(again) = self.moved(&ROLL, &old)? else {
            return Ok(());
        };
        let same = again == new;
        self.sights.see(AGAIN[usize::from(same)]);
        match same == record.longest() {
            true => Ok(()),
            false => differs("unrolled and rolled again, the longest runs are other ones"),
        }
    }

    /// The whole record too, and the fault in the last item, behind a million events and one less.
    fn broken(&mut self, broken: &Broken) -> Outcome<()> {
        let random = &mut self.random;
        let (whole, bytes) = make_broken::make(random, broken.fault);
        let [behind, before] =
            [0, 1].map(|left| make_broken::at_million(random, left, broken.fault));
        for record in [whole, bytes, behind, before] {
            self.summarize(&record)?;
            self.moved_both_ways(&record)?;
        }
        self.sights.see(broken.name);
        Ok(())
    }

    /// Each rule of runs broken alone.
    pub fn every_broken(&mut self) -> Outcome<()> {
        let mut every = make_broken::EVERY.iter();
        every.try_for_each(|broken| self.broken(broken))
    }

    /// One of them that needs no million events.
    pub fn any_broken(&mut self) -> Outcome<()> {
        let short = make_broken::EVERY
            .iter()
            .filter(|broken| broken.number == 2);
        let short: Vec<&Broken> = short.collect();
        let broken = self.random.pick(&short);
        self.broken(broken)
    }
}

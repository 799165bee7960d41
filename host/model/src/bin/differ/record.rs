//! Records of both forms and summaries: random calls, every answer and every lent byte compared.

use crate::calls::{rpr_join, rpr_settle, rpr_summarize};
use crate::record_runs::Sights;
use model::host::{self, SUMMARY_LENGTH};
use model::item::Listed;
use model::lent::Lent;
use model::make;
use model::make_runs;
use model::random::Random;
use model::record::MOST_EVENTS;
use model::report::{notation, Call, Outcome};
use model::summary::{self, Summary};
use model::tally::{self, Tally};
use model::text;

/// One in so many rounds is about a record of a million events.
const ROUNDS_PER_MILLION: usize = 2_000;

/// A call that reads a record and writes a room: its name, the library's and the model's.
pub struct Reads {
    pub function: &'static str,
    pub library: unsafe extern "C" fn(*const u8, usize, *mut u8, usize) -> u64,
    pub model: fn(&[u8], &[u8]) -> (u64, Vec<u8>),
}

const SUMMARIZE: Reads = Reads {
    function: "rpr_summarize",
    library: rpr_summarize,
    model: host::summarize,
};

pub struct Trial {
    pub random: Random,
    pub tally: Tally,
    pub sights: Sights,
}

impl Trial {
    /// Calls a function that reads a record; the answer and the room's bytes afterwards.
    pub fn reads(&mut self, reads: &Reads, record: &[u8], room: &[u8]) -> Outcome<(u64, Vec<u8>)> {
        let mut lent = Lent::new(&mut self.random, record);
        let mut lent_room = Lent::new(&mut self.random, room);
        // SAFETY: both slices are real memory that nothing else uses.
        let answer = unsafe {
            (reads.library)(
                lent.pointer(),
                lent.length(),
                lent_room.pointer(),
                lent_room.length(),
            )
        };
        let call = Call {
            function: reads.function,
            slices: vec![("record", record), ("room", room)],
            number: None,
        };
        let (expected, after) = (reads.model)(record, room);
        call.same_answer(expected, answer)?;
        call.same_bytes("record", record, &lent)?;
        call.same_bytes("room", &after, &lent_room)?;
        let wrong_room = room.len() != SUMMARY_LENGTH;
        self.tally.count(call.function, answer, wrong_room);
        Ok((answer, after))
    }

    /// Calls rpr_summarize; the room's bytes afterwards.
    pub fn summarize(&mut self, record: &[u8]) -> Outcome<Vec<u8>> {
        let room = self.room();
        Ok(self.reads(&SUMMARIZE, record, &room)?.1)
    }

    /// Calls rpr_join; the answer and the room's bytes afterwards.
    fn join(&mut self, first: &[u8], second: &[u8], room: &[u8]) -> Outcome<(u64, Vec<u8>)> {
        let mut lent_first = Lent::new(&mut self.random, first);
        let mut lent_second = Lent::new(&mut self.random, second);
        let mut lent_room = Lent::new(&mut self.random, room);
        let first_pointer = lent_first.pointer();
        // Two slices that are only read may be the same memory.
        let second_pointer = match first == second {
            true => first_pointer,
            false => lent_second.pointer(),
        };
        // SAFETY: the slices are real memory that nothing else uses.
        let answer = unsafe {
            rpr_join(
                first_pointer,
                first.len(),
                second_pointer,
                second.len(),
                lent_room.pointer(),
                lent_room.length(),
            )
        };
        let call = Call {
            function: "rpr_join",
            slices: vec![("first", first), ("second", second), ("room", room)],
            number: None,
        };
        let (expected, after) = host::join(first, second, room);
        call.same_answer(expected, answer)?;
        call.same_bytes("first", first, &lent_first)?;
        call.same_bytes("second", second, &lent_second)?;
        call.same_bytes("room", &after, &lent_room)?;
        self.tally.count(call.function, answer, false);
        Ok((answer, after))
    }

    /// Calls rpr_settle; the answer.
    fn settle(&mut self, summary: &[u8], start: u64) -> Outcome<u64> {
        let mut lent = Lent::new(&mut self.random, summary);
        // SAFETY: the slice is real memory that nothing else uses.
        let answer = unsafe { rpr_settle(lent.pointer(), lent.length(), start) };
        let call = Call {
            function: "rpr_settle",
            slices: vec![("summary", summary)],
            number: Some(("start", start)),
        };
        call.same_answer(host::settle(summary, start), answer)?;
        call.same_bytes("summary", summary, &lent)?;
        self.tally.count(call.function, answer, false);
        Ok(answer)
    }

    fn room(&mut self) -> Vec<u8> {
        self.random.bytes(SUMMARY_LENGTH)
    }

    fn slice_of_wrong_length(&mut self) -> Vec<u8> {
        let length = make::wrong_length(&mut self.random, SUMMARY_LENGTH);
        self.random.bytes(length)
    }

    /// A valid record of the old form, or of either.
    fn valid(&mut self, most: usize) -> Listed {
        match self.random.one_in(2) {
            true => Listed::plain(&make::record(&mut self.random, most)),
            false => make_runs::listed(&mut self.random),
        }
    }

    /// A valid record's summary, settled from random credits; each end is also that
    /// of the events one by one.
    fn whole(&mut self) -> Outcome<()> {
        let record = self.valid(200);
        let bytes = self.summarize(&record.to_bytes())?;
        let read = host::from_bytes(&bytes).map_err(|_| "no summary in the room")?;
        for _ in 0..3 {
            let start = make::start(&mut self.random, &read);
            let answer = self.settle(&bytes, start)?;
            if start <= u64::from(record.settings.hi_limit) {
                same_run(&record, start, answer)?;
            }
        }
        Ok(())
    }

    /// A record cut between events, inside runs too; its pieces joined in a random grouping.
    fn pieces(&mut self, record: &Listed) -> Outcome<()> {
        let events = record.events();
        let mut cuts = vec![0, events];
        for _ in 0..self.random.below(7) {
            cuts.push(self.random.below(events + 1));
        }
        cuts.sort_unstable();
        let mut parts = Vec::new();
        let mut items = 0;
        for ends in cuts.windows(2) {
            let piece = record.piece(ends[0], ends[1]);
            items += piece.items.len();
            parts.push(self.summarize(&piece.to_bytes())?);
        }
        self.sights.see_cut(items > record.items.len());
        while parts.len() > 1 {
            let at = self.random.below(parts.len() - 1);
            let second = parts.remove(at + 1);
            let room = self.room();
            parts[at] = self.join(&parts[at], &second, &room)?.1;
        }
        let (_, whole) = host::summarize(&record.to_bytes(), &self.room());
        if parts[0] == whole {
            return Ok(());
        }
        let record = notation(&record.to_bytes());
        Err(format!(
            "pieces cut at {cuts:?} and joined differ from the whole\n  record: {record}"
        ))
    }

    fn damaged(&mut self) -> Outcome<()> {
        let record = match self.random.one_in(2) {
            true => make::damaged(&mut self.random, 40),
            false => make_runs::damaged(&mut self.random),
        };
        self.summarize(&record)?;
        self.moved_both_ways(&record)
    }

    fn near_million(&mut self) -> Outcome<()> {
        let record = match self.random.one_in(2) {
            true => make::near_million(&mut self.random),
            false => make_runs::near_million(&mut self.random),
        };
        self.summarize(&record)?;
        self.moved_both_ways(&record)
    }

    /// A summary's bytes: in range, or nearly, or with a bit changed.
    fn summary_near(&mut self, summary: Summary) -> Vec<u8> {
        let random = &mut self.random;
        if random.one_in(2) {
            return host::to_bytes(&make::summary_near(random, summary));
        }
        let mut bytes = host::to_bytes(&summary);
        bytes[random.below(SUMMARY_LENGTH)] ^= 1 << random.below(8);
        bytes
    }

    /// Three summaries of the same settings, joined in both groupings.
    fn groupings(&mut self) -> Outcome<()> {
        let settings = make::settings(&mut self.random);
        let summaries: Vec<Vec<u8>> = (0..3)
            .map(|_| host::to_bytes(&make::summary_of(&mut self.random, settings)))
            .collect();
        let [one, two, three] = &summaries[..] else {
            return Ok(());
        };
        let room = self.room();
        let (refused_left, left) = self.join(one, two, &room)?;
        let (refused_right, right) = self.join(two, three, &room)?;
        let left = match refused_left {
            0 => self.join(&left, three, &room)?,
            _ => (refused_left, room.clone()),
        };
        let right = match refused_right {
            0 => self.join(one, &right, &room)?,
            _ => (refused_right, room.clone()),
        };
        if left == right {
            return Ok(());
        }
        let shown: Vec<String> = summaries.iter().map(|bytes| text::encode(bytes)).collect();
        Err(format!("the groupings differ\n  {}", shown.join("\n  ")))
    }

    /// Summaries nearly in range, of different settings, or of too many events.
    fn odd_join(&mut self) -> Outcome<()> {
        let settings = make::settings(&mut self.random);
        let first = make::summary_of(&mut self.random, settings);
        let other = match self.random.below(4) {
            0 => make::settings_beside(&mut self.random, settings),
            1 if self.random.one_in(4) => make::settings(&mut self.random),
            _ => settings,
        };
        let second = make::summary_of(&mut self.random, other);
        let mut slices = [host::to_bytes(&first), host::to_bytes(&second)];
        match self.random.below(4) {
            0 => slices[0] = self.summary_near(first),
            1 => slices[1] = self.summary_near(second),
            _ => {}
        }
        let room = self.room();
        self.join(&slices[0], &slices[1], &room).map(|_| ())
    }

    fn odd_settle(&mut self) -> Outcome<()> {
        let settings = make::settings(&mut self.random);
        let summary = make::summary_of(&mut self.random, settings);
        let start = make::start(&mut self.random, &summary);
        let bytes = match self.random.below(2) {
            0 => self.summary_near(summary),
            _ => host::to_bytes(&summary),
        };
        self.settle(&bytes, start).map(|_| ())
    }

    /// One slice, or any of them, of another length.
    fn wrong_lengths(&mut self) -> Outcome<()> {
        let settings = make::settings(&mut self.random);
        let summary = make::summary_of(&mut self.random, settings);
        let wrong = self.slice_of_wrong_length();
        match self.random.below(3) {
            0 => {
                let record = match self.random.below(2) {
                    0 => make::damaged(&mut self.random, 10),
                    _ => make::record(&mut self.random, 10).to_bytes(),
                };
                self.reads(&SUMMARIZE, &record, &wrong).map(|_| ())
            }
            1 => {
                let summary = self.summary_near(summary);
                let mut slices = [summary.clone(), summary, self.room()];
                slices[self.random.below(3)] = wrong;
                if self.random.one_in(3) {
                    slices[self.random.below(3)] = self.slice_of_wrong_length();
                }
                let [first, second, room] = &slices;
                self.join(first, second, room).map(|_| ())
            }
            _ => {
                let start = make::start(&mut self.random, &summary);
                self.settle(&wrong, start).map(|_| ())
            }
        }
    }

    fn round(&mut self) -> Outcome<()> {
        match self.random.below(26) {
            0..=5 => self.whole(),
            6..=9 => {
                let record = self.valid(100);
                self.pieces(&record)
            }
            10..=13 => self.damaged(),
            14 | 15 => self.groupings(),
            16 | 17 => self.odd_join(),
            18 => self.odd_settle(),
            19 => self.wrong_lengths(),
            20..=22 => self.any_moved_and_back(),
            23 | 24 => self.moved_again(),
            _ => self.any_broken(),
        }
    }

    /// Records of a million events come first, then now and then; each rule of runs broken too.
    fn rounds(&mut self, calls: u64) -> Outcome<()> {
        let million = Listed::plain(&make::long_record(&mut self.random, MOST_EVENTS));
        self.pieces(&million)?;
        let run = make_runs::filled(&mut self.random, 0, 2).items[0].to_bytes();
        for behind in [&[0][..], &run] {
            let bytes = [&million.to_bytes(), behind].concat();
            self.summarize(&bytes)?;
            self.moved_both_ways(&bytes)?;
        }
        self.long_moved_and_back()?;
        self.every_broken()?;
        while self.tally.calls() < calls {
            match self.random.one_in(ROUNDS_PER_MILLION) {
                true => self.near_million()?,
                false => self.round()?,
            }
        }
        Ok(())
    }
}

/// The tally of so many calls, and the first difference.
pub fn run(seed: u64, calls: u64) -> (Tally, Outcome<Vec<String>>) {
    let mut trial = Trial {
        random: Random::new(seed),
        tally: Tally::new(tally::OF_RECORDS),
        sights: Sights::default(),
    };
    let outcome = trial.rounds(calls);
    let missing = trial.sights.missing();
    (trial.tally, outcome.map(|()| missing))
}

/// The answer of rpr_settle against the shaper run event by event.
fn same_run(record: &Listed, start: u64, answer: u64) -> Outcome<()> {
    let events = record.unrolled().events;
    let end = summary::run(&record.settings, &events, i128::from(start));
    let expected = end.map_or(0, |end| 1 << 8 | (end as u64) << 32);
    if expected == answer {
        return Ok(());
    }
    let record = notation(&record.to_bytes());
    Err(format!(
        "rpr_settle: answer {answer:#018x}, event by event {expected:#018x}\n  \
         record: {record}\n  start: {start}"
    ))
}

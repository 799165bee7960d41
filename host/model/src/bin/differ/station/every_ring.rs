//! Every number of stations with every number of hops and every ttl; what is told then, read by
//! another station of the ring; and a rate that goes round the ring from station to station.

use super::life::Life;
use super::{library, Trial};
use model::make_station;
use model::report::Outcome;
use model::station::fairness::FRAME_LENGTH;
use model::station::layout::{self, word};
use model::station::reading::READING_LENGTH;
use model::station_call::Call;

type Frame = [u8; FRAME_LENGTH];

/// Each near a number of stations in range, or such a number with a higher bit.
const NO_RINGS: [u32; 8] = [0, 1, 64, 65, 258, 65_542, 0x8000_0006, u32::MAX];

const OWN: [u8; 6] = [2, 0, 0x5e, 0, 0, 1];
const OTHER: [u8; 6] = [2, 0, 0x5e, 0, 0, 2];

/// The own rate of a station that is locally congested.
const OWN_RATE: u16 = 7;

fn fairness(ttl: u8, address: [u8; 6], rate: u16) -> Frame {
    let mut frame = [0; FRAME_LENGTH];
    frame[..2].copy_from_slice(&[ttl, 0xa0]);
    frame[2..8].copy_from_slice(&address);
    frame[10..].copy_from_slice(&rate.to_be_bytes());
    frame
}

fn hear(frame: &Frame) -> Call {
    Call::Hear(frame.to_vec())
}

/// Calls on stations of rings of one size.
struct Ring {
    trial: Trial,
    stations: u32,
    made: u64,
}

impl Ring {
    /// A fresh station of the ring; the words replace some of the plain ones.
    fn start(&mut self, changes: &[(usize, u32)]) -> Outcome<Life> {
        let mut words = make_station::words(changes);
        words[30] = self.stations;
        self.made += 1;
        let life = self.trial.start(&words)?;
        life.ok_or_else(|| format!("a ring of {} stations is refused", self.stations))
    }

    /// A call on a copy of the station. The copy and the answer, which is the model's too.
    fn on_copy(&mut self, life: &Life, call: &Call) -> Outcome<(Life, u64)> {
        let mut copy = life.clone();
        self.made += 1;
        let answer = copy.make(&mut self.trial.random, call)?;
        Ok((copy, answer))
    }

    fn carry_out(&mut self, life: &mut Life, call: &Call) -> Outcome<()> {
        self.made += 1;
        life.carry_out(&mut self.trial.random, call)
    }

    /// The frame that the library writes.
    fn told(&mut self, life: &mut Life) -> Outcome<Frame> {
        let tell = Call::Tell(FRAME_LENGTH);
        self.carry_out(life, &tell)?;
        let mut room = [0; FRAME_LENGTH];
        library::call(&tell, &mut life.memory.clone(), &mut room);
        Ok(room)
    }

    /// Offers of each class with every number of hops, and with numbers that would be taken for
    /// 1 if they were cut on their way in.
    fn offers(&mut self) -> Outcome<()> {
        let mut life = self.start(&[])?;
        for _ in 0..6 {
            self.carry_out(&mut life, &Call::Tick([1, 1, 1]))?;
        }
        self.carry_out(&mut life, &Call::Control(16))?;
        for hops in (0..=66).chain([257, 65_537, 1 << 32 | 1, u64::MAX]) {
            for class in 0..3 {
                self.on_copy(&life, &Call::Client([class, 16, hops]))?;
                self.on_copy(&life, &Call::Transit([class, 16, hops, 0]))?;
            }
        }
        Ok(())
    }

    /// Frames of every ttl, while another rate from one hop away is known, and what is told
    /// then.
    fn heard(&mut self, local: bool) -> Outcome<()> {
        let mut known = self.start(&[])?.model;
        known.locally_congested = local;
        known.own_rate = u64::from(OWN_RATE);
        let mut known = lent(&layout::write(&known))?;
        self.carry_out(&mut known, &hear(&fairness(255, OTHER, 9)))?;
        let reader = self.start(&[(1, 7)])?;
        for ttl in 0..=255 {
            for rate in [OWN_RATE - 1, OWN_RATE, 65_535] {
                let own = fairness(ttl, OWN, rate);
                self.on_copy(&known, &hear(&own))?;
                let (mut life, _) = self.on_copy(&known, &hear(&fairness(ttl, OTHER, rate)))?;
                let frame = self.told(&mut life)?;
                self.read_back(&reader, &frame)?;
            }
        }
        Ok(())
    }

    /// "Reading a written frame, with the same settings but an address it doesn't bear, gives
    /// back its ringlet bit, ttl, address and rate", by the library's own reading.
    fn read_back(&mut self, reader: &Life, frame: &Frame) -> Outcome<()> {
        let (mut life, answer) = self.on_copy(reader, &hear(frame))?;
        let mut room = [0; READING_LENGTH];
        library::call(&Call::Show(READING_LENGTH), &mut life.memory, &mut room);
        let received: [u64; 5] = std::array::from_fn(|at| word(&room, 4 * (26 + at)));
        let number = |bytes: &[u8]| {
            bytes
                .iter()
                .fold(0, |sum, byte| sum << 8 | u64::from(*byte))
        };
        let [high, low, rate] = [2..4, 4..8, 10..12].map(|place| number(&frame[place]));
        let expected = match rate {
            65_535 => [0, 255, 0, 0, 0],
            _ => [1, u64::from(frame[0]), high, low, rate],
        };
        match answer == 0 && frame[1] == 0xa0 && received == expected {
            true => Ok(()),
            false => Err(life.fault(&format!("{answer:#x}, received {received:?}"))),
        }
    }

    /// The rate that a congested station tells is told on, from one hop farther by each station,
    /// and ends with the last one before its own.
    fn round(&mut self) -> Outcome<()> {
        let mut first = self.start(&[])?.model;
        first.locally_congested = true;
        first.own_rate = u64::from(OWN_RATE);
        let mut first = lent(&layout::write(&first))?;
        let mut frame = self.told(&mut first)?;
        for hops in 1..self.stations {
            let mut life = self.start(&[(1, hops)])?;
            self.carry_out(&mut life, &hear(&frame))?;
            frame = self.told(&mut life)?;
            let expected = match self.stations - hops {
                1 => fairness(255, [2, 0, 0, 0, 0, hops as u8], 65_535),
                _ => fairness(255 - hops as u8, OWN, OWN_RATE),
            };
            if frame != expected {
                return Err(life.fault(&format!("told {frame:?} at hop {hops}")));
            }
        }
        self.carry_out(&mut first, &hear(&frame))
    }
}

fn lent(bytes: &[u8]) -> Outcome<Life> {
    Life::of_bytes(bytes).ok_or_else(|| "a station of a ring is out of range".to_string())
}

/// How many calls were made; none of them are in the tally.
pub fn every_ring() -> Outcome<u64> {
    let mut ring = Ring {
        trial: Trial::new(0),
        stations: 0,
        made: 0,
    };
    for stations in NO_RINGS {
        if ring
            .trial
            .start(&make_station::words(&[(30, stations)]))?
            .is_some()
        {
            return Err(format!("a ring of {stations} stations is accepted"));
        }
    }
    for stations in 2..=63 {
        ring.stations = stations;
        ring.offers()?;
        ring.heard(false)?;
        ring.heard(true)?;
        ring.round()?;
    }
    Ok(ring.made)
}

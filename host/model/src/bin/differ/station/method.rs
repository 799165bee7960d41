//! Stations at and beside the edges of the methods, from lives that led elsewhere: some intervals,
//! and what is told.

use super::life::Life;
use super::Trial;
use model::make_method;
use model::report::Outcome;
use model::station::fairness::FRAME_LENGTH;
use model::station::{layout, Station};
use model::station_call::Call;

pub fn lent(station: &Station) -> Outcome<Life> {
    let life = Life::of_bytes(&layout::write(station));
    life.ok_or_else(|| "a station at an edge of a method is out of range".to_string())
}

impl Trial {
    pub fn at_edge(&mut self, life: &Life) -> Outcome<()> {
        for _ in 0..2 {
            let station = make_method::station(&mut self.random, &life.model);
            let mut life = lent(&station)?;
            for _ in 0..self.random.pick(&[1, 1, 4]) {
                self.call(&mut life, &Call::Age)?;
                self.call(&mut life, &Call::Tell(FRAME_LENGTH))?;
            }
        }
        Ok(())
    }
}

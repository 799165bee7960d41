//! Stations that lack much, little or nothing: a client frame of each class, and what a
//! wait makes of it.
//!
//! "the least amount whose addition would make the credit exceed loLimit": a shortfall is
//! held to the library's own permission. The model's rule has no part in this.

use super::life::Life;
use super::Trial;
use model::line::{byte, short};
use model::make_call;
use model::make_short;
use model::report::Outcome;
use model::station_call::Call;

fn lent(bytes: &[u8]) -> Outcome<Life> {
    Life::of_bytes(bytes).ok_or_else(|| "a station made short is out of range".to_string())
}

impl Trial {
    /// Each class of client frame, and a selection.
    pub fn short(&mut self, life: &Life) -> Outcome<()> {
        let bytes = make_short::station(&mut self.random, &life.memory);
        for class in 0..3 {
            let mut life = lent(&bytes)?;
            let call = make_call::client(&mut self.random, &life.model, class);
            let answer = self.call(&mut life, &call)?;
            if byte(answer, 0) == 6 {
                self.wait(&bytes, class, &call, short(answer))?;
            }
        }
        self.call(&mut lent(&bytes)?, &Call::Select).map(drop)
    }

    /// With the shortfall added the frame is no more refused with 6, with one byte less it
    /// is.
    fn wait(&mut self, bytes: &[u8], class: u64, call: &Call, missing: u64) -> Outcome<()> {
        for less in [0, 1] {
            let amount = missing - less;
            let mut life = lent(&make_short::waited(bytes, class, amount))?;
            let answer = self.call(&mut life, call)?;
            if (byte(answer, 0) == 6) != (less == 1) {
                let what = format!("answer {answer:#018x}: {amount} added, {missing} missing");
                return Err(life.fault(&what));
            }
        }
        Ok(())
    }
}

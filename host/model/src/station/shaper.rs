//! A shaper's credit.

use super::settings::Limits;

#[derive(Clone, Copy, Debug, PartialEq, Eq)]
pub struct Shaper {
    pub lo_limit: u64,
    pub hi_limit: u64,
    pub credit: u64,
}

impl Shaper {
    /// "Credit starts at loLimit."
    pub fn new(limits: Limits) -> Shaper {
        Shaper {
            lo_limit: limits.lo_limit,
            hi_limit: limits.hi_limit,
            credit: limits.lo_limit,
        }
    }

    /// "A tick adds the amount; while traffic waits the sum is cut to hiLimit,
    /// otherwise to loLimit."
    pub fn tick(&mut self, amount: u64, waits: bool) {
        let most = if waits { self.hi_limit } else { self.lo_limit };
        self.credit = (self.credit + amount).min(most);
    }

    /// "A send is permitted exactly when credit > loLimit"
    pub fn permits(&self) -> bool {
        self.credit > self.lo_limit
    }

    /// "a shaper's turn-down must carry the bytes missing: the least amount whose addition
    /// would make the credit exceed loLimit." A shaper that permits lacks 0.
    pub fn shortfall(&self) -> u64 {
        (self.lo_limit + 1).saturating_sub(self.credit)
    }

    /// "then the size is taken off."
    pub fn charge(&mut self, size: u64) {
        self.credit -= size;
    }
}

//! "Refusal numbers", last paragraph: the host's tally.

use crate::limits::TALLY_MOST;

#[derive(Clone, Copy, Debug, Default, PartialEq, Eq)]
pub struct Tally {
    pub accepted: u64,
    pub calls: u64,
    pub evaluated: u64,
    pub sent_back: u64,
}

impl Tally {
    /// Adds one accepted event.
    pub fn add(&mut self, calls: u64, evaluated: u64, sent_back: u64) {
        self.accepted = raised(self.accepted, 1);
        self.calls = raised(self.calls, calls);
        self.evaluated = raised(self.evaluated, evaluated);
        self.sent_back = raised(self.sent_back, sent_back);
    }
}

fn raised(count: u64, by: u64) -> u64 {
    if count > TALLY_MOST {
        count
    } else {
        (count + by).min(TALLY_MOST)
    }
}

//! A run: an opening and its events, written down as it goes, so that a failure can be told by a
//! short list of bytes.

use std::time::{Duration, Instant};

use harbour::{Tally, TICKETS};
use second::report::Report;
use second::room::Room;

use super::pair::Pair;
use super::shrink::shrink;

/// A list is made shorter for so long; where that does not do, it is told as it is then.
const PATIENCE: Duration = Duration::from_secs(30);

/// What a run starts from.
#[derive(Clone, Debug)]
pub struct Start {
    pub opening: Vec<u8>,
    /// How many tickets are given already.
    pub tickets: u32,
    pub tally: Tally,
}

impl Start {
    fn pair(&self) -> Result<Pair, String> {
        let mut pair = Pair::open(&self.opening)?.ok_or("no opening")?;
        pair.give_tickets(self.tickets);
        pair.lend(self.tally);
        Ok(pair)
    }

    /// Starts to try first: no count at its ceiling, and tickets far from their end or close to it.
    fn simpler(&self) -> Vec<Start> {
        let mut simpler = Vec::new();
        for tally in [Tally::default(), self.tally] {
            for tickets in [0, TICKETS - 1, TICKETS - 2, self.tickets] {
                let opening = self.opening.clone();
                simpler.push(Start {
                    opening,
                    tickets,
                    tally,
                });
            }
        }
        simpler
    }

    /// What differs at the first event at which something does.
    fn difference(&self, events: &[Vec<u8>]) -> Option<String> {
        let mut pair = match self.pair() {
            Ok(pair) => pair,
            Err(difference) => return Some(difference),
        };
        let differs = |event: &Vec<u8>| pair.event(event).err();
        events.iter().find_map(differs)
    }
}

pub struct Run {
    start: Start,
    pair: Pair,
    events: Vec<Vec<u8>>,
    /// Told with a failure.
    name: String,
}

impl Run {
    pub fn new(name: String, start: Start) -> Run {
        let pair = match start.pair() {
            Ok(pair) => pair,
            Err(difference) => panic!("{name}, {start:?}: {difference}"),
        };
        Run {
            start,
            pair,
            events: Vec::new(),
            name,
        }
    }

    pub fn room(&self) -> &Room {
        &self.pair.second
    }

    /// What both report. If they differ, the test fails with a short run that does, too.
    pub fn event(&mut self, bytes: Vec<u8>) -> Report {
        let answer = self.pair.event(&bytes);
        self.events.push(bytes);
        match answer {
            Ok(report) => report,
            Err(difference) => self.fail(&difference),
        }
    }

    fn fail(&self, difference: &str) -> ! {
        let number = self.events.len();
        let fails = |start: &Start| start.difference(&self.events).is_some();
        let simpler = self.start.simpler().into_iter().find(fails);
        let start = simpler.unwrap_or_else(|| self.start.clone());
        let end = Instant::now() + PATIENCE;
        let short = shrink(self.events.clone(), |events| {
            Instant::now() < end && start.difference(events).is_some()
        });
        panic!(
            "{}, event {number}: {difference}\nthe same in {} events: {}\n{start:?}\n{short:?}",
            self.name,
            short.len(),
            start.difference(&short).unwrap_or_default()
        );
    }
}

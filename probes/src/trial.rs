//! Events held against the second implementation.

use crate::events::{head, wait, WaitSlots};
use crate::expected::events::{event, EventAnswer, Numbers, WAIT};
use second::random::Random;

/// How often each outcome was met.
#[derive(Debug, Default)]
pub struct Seen {
    /// Records read, by kind; at 0 how often none was left.
    pub read: [u64; 6],
    /// Refusals by number: those of a head, and those of a Wait's numbers.
    pub refused_heads: [u64; 5],
    pub refused_numbers: [u64; 5],
}

impl Seen {
    fn add(&mut self, answer: &EventAnswer) {
        let refusal = usize::from(answer.refusal());
        if refusal == 0 {
            self.read[usize::from(answer.head.kind)] += 1;
        } else if answer.numbers.is_some() {
            self.refused_numbers[refusal] += 1;
        } else {
            self.refused_heads[refusal] += 1;
        }
    }

    pub fn refused(&self) -> u64 {
        self.refused_heads.iter().chain(&self.refused_numbers).sum()
    }

    /// Refusals 1 to 4, of heads and of a Wait's numbers: each more often than this.
    pub fn every_refusal_more_often_than(&self, times: u64) -> bool {
        let numbers = &self.refused_numbers[1..];
        let mut all = self.refused_heads[1..].iter().chain(numbers);
        all.all(|seen| *seen > times)
    }

    /// Every kind, and that none was left: each more often than this.
    pub fn every_kind_more_often_than(&self, times: u64) -> bool {
        self.read.iter().all(|seen| *seen > times)
    }
}

/// What a test draws its numbers from, and what it met.
pub struct Trial {
    pub random: Random,
    pub seen: Seen,
}

impl Trial {
    pub fn new(seed: u64) -> Trial {
        Trial {
            random: Random::new(seed),
            seen: Seen::default(),
        }
    }

    /// The event at a place, for a room with so many measures. Fails unless both implementations
    /// say the same of it.
    pub fn event(&mut self, bytes: &[u8], at: usize, measure_count: usize) -> EventAnswer {
        let answer = self.read(bytes, at, measure_count);
        let right = event(bytes, at, measure_count);
        assert_eq!(
            answer, right,
            "{measure_count} measures, place {at}, bytes {bytes:?}"
        );
        self.seen.add(&answer);
        answer
    }

    /// As a host reads it: a Wait's numbers begin at its head's next place.
    fn read(&mut self, bytes: &[u8], at: usize, measure_count: usize) -> EventAnswer {
        let head = head(bytes, at);
        let mut numbers = None;
        if head.kind == WAIT {
            let mut slots = self.slots_with_anything();
            let answer = wait(&mut slots, bytes, head.next, measure_count as u8);
            numbers = Some(Numbers { answer, slots });
        }
        EventAnswer { head, numbers }
    }

    pub fn slots_with_anything(&mut self) -> WaitSlots {
        let random = &mut self.random;
        let mut slots = WaitSlots::CLEAR;
        let numbers = slots.locals.iter_mut().chain(&mut slots.coefficients);
        for slot in numbers.chain(&mut slots.constant) {
            *slot = random.bits() as i64;
        }
        let bytes = slots.counts.iter_mut().chain(&mut slots.measure);
        for slot in bytes.chain(&mut slots.operator) {
            *slot = random.byte();
        }
        slots
    }
}

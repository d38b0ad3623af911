//! Counts over streams: what they make the room do.

use std::fmt;

use crate::limits::STREAM_BYTES_MOST;
use crate::refusal::Refusal;
use crate::report::{Outcome, Report};
use crate::room::{Room, Standing};
use crate::search::oldest_of_each_condition;
use crate::tag::Tag;
use crate::tally::Tally;

#[derive(Clone, Debug, Default, PartialEq, Eq)]
pub struct Figures {
    pub streams: usize,
    pub bytes: usize,
    pub lines: usize,
    pub accepted: usize,
    pub waits: usize,
    pub ons: usize,
    pub calls: usize,
    pub backs: usize,
    /// By refusal number; openings and events together. Place 0 stays 0.
    pub refusals: [usize; 9],
    pub refused_openings: usize,
    /// Calls by the operator number of the found alternative's tag; place 0 is no tag.
    pub found_tags: [usize; 7],
    pub most_waiting: usize,
    pub most_called: usize,
    pub most_evaluated: usize,
    pub searches_with_shared_conditions: usize,
}

impl Figures {
    pub fn of<'a>(streams: impl IntoIterator<Item = &'a Vec<u8>>) -> Figures {
        let mut figures = Figures::default();
        for stream in streams {
            figures.add_stream(stream);
        }
        figures
    }

    pub fn add_stream(&mut self, stream: &[u8]) {
        self.streams += 1;
        self.bytes += stream.len();
        self.lines += 1;
        if stream.len() > STREAM_BYTES_MOST {
            self.add_refusal(Refusal::InputTooLong);
            return;
        }
        match Room::open(stream) {
            Ok((mut room, taken)) => {
                self.add_events(&mut room, &stream[taken..]);
                // The line `end`.
                self.lines += 1;
            }
            Err(refusal) => {
                self.refused_openings += 1;
                self.add_refusal(refusal);
            }
        }
    }

    /// Runs the events in a room that may have a history already.
    pub fn add_events(&mut self, room: &mut Room, events: &[u8]) {
        let mut tally = Tally::default();
        let mut at = 0;
        loop {
            let before = room.clone();
            let report = room.event(&mut tally, &events[at..]);
            if report.outcome == Outcome::NoneLeft {
                break;
            }
            self.lines += 1;
            self.add_report(&before, room, &report);
            if report.taken == 0 {
                break;
            }
            at += report.taken;
        }
    }

    fn add_report(&mut self, before: &Room, after: &Room, report: &Report) {
        match report.outcome {
            Outcome::Refused(refusal) => {
                self.add_refusal(refusal);
                return;
            }
            Outcome::Waits => self.waits += 1,
            Outcome::On => self.ons += 1,
            Outcome::Back => self.backs += 1,
            Outcome::Done | Outcome::In | Outcome::NoneLeft => {}
        }
        self.accepted += 1;
        self.most_evaluated = self.most_evaluated.max(report.evaluated);
        let waiting = before.waiting();
        if report.evaluated > 0 && oldest_of_each_condition(&waiting).len() < waiting.len() {
            self.searches_with_shared_conditions += 1;
        }
        if let Some(job) = report.called {
            self.calls += 1;
            self.add_found_tag(before, job);
        }
        self.most_waiting = self.most_waiting.max(after.waiting().len());
        let called = after.standing(Standing::Called);
        self.most_called = self.most_called.max(called.len());
    }

    /// An event with a search makes it over the jobs waiting before it, at the same values.
    fn add_found_tag(&mut self, before: &Room, called: usize) {
        let found = before.search().found.expect("the event called a job");
        assert_eq!(found.job, called);
        let condition = before.jobs[called].condition.as_ref();
        let alternatives = &condition.expect("a waiting job has one").alternatives;
        let place = match Tag::of(&alternatives[found.alternative]) {
            Tag::Equality(atom) | Tag::Threshold(atom) => atom.operator.number(),
            Tag::NoTag => 0,
        };
        self.found_tags[place as usize] += 1;
    }

    fn add_refusal(&mut self, refusal: Refusal) {
        self.refusals[usize::from(refusal.number())] += 1;
    }
}

impl fmt::Display for Figures {
    fn fmt(&self, out: &mut fmt::Formatter) -> fmt::Result {
        write!(
            out,
            "{} streams, {} bytes, {} lines, {} accepted, {} waits, {} on, {} calls, {} backs",
            self.streams,
            self.bytes,
            self.lines,
            self.accepted,
            self.waits,
            self.ons,
            self.calls,
            self.backs
        )?;
        for number in 1..self.refusals.len() {
            write!(out, ", refused {}: {}", number, self.refusals[number])?;
        }
        write!(
            out,
            ", most waiting {}, most evaluated {}",
            self.most_waiting, self.most_evaluated
        )
    }
}

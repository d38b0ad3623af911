//! How often each thing was met, so that a test can tell that it tried what it was to try.

use second::limits::JOBS;
use second::report::{Outcome, Report};
use second::room::{Room, Standing};
use second::tag::Tag;

#[derive(Clone, Debug, Default)]
pub struct Seen {
    pub events: u64,
    pub done: u64,
    pub ins: u64,
    pub waits: u64,
    pub ons: u64,
    pub backs: u64,
    pub none_left: u64,
    /// By number. Place 0 stays 0.
    pub refusals: [u64; 8],
    /// Calls by the class of the tag: equality, threshold, none.
    pub calls: [u64; 3],
    /// Searches that evaluated something and called nobody.
    pub in_vain: u64,
    /// Calls after an alternative whose tag held was false.
    pub late: u64,
    pub most_evaluated: usize,
    /// Events by how many jobs then wait, eight by eight: 0 to 7, and so on.
    pub waiting: [u64; 5],
    /// The most jobs called at one time.
    pub most_called: usize,
    /// Events after which somebody was called while another stood called already.
    pub several_called: u64,
}

impl Seen {
    /// The room as it is after the event.
    pub fn add(&mut self, room: &Room, report: &Report) {
        self.events += 1;
        match report.outcome {
            Outcome::Done => self.done += 1,
            Outcome::In => self.ins += 1,
            Outcome::Waits => self.waits += 1,
            Outcome::On => self.ons += 1,
            Outcome::Back => self.backs += 1,
            Outcome::Refused(refusal) => self.refusals[usize::from(refusal.number())] += 1,
            Outcome::NoneLeft => self.none_left += 1,
        }
        let stand = |standing| {
            let jobs = room.jobs.iter();
            jobs.filter(|job| job.standing == standing).count()
        };
        self.waiting[stand(Standing::Waiting) * 4 / JOBS] += 1;
        self.most_evaluated = self.most_evaluated.max(report.evaluated);
        let called = stand(Standing::Called);
        self.most_called = self.most_called.max(called);
        match report.called {
            Some(job) => {
                self.calls[class(room, job)] += 1;
                self.late += u64::from(report.evaluated > 1);
                self.several_called += u64::from(called > 1);
            }
            None => self.in_vain += u64::from(report.evaluated > 0),
        }
    }

    /// Every outcome, every refusal, every class of call: each more often than this.
    pub fn every_kind_more_often_than(&self, times: u64) -> bool {
        let outcomes = [
            self.done,
            self.ins,
            self.waits,
            self.ons,
            self.backs,
            self.none_left,
            self.in_vain,
            self.late,
            self.several_called,
        ];
        let refusals = &self.refusals[1..];
        let mut all = outcomes.iter().chain(refusals).chain(&self.calls);
        all.all(|seen| *seen > times)
    }
}

/// The class of the called job's first true alternative in the order of ranks. No event that calls
/// changes a value, so what was true at the search is true now.
fn class(room: &Room, job: usize) -> usize {
    let measures = room.measure_values();
    let condition = room.jobs[job].condition.as_ref().expect("it was called");
    let alternatives = condition.alternatives.iter();
    let classes = alternatives
        .filter(|alternative| alternative.is_true(&measures))
        .map(|alternative| match Tag::of(alternative) {
            Tag::Equality(_) => 0,
            Tag::Threshold(_) => 1,
            Tag::NoTag => 2,
        });
    classes.min().expect("it was true")
}

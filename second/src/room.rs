//! "Standings and events": the room, one step for each event.

use crate::closure::WrittenCondition;
use crate::condition::Condition;
use crate::limits::{JOBS, TICKETS, VARIABLES};
use crate::measure::measure;
use crate::record::{read_event, read_opening, Event, Opening};
use crate::refusal::Refusal;
use crate::report::{Outcome, Report};
use crate::search::{search, Search, Waiting};
use crate::tally::Tally;

#[derive(Clone, Copy, Debug, PartialEq, Eq)]
pub enum Standing {
    Outside,
    Door,
    Inside,
    Waiting,
    Called,
}

/// Condition and ticket are there exactly while the job is waiting or called.
#[derive(Clone, Debug, PartialEq, Eq)]
pub struct Job {
    pub standing: Standing,
    pub condition: Option<Condition>,
    pub ticket: Option<u32>,
}

#[derive(Clone, Debug, PartialEq, Eq)]
pub struct Room {
    pub measures: Vec<[i64; VARIABLES]>,
    pub values: [i64; VARIABLES],
    pub jobs: [Job; JOBS],
    pub next_ticket: u32,
}

/// What an accepted event came to; `search` is there if the event made one.
struct Step {
    outcome: Outcome,
    search: Option<Search>,
}

impl Step {
    fn without_search(outcome: Outcome) -> Step {
        Step {
            outcome,
            search: None,
        }
    }

    fn with_search(outcome: Outcome, search: Search) -> Step {
        Step {
            outcome,
            search: Some(search),
        }
    }
}

impl Room {
    /// The room that the bytes open, and how many bytes the opening takes.
    pub fn open(bytes: &[u8]) -> Result<(Room, usize), Refusal> {
        let (opening, taken) = read_opening(bytes)?;
        Ok((Room::new(&opening), taken))
    }

    pub fn new(opening: &Opening) -> Room {
        let outside = |_| Job {
            standing: Standing::Outside,
            condition: None,
            ticket: None,
        };
        Room {
            measures: opening.measures.clone(),
            values: opening.values,
            jobs: std::array::from_fn(outside),
            next_ticket: 0,
        }
    }

    pub fn event(&mut self, tally: &mut Tally, bytes: &[u8]) -> Report {
        if bytes.is_empty() {
            return Report::none_left();
        }
        let (event, taken) = match read_event(bytes, self.measures.len()) {
            Ok(read) => read,
            Err(refusal) => return Report::refused(refusal, 0),
        };
        let step = match self.step(&event) {
            Ok(step) => step,
            Err(refusal) => return Report::refused(refusal, taken),
        };
        let called = step.search.and_then(|search| called_by(&search));
        let evaluated = step.search.map_or(0, |search| search.evaluated);
        tally.add(
            u64::from(called.is_some()),
            evaluated as u64,
            u64::from(step.outcome == Outcome::Back),
        );
        Report {
            outcome: step.outcome,
            called,
            evaluated,
            taken,
        }
    }

    fn step(&mut self, event: &Event) -> Result<Step, Refusal> {
        match event {
            Event::Arrive { job } => self.arrive(*job),
            Event::Admit { job } => self.admit(*job),
            Event::Set {
                job,
                variable,
                value,
            } => self.set(*job, *variable, *value),
            Event::Wait { job, condition } => self.wait(*job, condition),
            Event::Leave { job } => self.leave(*job),
        }
    }

    fn arrive(&mut self, job: usize) -> Result<Step, Refusal> {
        self.needs(job, Standing::Outside)?;
        self.jobs[job].standing = Standing::Door;
        Ok(Step::without_search(Outcome::Done))
    }

    fn admit(&mut self, job: usize) -> Result<Step, Refusal> {
        let standing = self.jobs[job].standing;
        if standing != Standing::Door && standing != Standing::Called {
            return Err(Refusal::WrongStanding);
        }
        if self.inside().is_some() {
            return Err(Refusal::AnotherInside);
        }
        if standing == Standing::Door {
            self.jobs[job].standing = Standing::Inside;
            return Ok(Step::without_search(Outcome::In));
        }
        let measures = self.measure_values();
        let condition = self.jobs[job].condition.as_ref();
        if condition
            .expect("a called job has a condition")
            .is_true(&measures)
        {
            self.jobs[job] = Job {
                standing: Standing::Inside,
                condition: None,
                ticket: None,
            };
            return Ok(Step::without_search(Outcome::In));
        }
        let search = self.search_and_call();
        self.jobs[job].standing = Standing::Waiting;
        Ok(Step::with_search(Outcome::Back, search))
    }

    fn set(&mut self, job: usize, variable: usize, value: i64) -> Result<Step, Refusal> {
        self.needs(job, Standing::Inside)?;
        self.values[variable] = value;
        Ok(Step::without_search(Outcome::Done))
    }

    fn wait(&mut self, job: usize, written: &WrittenCondition) -> Result<Step, Refusal> {
        self.needs(job, Standing::Inside)?;
        let condition = written.close();
        if condition.is_true(&self.measure_values()) {
            return Ok(Step::without_search(Outcome::On));
        }
        if self.next_ticket >= TICKETS {
            return Err(Refusal::NoTicketLeft);
        }
        let search = self.search_and_call();
        self.jobs[job] = Job {
            standing: Standing::Waiting,
            condition: Some(condition),
            ticket: Some(self.next_ticket),
        };
        self.next_ticket += 1;
        Ok(Step::with_search(Outcome::Waits, search))
    }

    fn leave(&mut self, job: usize) -> Result<Step, Refusal> {
        self.needs(job, Standing::Inside)?;
        self.jobs[job].standing = Standing::Outside;
        let search = self.search_and_call();
        Ok(Step::with_search(Outcome::Done, search))
    }

    fn needs(&self, job: usize, standing: Standing) -> Result<(), Refusal> {
        if self.jobs[job].standing == standing {
            Ok(())
        } else {
            Err(Refusal::WrongStanding)
        }
    }

    fn search_and_call(&mut self) -> Search {
        let search = self.search();
        if let Some(job) = called_by(&search) {
            self.jobs[job].standing = Standing::Called;
        }
        search
    }

    /// What a search at this moment finds, with nothing changed.
    pub fn search(&self) -> Search {
        search(&self.waiting(), &self.measure_values())
    }

    pub fn waiting(&self) -> Vec<Waiting<'_>> {
        let mut waiting = Vec::new();
        for (number, job) in self.jobs.iter().enumerate() {
            if job.standing != Standing::Waiting {
                continue;
            }
            if let (Some(condition), Some(ticket)) = (&job.condition, job.ticket) {
                waiting.push(Waiting {
                    job: number,
                    ticket,
                    condition,
                });
            }
        }
        waiting
    }

    pub fn measure_values(&self) -> Vec<i64> {
        self.measures
            .iter()
            .map(|coefficients| measure(coefficients, &self.values))
            .collect()
    }

    /// The numbers of the jobs with this standing, lowest first.
    pub fn standing(&self, standing: Standing) -> Vec<usize> {
        (0..JOBS)
            .filter(|job| self.jobs[*job].standing == standing)
            .collect()
    }

    pub fn inside(&self) -> Option<usize> {
        self.standing(Standing::Inside).first().copied()
    }
}

fn called_by(search: &Search) -> Option<usize> {
    search.found.map(|found| found.job)
}

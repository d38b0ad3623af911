//! An index, and beside it by brute force who waits for what. After each change the index is looked
//! at from outside, and each search is held against the second implementation's.

use crate::conditions::NODES;
use crate::index::{Index, Searched, EQUALITIES, HOMES, HOME_PLACES, UNTAGGED};
use crate::written::written;
use second::condition::{Alternative, Condition, Operator};
use second::limits::{ALTERNATIVES_MOST, JOBS, TICKETS};
use second::measure::measure;
use second::rank::Rank;
use second::record::Opening;
use second::search::{search, Search, Waiting};
use second::tag::Tag;

/// What joining does to the job's entry.
#[derive(Clone, Copy, Debug, PartialEq, Eq)]
pub enum Joins {
    Alone,
    Follows,
    TakesTheLead,
}

/// What parting does to the job's entry.
#[derive(Clone, Copy, Debug, PartialEq, Eq)]
pub enum Parts {
    Follower,
    LastOfItsEntry,
    LeadWithAnHeir,
}

/// A job's ticket, and the place of its condition among those that differ.
#[derive(Clone, Copy, Debug)]
struct Job {
    condition: usize,
    ticket: u32,
    waits: bool,
}

pub struct Crowd {
    index: Index,
    opening: Opening,
    conditions: Vec<Condition>,
    jobs: Vec<Option<Job>>,
    next_ticket: u32,
    /// Told with each failure.
    seed: u64,
    steps: u64,
}

impl Crowd {
    /// Nobody waits. The seed is told where something fails.
    pub fn new(opening: &Opening, first_ticket: u32, seed: u64) -> Crowd {
        let crowd = Crowd {
            index: Index::new(opening),
            opening: opening.clone(),
            conditions: Vec::new(),
            jobs: vec![None; JOBS],
            next_ticket: first_ticket,
            seed,
            steps: 0,
        };
        crowd.check();
        crowd
    }

    pub fn steps(&self) -> u64 {
        self.steps
    }

    /// The jobs that wait.
    pub fn waiting(&self) -> Vec<usize> {
        self.those(|job| matches!(job, Some(job) if job.waits))
    }

    /// The jobs that parted and have kept their condition and ticket.
    pub fn parted(&self) -> Vec<usize> {
        self.those(|job| matches!(job, Some(job) if !job.waits))
    }

    /// The jobs that do not wait.
    pub fn others(&self) -> Vec<usize> {
        self.those(|job| !matches!(job, Some(job) if job.waits))
    }

    fn those(&self, which: impl Fn(&Option<Job>) -> bool) -> Vec<usize> {
        (0..JOBS).filter(|job| which(&self.jobs[*job])).collect()
    }

    /// How many nodes a home has.
    pub fn nodes_in(&self, home: usize) -> usize {
        usize::from(self.index.arrays().lengths[home])
    }

    /// What the measures come to.
    pub fn present(&self) -> Vec<i64> {
        let rows = self.opening.measures.iter();
        rows.map(|row| measure(row, &self.opening.values)).collect()
    }

    /// A job that does not wait takes the next ticket and waits.
    pub fn join_new(&mut self, job: usize, condition: &Condition) -> Joins {
        let ticket = self.next_ticket;
        assert!(ticket < TICKETS);
        self.next_ticket += 1;
        self.index.prepare(job, &written(condition), ticket);
        let known = self.conditions.iter().position(|known| known == condition);
        if known.is_none() {
            self.conditions.push(condition.clone());
        }
        self.jobs[job] = Some(Job {
            condition: known.unwrap_or(self.conditions.len() - 1),
            ticket,
            waits: false,
        });
        self.join_again(job)
    }

    /// A job that parted waits again, with its old ticket.
    pub fn join_again(&mut self, job: usize) -> Joins {
        let mut joins = Joins::Alone;
        if let Some(lead) = self.lead_of(job) {
            joins = match self.job(job).ticket < self.job(lead).ticket {
                true => Joins::TakesTheLead,
                false => Joins::Follows,
            };
        }
        self.change(|index| index.join(job));
        self.job_mut(job).waits = true;
        self.check();
        joins
    }

    pub fn part(&mut self, job: usize) -> Parts {
        let lead = self.lead_of(job);
        self.change(|index| index.part(job));
        self.job_mut(job).waits = false;
        self.check();
        match self.lead_of(job) {
            _ if lead != Some(job) => Parts::Follower,
            None => Parts::LastOfItsEntry,
            Some(_) => Parts::LeadWithAnHeir,
        }
    }

    pub fn set(&mut self, variable: usize, value: i64) {
        self.steps += 1;
        self.index.set(variable, value);
        self.opening.values[variable] = value;
    }

    /// What both implementations find. The search changes nothing that it was lent.
    pub fn search(&mut self) -> Search {
        let before = self.index.arrays().clone();
        let answer = self.index.search();
        assert!(*self.index.arrays() == before, "{}", self.told());
        let right = search(&self.waiters(), &self.present());
        let plain = Searched {
            calls: u8::from(right.found.is_some()),
            job: right.found.map_or(0, |found| found.job),
            evaluated: right.evaluated,
        };
        assert_eq!(answer, plain, "{}", self.told());
        right
    }

    /// The class of the tag of a found alternative: equality, threshold, none.
    pub fn class(search: &Search) -> Option<usize> {
        search.found.map(|found| match found.rank {
            Rank::Equality { .. } => 0,
            Rank::Threshold { .. } => 1,
            Rank::NoTag { .. } => 2,
        })
    }

    fn told(&self) -> String {
        format!("seed {}, step {}", self.seed, self.steps)
    }

    fn job(&self, job: usize) -> Job {
        self.jobs[job].expect("a job with a condition")
    }

    fn condition(&self, job: usize) -> &Condition {
        &self.conditions[self.job(job).condition]
    }

    fn job_mut(&mut self, job: usize) -> &mut Job {
        self.jobs[job].as_mut().expect("a job with a condition")
    }

    fn waiters(&self) -> Vec<Waiting<'_>> {
        let waiter = |job: usize| Waiting {
            job,
            ticket: self.job(job).ticket,
            condition: self.condition(job),
        };
        self.waiting().into_iter().map(waiter).collect()
    }

    /// The oldest waiting job with this job's condition.
    fn lead_of(&self, job: usize) -> Option<usize> {
        let condition = self.job(job).condition;
        let among = |other: &usize| match self.jobs[*other] {
            Some(other) => other.waits && other.condition == condition,
            None => false,
        };
        let all = (0..JOBS).filter(among);
        all.min_by_key(|other| self.job(*other).ticket)
    }

    /// Joining and parting leave all but places, lengths and entries as they were.
    fn change(&mut self, change: impl FnOnce(&mut Index)) {
        self.steps += 1;
        let mut before = self.index.arrays().clone();
        change(&mut self.index);
        let after = self.index.arrays();
        before.places = after.places;
        before.lengths = after.lengths;
        before.entry = after.entry;
        assert!(*after == before, "{}", self.told());
    }

    /// "Between events these three hold every alternative of every entry exactly once, under its
    /// tag, and nothing else."
    fn check(&self) {
        let arrays = self.index.arrays();
        let mut filed = vec![Vec::new(); HOMES];
        for job in 0..JOBS {
            let mut entry = 0;
            if matches!(self.jobs[job], Some(job) if job.waits) {
                let lead = self.lead_of(job).expect("it waits itself");
                entry = lead as u8 + 1;
                if lead == job {
                    let alternatives = &self.condition(job).alternatives;
                    for (place, alternative) in alternatives.iter().enumerate() {
                        filed[home(alternative)].push(node(job, place));
                    }
                }
            }
            assert_eq!(arrays.entry[job], entry, "job {job}, {}", self.told());
        }
        for (home, right) in filed.into_iter().enumerate() {
            let places = &arrays.places[home * HOME_PLACES..][..HOME_PLACES];
            let (nodes, rest) = places.split_at(usize::from(arrays.lengths[home]));
            let mut risen = nodes.to_vec();
            risen.sort_unstable();
            assert_eq!(risen, right, "home {home}, {}", self.told());
            let clear = rest.iter().all(|place| *place == 0);
            assert!(clear, "home {home}, {}", self.told());
            self.check_order(home, nodes);
        }
    }

    /// A heap's nodes come after those above them, and a row's after those before them: by their
    /// words, and by the second implementation's ranks.
    fn check_order(&self, home: usize, nodes: &[u8]) {
        let arrays = self.index.arrays();
        let words = |node: usize| (arrays.high[node], arrays.low[node]);
        for place in 1..nodes.len() {
            let before = match home < EQUALITIES {
                true => (place - 1) / 2,
                false => place - 1,
            };
            let first = usize::from(nodes[before]);
            let second = usize::from(nodes[place]);
            assert!(first < NODES && second < NODES);
            let in_order = words(first) < words(second) && self.key(first) < self.key(second);
            assert!(in_order, "home {home}, place {place}, {}", self.told());
        }
    }

    /// What orders a node among those of its home. In the row of equality tags that is the measure
    /// and the key before the ticket; those of one measure that hold have one key.
    fn key(&self, node: usize) -> (usize, i64, Rank) {
        let (job, number) = (node / ALTERNATIVES_MOST, node % ALTERNATIVES_MOST);
        let tag = Tag::of(&self.condition(job).alternatives[number]);
        let rank = Rank::of(&tag, self.job(job).ticket, number);
        match tag {
            Tag::Equality(atom) => (atom.measure, atom.key, rank),
            _ => (0, 0, rank),
        }
    }
}

fn node(job: usize, place: usize) -> u8 {
    (job * ALTERNATIVES_MOST + place) as u8
}

fn home(alternative: &Alternative) -> usize {
    match Tag::of(alternative) {
        Tag::Equality(_) => EQUALITIES,
        Tag::Threshold(atom) => match atom.operator {
            Operator::Greater | Operator::GreaterOrEqual => atom.measure * 2,
            _ => atom.measure * 2 + 1,
        },
        Tag::NoTag => UNTAGGED,
    }
}

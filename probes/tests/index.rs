//! The index: long random runs of jobs that join, part and are called, while shared values change.
//! After every step the index is looked at from outside, and a search is held against the second
//! implementation's.

use probes::conditions::KEY_MOST;
use probes::index::{EQUALITIES, UNTAGGED};
use probes::stock::{Keys, Stock, GUARD};
use probes::waiting::Crowd;
use second::condition::{Atom, Condition, Operator};
use second::limits::{TICKETS, VARIABLES};
use second::random::Random;
use second::record::Opening;
use second::search::Search;

const FIRST_SEED: u64 = 20_000_000;
const RUNS: u64 = 120;
/// Of each run, but for the last drain.
const STEPS: u64 = 120;

/// So many jobs may wait in a run. In a room a search never sees all 32.
const TARGETS: [usize; 9] = [1, 2, 4, 8, 16, 24, 31, 31, 32];

/// How often each was met.
#[derive(Debug, Default)]
struct Seen {
    steps: u64,
    joins: [u64; 3],
    parts: [u64; 3],
    /// Calls by the class of the tag: equality, threshold, none; and nobody.
    calls: [u64; 3],
    nobody: u64,
    /// Searches by how many jobs waited: less than 8, less than 16, and so on; all 32.
    waiting: [u64; 5],
    /// Calls after an alternative whose tag held was false.
    late: u64,
    most_evaluated: usize,
    /// Conditions with a key of −401,000,000, and of 401,000,000.
    ends: [u64; 2],
    /// The most nodes in a heap, in the row of equality tags, and without a tag.
    most_nodes: [usize; 3],
}

impl Seen {
    fn search(&mut self, crowd: &mut Crowd) -> Search {
        let search = crowd.search();
        self.waiting[crowd.waiting().len() / 8] += 1;
        self.most_evaluated = self.most_evaluated.max(search.evaluated);
        match Crowd::class(&search) {
            Some(class) => self.calls[class] += 1,
            None => self.nobody += 1,
        }
        self.late += u64::from(search.found.is_some() && search.evaluated > 1);
        for home in 0..=UNTAGGED {
            let most = &mut self.most_nodes[home.saturating_sub(EQUALITIES - 1)];
            *most = (*most).max(crowd.nodes_in(home));
        }
        search
    }

    fn condition(&mut self, condition: &Condition) {
        let atoms = condition.alternatives.iter().flat_map(|one| &one.atoms);
        let has = |key: i64| u64::from(atoms.clone().any(|atom| atom.key == key));
        self.ends[0] += has(-KEY_MOST);
        self.ends[1] += has(KEY_MOST);
    }

    fn every_call_more_often_than(&self, times: u64) -> bool {
        let mut all = self.calls.iter().chain([&self.nobody, &self.late]);
        all.all(|seen| *seen > times) && self.waiting[4] > 0
    }

    fn every_kind_more_often_than(&self, times: u64) -> bool {
        let mut all = self.joins.iter().chain(&self.parts);
        all.all(|seen| *seen > times) && self.every_call_more_often_than(times)
    }
}

struct Run<'a> {
    random: Random,
    stock: Stock,
    /// What jobs wait for; if there are none, for a new condition each time.
    conditions: Vec<Condition>,
    crowd: Crowd,
    /// So many wait at most, but for jobs sent back.
    target: usize,
    seen: &'a mut Seen,
}

impl Run<'_> {
    fn go(&mut self) {
        while self.crowd.steps() < STEPS {
            self.step();
            self.seen.search(&mut self.crowd);
        }
        self.drain();
        self.seen.steps += self.crowd.steps();
    }

    fn step(&mut self) {
        let room = self.crowd.waiting().len() < self.target;
        match self.random.below(20) {
            0..=7 if room => self.join_new(),
            8..=11 if room => self.join_again(),
            0 | 8 => self.join_again(),
            1 | 2 | 12 => self.part(),
            3 | 4 | 13 | 14 => drop(self.call()),
            15 if self.random.once_in(8) => self.drain(),
            _ => self.set(),
        }
    }

    fn some(&mut self, jobs: &[usize]) -> Option<usize> {
        (!jobs.is_empty()).then(|| self.random.pick(jobs))
    }

    fn join_new(&mut self) {
        let others = self.crowd.others();
        if let Some(job) = self.some(&others) {
            let condition = match self.conditions.as_slice() {
                [] => self.stock.condition(&mut self.random),
                conditions => self.random.pick(conditions),
            };
            self.seen.condition(&condition);
            self.seen.joins[self.crowd.join_new(job, &condition) as usize] += 1;
        }
    }

    fn join_again(&mut self) {
        let parted = self.crowd.parted();
        if let Some(job) = self.some(&parted) {
            self.seen.joins[self.crowd.join_again(job) as usize] += 1;
        }
    }

    fn part(&mut self) {
        let waiting = self.crowd.waiting();
        if let Some(job) = self.some(&waiting) {
            self.seen.parts[self.crowd.part(job) as usize] += 1;
        }
    }

    fn set(&mut self) {
        let (variable, value) = self.stock.set(&mut self.random);
        self.crowd.set(variable, value);
    }

    /// As a room does: who is found is no longer in the index.
    fn call(&mut self) -> bool {
        let found = self.seen.search(&mut self.crowd).found;
        if let Some(found) = found {
            self.seen.parts[self.crowd.part(found.job) as usize] += 1;
        }
        found.is_some()
    }

    /// All who can be called are, one after the other, the guard open.
    fn drain(&mut self) {
        self.crowd.set(GUARD, 1);
        while self.call() {}
        self.crowd.set(GUARD, self.stock.opening.values[GUARD]);
    }
}

/// Runs in which up to so many jobs wait, from `RUNS` seeds; a failure tells its seed. A run has as
/// many conditions as `few` says, and new ones each time if that is 0.
fn runs(
    first: u64,
    targets: &[usize],
    stock: impl Fn(&mut Random) -> Stock,
    few: fn(&mut Random) -> usize,
) -> Seen {
    let mut seen = Seen::default();
    for seed in FIRST_SEED + first..FIRST_SEED + first + RUNS {
        let mut random = Random::new(seed);
        let stock = stock(&mut random);
        let mut conditions: Vec<Condition> = Vec::new();
        for _ in 0..few(&mut random) {
            let condition = match random.below(conditions.len() + 1) {
                0 => stock.condition(&mut random),
                place => stock.like(&mut random, &conditions[place - 1]),
            };
            conditions.push(condition);
        }
        let first_ticket = random.pick(&[0, 255, 65_530, TICKETS - 1_000]);
        let mut run = Run {
            crowd: Crowd::new(&stock.opening, first_ticket, seed),
            target: random.pick(targets),
            random,
            stock,
            conditions,
            seen: &mut seen,
        };
        run.go();
    }
    println!("{seen:?}");
    seen
}

/// Three to twelve, many of them alike, so that entries are shared and keys are equal.
fn three_to_twelve(random: &mut Random) -> usize {
    3 + random.below(10)
}

/// New each time.
fn any(_: &mut Random) -> usize {
    0
}

fn few_conditions(first: u64, keys: Keys, guarded: bool) -> Seen {
    let stock = |random: &mut Random| Stock::new(random, keys, guarded);
    let seen = runs(first, &TARGETS, stock, three_to_twelve);
    assert!(seen.every_kind_more_often_than(RUNS), "{seen:?}");
    seen
}

fn any_conditions(first: u64, keys: Keys, guarded: bool) -> Seen {
    let stock = |random: &mut Random| Stock::new(random, keys, guarded);
    let seen = runs(first, &TARGETS, stock, any);
    assert!(seen.every_call_more_often_than(RUNS), "{seen:?}");
    seen
}

#[test]
fn few_conditions_shared_by_many() {
    few_conditions(0, Keys::Near, false);
}

#[test]
fn few_conditions_with_keys_at_the_ends() {
    let seen = few_conditions(1_000, Keys::Far, false);
    assert!(seen.ends.iter().all(|times| *times > RUNS), "{seen:?}");
}

/// Tags hold and alternatives don't, until a Set: then all drain in the order of ranks.
#[test]
fn few_conditions_behind_a_guard() {
    let seen = few_conditions(2_000, Keys::Near, true);
    assert!(seen.most_evaluated > 16, "{seen:?}");
}

#[test]
fn any_conditions_of_many() {
    any_conditions(3_000, Keys::Near, false);
}

#[test]
fn any_conditions_with_keys_at_the_ends() {
    let seen = any_conditions(4_000, Keys::Far, false);
    assert!(seen.ends.iter().all(|times| *times > RUNS), "{seen:?}");
}

#[test]
fn any_conditions_behind_a_guard() {
    let seen = any_conditions(5_000, Keys::Far, true);
    assert!(seen.most_evaluated > 32, "{seen:?}");
}

/// A heap and both rows with as many nodes as a room has.
#[test]
fn full_homes() {
    let seen = runs(6_000, &[31, 32], Stock::narrow, any);
    assert!(seen.most_nodes.iter().all(|most| *most > 120), "{seen:?}");
    assert!(seen.most_evaluated > 64, "{seen:?}");
    assert!(seen.every_call_more_often_than(RUNS), "{seen:?}");
}

fn one(measure: usize, operator: Operator, key: i64) -> Condition {
    Condition::new(vec![vec![Atom::new(measure, operator, key)]])
}

/// Measures x and y; the jobs 0, 1 .. wait for these conditions.
fn board(conditions: &[Condition]) -> Crowd {
    let unit = |variable: usize| {
        let mut row = [0; VARIABLES];
        row[variable] = 1;
        row
    };
    let opening = Opening {
        measures: vec![unit(0), unit(1)],
        values: [0; VARIABLES],
    };
    let mut crowd = Crowd::new(&opening, 4, 0);
    for (job, condition) in conditions.iter().enumerate() {
        crowd.join_new(job, condition);
    }
    crowd
}

fn found(crowd: &mut Crowd, x: i64, y: i64) -> (Option<usize>, usize) {
    crowd.set(0, x);
    crowd.set(1, y);
    let search = crowd.search();
    (search.found.map(|found| found.job), search.evaluated)
}

#[test]
fn the_examples_of_the_board() {
    use Operator::{Equal, Greater, GreaterOrEqual, NotEqual};
    let a = Condition::new(vec![vec![
        Atom::new(0, GreaterOrEqual, 5),
        Atom::new(1, NotEqual, 1),
    ]]);
    let mut crowd = board(&[a, one(0, Greater, 7)]);
    assert_eq!(found(&mut crowd, 9, 1), (Some(1), 2));
    assert_eq!(found(&mut crowd, 9, 2), (Some(0), 1));
    assert_eq!(found(&mut crowd, 6, 1), (None, 1));
    let mut crowd = board(&[one(0, Greater, 3), one(0, GreaterOrEqual, 3)]);
    assert_eq!(found(&mut crowd, 4, 0), (Some(1), 1));
    let mut crowd = board(&[one(0, Equal, 8), one(0, Equal, 8)]);
    assert_eq!(found(&mut crowd, 8, 0), (Some(0), 1));
    let mut crowd = board(&[one(0, NotEqual, 0), one(0, NotEqual, 0)]);
    assert_eq!(found(&mut crowd, 0, 0), (None, 1));
}

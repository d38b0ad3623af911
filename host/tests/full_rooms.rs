//! Rooms in which 31 jobs wait, some for the same and some for almost the same, behind a guard that
//! one Set opens. Then they are called one after the other, in the order of ranks.

mod common;

use common::pair::Pair;
use second::condition::{Atom, Condition, Operator};
use second::limits::JOBS;
use second::random::Random;
use second::rank::Rank;
use second::record::Opening;
use second::report::{Outcome, Report};
use second::room::Standing;
use second::tag::Tag;
use Operator::{Equal, Greater, GreaterOrEqual, Less, LessOrEqual, NotEqual};

const FIRST_SEED: u64 = 60_000_000;
const SEEDS: u64 = 40;

const CROWD: usize = JOBS - 1;

/// The measures x, y, x − 2y and z; z is the guard.
const X: usize = 0;
const Y: usize = 1;
const DIFFERENCE: usize = 2;
const Z: usize = 3;

/// Variable z is the last, and the measures are as above.
const GUARD: usize = 7;

/// The guard is shut.
fn opening() -> Opening {
    Opening {
        measures: vec![
            [1, 0, 0, 0, 0, 0, 0, 0],
            [0, 1, 0, 0, 0, 0, 0, 0],
            [1, -2, 0, 0, 0, 0, 0, 0],
            [0, 0, 0, 0, 0, 0, 0, 1],
        ],
        values: [5, 3, 0, 0, 0, 0, 0, 0],
    }
}

fn one(measure: usize, operator: Operator, key: i64) -> Vec<Vec<Atom>> {
    vec![vec![Atom::new(measure, operator, key)]]
}

fn two(first: Vec<Vec<Atom>>, second: Vec<Vec<Atom>>) -> Vec<Vec<Atom>> {
    [first, second].concat()
}

/// All are true at x = 5, y = 3 once the guard is open. Some alternatives are not, though their tag
/// holds.
fn conditions() -> Vec<Vec<Vec<Atom>>> {
    let tag_alone = vec![vec![
        Atom::new(X, GreaterOrEqual, 2),
        Atom::new(Y, NotEqual, 3),
    ]];
    let false_equality = vec![vec![Atom::new(Y, Equal, 3), Atom::new(X, Less, 5)]];
    vec![
        one(X, Equal, 5),
        one(Y, Equal, 3),
        one(DIFFERENCE, Equal, -1),
        one(X, GreaterOrEqual, 4),
        one(X, Greater, 4),
        one(X, GreaterOrEqual, 5),
        one(X, Greater, 3),
        one(X, Less, 6),
        one(X, LessOrEqual, 6),
        one(X, LessOrEqual, 5),
        one(Y, Less, 4),
        one(Y, LessOrEqual, 4),
        one(DIFFERENCE, Greater, -2),
        one(DIFFERENCE, Less, 0),
        one(X, NotEqual, 0),
        one(Y, NotEqual, 0),
        two(one(X, NotEqual, 4), one(Y, GreaterOrEqual, 3)),
        two(one(X, Equal, 4), one(X, NotEqual, 4)),
        two(tag_alone.clone(), one(Y, Equal, 3)),
        two(one(Y, NotEqual, 7), tag_alone),
        two(false_equality, one(DIFFERENCE, LessOrEqual, -1)),
    ]
}

/// The guard's atom in each alternative, before or after the others.
fn guarded(random: &mut Random, alternatives: &[Vec<Atom>]) -> Condition {
    let mut alternatives = alternatives.to_vec();
    for atoms in &mut alternatives {
        let place = random.below(2) * atoms.len();
        atoms.insert(place, Atom::new(Z, NotEqual, 0));
    }
    Condition::new(alternatives)
}

fn shuffled<T: Clone>(random: &mut Random, list: &[T]) -> Vec<T> {
    let mut list = list.to_vec();
    for place in 1..list.len() {
        list.swap(place, random.below(place + 1));
    }
    list
}

/// A room in which all but one wait; each condition for itself, and ten of them twice.
struct Full {
    pair: Pair,
    /// Who does not wait.
    last: usize,
}

impl Full {
    fn new(seed: u64) -> Full {
        let mut random = Random::new(seed);
        let mut wanted: Vec<Condition> = conditions()
            .iter()
            .map(|alternatives| guarded(&mut random, alternatives))
            .collect();
        let again = shuffled(&mut random, &wanted);
        wanted.extend_from_slice(&again[..CROWD - wanted.len()]);
        let wanted = shuffled(&mut random, &wanted);
        let jobs = shuffled(&mut random, &(0..JOBS).collect::<Vec<_>>());
        let mut pair = Pair::new(&opening());
        for (job, condition) in jobs.iter().zip(&wanted) {
            pair.enter_and_wait(*job, condition);
        }
        assert_eq!(pair.second.waiting().len(), CROWD);
        Full {
            pair,
            last: jobs[CROWD],
        }
    }

    /// What leaving reports.
    fn set_guard(&mut self, value: i64) -> Report {
        self.pair.enter(self.last);
        self.pair.set(self.last, GUARD, value);
        self.pair.leave(self.last)
    }

    /// The waiting jobs in the order in which they are called at the opening's values, the guard
    /// open: by the least rank of an alternative that is true then.
    fn order(&self) -> Vec<usize> {
        let mut room = self.pair.second.clone();
        room.values[GUARD] = 1;
        let measures = room.measure_values();
        let least = |job: usize| -> Option<Rank> {
            let condition = room.jobs[job].condition.as_ref()?;
            let ticket = room.jobs[job].ticket?;
            let alternatives = condition.alternatives.iter().enumerate();
            let holding = alternatives.filter(|(_, one)| one.is_true(&measures));
            let ranks = holding.map(|(place, one)| Rank::of(&Tag::of(one), ticket, place));
            ranks.min()
        };
        let waiting = room.waiting();
        let mut jobs: Vec<(Option<Rank>, usize)> = waiting
            .iter()
            .map(|one| (least(one.job), one.job))
            .collect();
        jobs.sort();
        assert!(jobs.iter().all(|(rank, _)| rank.is_some()));
        jobs.into_iter().map(|(_, job)| job).collect()
    }
}

fn called(report: &Report) -> usize {
    report.called.expect("somebody is called")
}

#[test]
fn one_after_the_other_as_each_leaves() {
    for seed in FIRST_SEED..FIRST_SEED + SEEDS {
        let mut full = Full::new(seed);
        let order = full.order();
        let mut report = full.set_guard(1);
        let mut came = vec![called(&report)];
        while let Some(job) = report.called {
            assert_eq!(full.pair.admit(job).outcome, Outcome::In);
            report = full.pair.leave(job);
            came.extend(report.called);
        }
        assert_eq!(came, order, "seed {seed}");
        assert_eq!(full.pair.tally.calls, CROWD as u64);
        assert_eq!(full.pair.tally.sent_back, 0);
        assert_eq!(full.pair.second.standing(Standing::Outside).len(), JOBS);
    }
}

/// The search is then that of a Wait: each waits for what never comes.
#[test]
fn one_after_the_other_as_each_waits_again() {
    let never = Condition::new(one(Z, Equal, 2));
    for seed in FIRST_SEED + 1_000..FIRST_SEED + 1_000 + SEEDS {
        let mut full = Full::new(seed);
        let order = full.order();
        let mut report = full.set_guard(1);
        let mut came = vec![called(&report)];
        while let Some(job) = report.called {
            assert_eq!(full.pair.admit(job).outcome, Outcome::In);
            report = full.pair.wait(job, &never);
            assert_eq!(report.outcome, Outcome::Waits);
            came.extend(report.called);
        }
        assert_eq!(came, order, "seed {seed}");
        assert_eq!(full.pair.second.waiting().len(), CROWD);
    }
}

/// The last job comes and goes until all are called. Then it shuts the guard, and all are sent
/// back with the tickets they had; and the next time they are called in the same order.
#[test]
fn all_called_at_once_and_all_sent_back() {
    for seed in FIRST_SEED + 2_000..FIRST_SEED + 2_000 + SEEDS {
        let mut random = Random::new(seed);
        let mut full = Full::new(seed);
        let before = full.pair.second.clone();
        let order = full.order();
        let came: Vec<usize> = (0..CROWD).map(|_| called(&full.set_guard(1))).collect();
        assert_eq!(came, order, "seed {seed}");
        assert_eq!(full.pair.second.standing(Standing::Called).len(), CROWD);
        assert_eq!(full.set_guard(0).called, None);
        for job in shuffled(&mut random, &came) {
            assert_eq!(full.pair.admit(job).outcome, Outcome::Back);
        }
        assert_eq!(full.pair.second, before);
        assert_eq!(full.pair.tally.sent_back, CROWD as u64);
        assert_eq!(full.order(), order);
        assert_eq!(called(&full.set_guard(1)), order[0]);
    }
}

/// While the guard is shut every tag that holds is tried in vain: of each condition that differs
/// the alternatives whose tag holds.
#[test]
fn nobody_is_called_while_the_guard_is_shut() {
    let mut full = Full::new(FIRST_SEED + 3_000);
    let report = full.set_guard(0);
    assert_eq!(report.called, None);
    assert!(report.evaluated > 20, "{report:?}");
}

/// With all 32 waiting nothing is left that the room accepts.
#[test]
fn all_32_wait() {
    let mut full = Full::new(FIRST_SEED + 4_000);
    let last = full.last;
    full.pair
        .enter_and_wait(last, &Condition::new(one(Z, Equal, 2)));
    assert_eq!(full.pair.second.waiting().len(), JOBS);
    for job in 0..JOBS {
        let arrive = full.pair.arrive(job);
        let admit = full.pair.admit(job);
        let leave = full.pair.leave(job);
        for report in [arrive, admit, leave] {
            assert!(matches!(report.outcome, Outcome::Refused(_)));
        }
    }
}

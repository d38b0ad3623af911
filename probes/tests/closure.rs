//! Closure: a Wait's condition, the local values put in, in the slots of a job.

use probes::conditions::{close, ClosedSlots, KEY_MOST};
use probes::draw;
use probes::events::{wait, WaitSlots};
use probes::expected::conditions::{first_node, first_slot, put_clear};
use probes::expected::events::slots_of;
use probes::{extremes, farthest};
use second::closure::{WrittenAtom, WrittenCondition};
use second::condition::Operator;
use second::limits::{JOBS, MEASURES_MOST};
use second::random::Random;
use second::record::Event;
use second::write;

/// Each closes a condition into the slots of every job.
const TRIALS: u64 = 32_000;
const FIRST_SEED: u64 = 7_000_000;

/// How often each was met.
#[derive(Debug, Default)]
struct Seen {
    alternative_counts: [u64; 5],
    atom_counts: [u64; 5],
    operators: [u64; 7],
    least_key: u64,
    most_key: u64,
}

impl Seen {
    fn add(&mut self, slots: &ClosedSlots, job: usize, written: &WrittenCondition) {
        self.alternative_counts[written.alternatives.len()] += 1;
        for (node, atoms) in (first_node(job)..).zip(&written.alternatives) {
            self.atom_counts[atoms.len()] += 1;
            for (slot, atom) in (first_slot(node)..).zip(atoms) {
                self.operators[atom.operator.number() as usize] += 1;
                self.least_key += u64::from(slots.key[slot] == -KEY_MOST);
                self.most_key += u64::from(slots.key[slot] == KEY_MOST);
            }
        }
    }

    fn everything_more_often_than(&self, times: u64) -> bool {
        let counts = self.alternative_counts[1..].iter();
        let mut all = counts
            .chain(&self.atom_counts[1..])
            .chain(&self.operators[1..])
            .chain([&self.least_key, &self.most_key]);
        all.all(|seen| *seen > times)
    }
}

fn written(random: &mut Random) -> WrittenCondition {
    if random.once_in(4) {
        farthest::condition(random, MEASURES_MOST)
    } else {
        extremes::condition(random, MEASURES_MOST)
    }
}

/// The slots of all jobs as closure leaves them, and as they should be.
struct Scene {
    slots: ClosedSlots,
    right: ClosedSlots,
}

impl Scene {
    fn new(random: &mut Random) -> Self {
        let slots = draw::slots(random);
        let right = slots.clone();
        Scene { slots, right }
    }

    /// Closes what was given of a written condition into the slots of a job. Fails unless they, and
    /// all others, then hold what the second implementation's closure says.
    fn hold_together(
        &mut self,
        given: &WaitSlots,
        job: usize,
        written: &WrittenCondition,
        seed: u64,
    ) {
        put_clear(&mut self.right, job, &written.close());
        close(
            &mut self.slots,
            given,
            written.alternatives.len() as u8,
            job,
        );
        assert!(
            self.slots == self.right,
            "seed {seed}, job {job}, {written:?}"
        );
    }
}

fn key(coefficients: [i64; 4], constant: i64, locals: [i64; 4]) -> i64 {
    let written = WrittenCondition {
        locals,
        alternatives: vec![vec![WrittenAtom {
            measure: 2,
            operator: Operator::Greater,
            coefficients,
            constant,
        }]],
    };
    let mut scene = Scene::new(&mut Random::new(0));
    scene.hold_together(&slots_of(&written), 0, &written, 0);
    scene.slots.key[0]
}

#[test]
fn x_minus_2y_closes_to_key_9() {
    assert_eq!(key([1, -1, 0, 0], 0, [11, 2, 0, 0]), 9);
}

#[test]
fn keys_reach_401_million_at_both_ends() {
    let locals = [1_000_000; 4];
    assert_eq!(key([100; 4], 1_000_000, locals), KEY_MOST);
    assert_eq!(key([-100; 4], -1_000_000, locals), -KEY_MOST);
    assert_eq!(key([100; 4], -1_000_000, locals.map(|n| -n)), -KEY_MOST);
    assert_eq!(key([1, 2, 3, 4], 5, [10, 20, 30, -40]), -15);
}

#[test]
fn into_the_slots_of_every_job_over_anything() {
    let mut seen = Seen::default();
    for seed in FIRST_SEED..FIRST_SEED + TRIALS {
        let mut random = Random::new(seed);
        let mut scene = Scene::new(&mut random);
        for job in 0..JOBS {
            let written = written(&mut random);
            scene.hold_together(&slots_of(&written), job, &written, seed);
            seen.add(&scene.slots, job, &written);
        }
    }
    assert!(seen.everything_more_often_than(TRIALS), "{seen:?}");
}

#[test]
fn over_the_condition_that_the_job_had() {
    for seed in FIRST_SEED..FIRST_SEED + TRIALS / 10 {
        let mut random = Random::new(seed);
        let mut scene = Scene::new(&mut random);
        let job = random.below(JOBS);
        for _ in 0..8 {
            let written = written(&mut random);
            scene.hold_together(&slots_of(&written), job, &written, seed);
        }
    }
}

/// As a host has it: the proved reader lends its slots on to closure.
#[test]
fn what_was_read_is_closed() {
    let mut seen = Seen::default();
    for seed in FIRST_SEED..FIRST_SEED + TRIALS {
        let mut random = Random::new(seed);
        let job = random.below(JOBS);
        let condition = written(&mut random);
        let event = Event::Wait {
            job,
            condition: condition.clone(),
        };
        let bytes = write::event(&event, MEASURES_MOST);
        let mut given = WaitSlots::CLEAR;
        let count = wait(&mut given, &bytes, 2, MEASURES_MOST as u8);
        assert_eq!(count.value, condition.alternatives.len() as u64);
        let mut scene = Scene::new(&mut random);
        scene.hold_together(&given, job, &condition, seed);
        seen.add(&scene.slots, job, &condition);
    }
    assert!(seen.everything_more_often_than(TRIALS / 100), "{seen:?}");
}

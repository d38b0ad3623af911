//! Truth: of an operator, of every alternative, and of conditions.

use probes::conditions::{alternative_is_true, compare, condition_is_true, NODES};
use probes::expected::conditions::{first_node, present, put, shared};
use probes::{draw, extremes, farthest};
use second::condition::{Condition, Operator};
use second::limits::{JOBS, MEASURES_MOST};
use second::random::Random;
use second::record::Opening;

/// Each has a condition for every job.
const TRIALS: u64 = 12_000;
const FIRST_SEED: u64 = 8_000_000;

/// How often each was met.
#[derive(Debug, Default)]
struct Seen {
    /// False and true.
    alternatives: [u64; 2],
    conditions: [u64; 2],
    /// True by the first alternative that is, for each that it may be.
    first_true: [u64; 4],
    /// By operator, the measure one below its key, at it and one above it.
    near: [[u64; 3]; 7],
}

impl Seen {
    fn add(&mut self, condition: &Condition, present: &[i64]) {
        let truths = condition.alternatives.iter().map(|a| a.is_true(present));
        let first_true = truths.clone().position(|is_true| is_true);
        truths.for_each(|is_true| self.alternatives[usize::from(is_true)] += 1);
        self.conditions[usize::from(first_true.is_some())] += 1;
        if let Some(place) = first_true {
            self.first_true[place] += 1;
        }
        for atom in condition.alternatives.iter().flat_map(|a| &a.atoms) {
            let from_key = present[atom.measure] - atom.key;
            if let -1..=1 = from_key {
                let place = (from_key + 1) as usize;
                self.near[atom.operator.number() as usize][place] += 1;
            }
        }
    }
}

/// A condition for every job, each drawn by `draw_one`; fails unless both implementations say the
/// same of each and of its alternatives.
fn hold_together(
    seed: u64,
    random: &mut Random,
    opening: &Opening,
    seen: &mut Seen,
    draw_one: impl Fn(&mut Random, &[i64]) -> Condition,
) {
    let (shared, present) = (shared(opening), present(opening));
    let mut slots = draw::slots_in_range(random);
    let conditions: Vec<Condition> = (0..JOBS).map(|_| draw_one(random, &present)).collect();
    for (job, condition) in conditions.iter().enumerate() {
        put(&mut slots, job, condition);
    }
    for (job, condition) in conditions.iter().enumerate() {
        let told = || format!("seed {seed}, job {job}, {condition:?}");
        for (node, alternative) in (first_node(job)..).zip(&condition.alternatives) {
            let answer = alternative_is_true(&shared, &slots, node);
            assert_eq!(answer, alternative.is_true(&present), "{}", told());
        }
        let answer = condition_is_true(&shared, &slots, job);
        assert_eq!(answer, condition.is_true(&present), "{}", told());
        seen.add(condition, &present);
    }
}

#[test]
fn operators_compare_value_and_key() {
    let numbers = [
        i64::MIN,
        i64::MIN + 1,
        -800_000_000,
        -401_000_000,
        -2,
        -1,
        0,
        1,
        2,
        401_000_000,
        800_000_000,
        i64::MAX - 1,
        i64::MAX,
    ];
    for value in numbers {
        for key in numbers {
            for operator in Operator::ALL {
                let answer = compare(operator.number() as u8, value, key);
                assert_eq!(answer, operator.holds(value, key), "{operator:?}");
            }
            for other in (0..=0).chain(7..=255) {
                assert!(!compare(other, value, key), "{other}");
            }
        }
    }
}

#[test]
fn random_operators() {
    let mut seen = [[0_u64; 2]; 7];
    let mut random = Random::new(FIRST_SEED);
    for _ in 0..1_000_000 {
        let operator = random.pick(&Operator::ALL);
        let value = random.bits() as i64 >> random.below(64);
        let key = value.saturating_add(random.between(-1, 1));
        let answer = compare(operator.number() as u8, value, key);
        assert_eq!(answer, operator.holds(value, key), "{value}, {key}");
        seen[operator.number() as usize][usize::from(answer)] += 1;
    }
    let mut all = seen[1..].iter().flatten();
    assert!(all.all(|times| *times > 10_000), "{seen:?}");
}

#[test]
fn at_deciding_values() {
    let mut seen = Seen::default();
    for seed in FIRST_SEED..FIRST_SEED + TRIALS {
        let mut random = Random::new(seed);
        let opening = extremes::opening(&mut random, MEASURES_MOST);
        hold_together(seed, &mut random, &opening, &mut seen, draw::deciding);
    }
    let drawn = TRIALS * JOBS as u64;
    let outcomes = seen.conditions.iter().chain(&seen.alternatives);
    assert!(outcomes.min() > Some(&(drawn / 3)), "{seen:?}");
    let mut orders = seen.near[1..].iter().flatten().chain(&seen.first_true);
    assert!(orders.all(|times| *times > drawn / 100), "{seen:?}");
}

#[test]
fn at_random_values() {
    let mut seen = Seen::default();
    for seed in FIRST_SEED..FIRST_SEED + TRIALS / 4 {
        let mut random = Random::new(seed);
        let measure_count = 1 + random.below(MEASURES_MOST);
        let opening = extremes::opening(&mut random, measure_count);
        hold_together(seed, &mut random, &opening, &mut seen, |random, _| {
            draw::condition(random)
        });
    }
    let outcomes = seen.conditions.iter().chain(&seen.alternatives);
    assert!(outcomes.min() > Some(&TRIALS), "{seen:?}");
}

#[test]
fn with_measures_as_far_from_0_as_they_go() {
    let mut seen = Seen::default();
    for seed in FIRST_SEED..FIRST_SEED + TRIALS / 4 {
        let mut random = Random::new(seed);
        let opening = farthest::opening(&mut random, MEASURES_MOST);
        hold_together(seed, &mut random, &opening, &mut seen, draw::deciding);
    }
    let outcomes = seen.conditions.iter().chain(&seen.alternatives);
    assert!(outcomes.min() > Some(&TRIALS), "{seen:?}");
}

/// No condition of a room has such a count; the functions read it as four.
#[test]
fn a_count_past_four_is_read_as_four() {
    for seed in FIRST_SEED..FIRST_SEED + 2_000 {
        let mut random = Random::new(seed);
        let opening = extremes::opening(&mut random, MEASURES_MOST);
        let (shared, present) = (shared(&opening), present(&opening));
        let mut slots = draw::slots_in_range(&mut random);
        for job in 0..JOBS {
            put(&mut slots, job, &draw::deciding(&mut random, &present));
        }
        slots.atoms = slots.atoms.map(|count| count.min(4));
        let mut past = slots.clone();
        let counts = past.alternatives.iter_mut().chain(&mut past.atoms);
        for count in counts.filter(|count| **count == 4) {
            *count = random.between(4, 255) as u8;
        }
        for node in 0..NODES {
            let answer = alternative_is_true(&shared, &past, node);
            assert_eq!(answer, alternative_is_true(&shared, &slots, node));
        }
        for job in 0..JOBS {
            let answer = condition_is_true(&shared, &past, job);
            assert_eq!(answer, condition_is_true(&shared, &slots, job));
        }
    }
}

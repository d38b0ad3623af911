//! Tags: their slots, and whether they hold.

use probes::conditions::{tag, tag_holds, NO_TAG};
use probes::expected::conditions as expected;
use probes::extremes::{self, shape};
use probes::{draw, farthest};
use second::condition::{Alternative, Condition, Operator};
use second::limits::{JOBS, MEASURES_MOST};
use second::random::Random;
use second::record::Opening;
use second::tag::Tag;

/// Each has a condition for every job.
const TRIALS: u64 = 10_000;
const FIRST_SEED: u64 = 9_000_000;

/// How often each was met: by the place of the tag's atom, false and true.
#[derive(Debug, Default)]
struct Seen {
    equality: [[u64; 2]; 4],
    threshold: [[u64; 2]; 4],
    no_tag: u64,
}

impl Seen {
    fn add(&mut self, alternative: &Alternative, slot: usize, holds: bool) {
        let place = slot % 4;
        match Tag::of(alternative) {
            Tag::Equality(_) => self.equality[place][usize::from(holds)] += 1,
            Tag::Threshold(_) => self.threshold[place][usize::from(holds)] += 1,
            Tag::NoTag => self.no_tag += 1,
        }
    }

    fn everything_more_often_than(&self, times: u64) -> bool {
        let tags = self.equality.iter().chain(&self.threshold);
        let mut all = tags.flatten().chain([&self.no_tag]);
        all.all(|seen| *seen > times)
    }
}

/// Of few operators at a time, so that there are tags of every kind at every place.
fn condition(random: &mut Random, present: &[i64]) -> Condition {
    use Operator::{Equal, Greater, GreaterOrEqual, Less, LessOrEqual, NotEqual};
    let mut operators: &[Operator] = &Operator::ALL;
    Condition::new(shape(random, |random| {
        if random.once_in(3) {
            operators = match random.below(4) {
                0 => &Operator::ALL,
                1 => &[
                    NotEqual,
                    NotEqual,
                    Less,
                    LessOrEqual,
                    Greater,
                    GreaterOrEqual,
                ],
                2 => &[NotEqual, NotEqual, NotEqual, Greater, Less, Equal],
                _ => &[NotEqual],
            };
        }
        let operator = random.pick(operators);
        draw::deciding_atom(random, present, operator)
    }))
}

fn hold_together(seed: u64, random: &mut Random, opening: &Opening, seen: &mut Seen) {
    let (shared, present) = (expected::shared(opening), expected::present(opening));
    let mut slots = draw::slots_in_range(random);
    let conditions: Vec<Condition> = (0..JOBS).map(|_| condition(random, &present)).collect();
    for (job, condition) in conditions.iter().enumerate() {
        expected::put(&mut slots, job, condition);
    }
    for (job, condition) in conditions.iter().enumerate() {
        let nodes = expected::first_node(job)..;
        for (node, alternative) in nodes.zip(&condition.alternatives) {
            let told = || format!("seed {seed}, node {node}, {alternative:?}");
            let slot = tag(&slots, node);
            assert_eq!(slot, expected::tag(node, alternative), "{}", told());
            let holds = tag_holds(&shared, &slots, node);
            let right = Tag::of(alternative).holds(&present);
            assert_eq!(holds, right, "{}", told());
            seen.add(alternative, slot, holds);
        }
    }
}

/// The tag's slot of an alternative with these operators, at a node in the middle.
fn slot_of(operators: &[Operator]) -> usize {
    let mut random = Random::new(0);
    let mut slots = draw::slots_in_range(&mut random);
    let atoms = operators
        .iter()
        .map(|operator| draw::deciding_atom(&mut random, &[0], *operator));
    let condition = Condition::new(vec![atoms.collect()]);
    expected::put(&mut slots, 5, &condition);
    tag(&slots, 20)
}

#[test]
fn the_first_equality_or_else_the_first_threshold() {
    use Operator::{Equal, Greater, GreaterOrEqual, Less, LessOrEqual, NotEqual};
    assert_eq!(slot_of(&[Less, Equal]), 81);
    assert_eq!(slot_of(&[Equal, Equal]), 80);
    assert_eq!(slot_of(&[NotEqual]), NO_TAG);
    assert_eq!(slot_of(&[NotEqual; 4]), NO_TAG);
    assert_eq!(slot_of(&[Less, Greater, NotEqual, Equal]), 83);
    for threshold in [Less, LessOrEqual, Greater, GreaterOrEqual] {
        assert_eq!(slot_of(&[NotEqual, threshold, Less, NotEqual]), 81);
        assert_eq!(slot_of(&[NotEqual, NotEqual, NotEqual, threshold]), 83);
    }
}

#[test]
fn every_row_of_1_to_4_operators() {
    let mut random = Random::new(FIRST_SEED);
    let mut slots = draw::slots_in_range(&mut random);
    let mut rows: Vec<Vec<Operator>> = vec![Vec::new()];
    let mut tried = 0;
    while let Some(row) = rows.pop() {
        if row.len() < 4 {
            rows.extend(Operator::ALL.map(|next| [row.as_slice(), &[next]].concat()));
        }
        if row.is_empty() {
            continue;
        }
        let job = random.below(JOBS);
        let atoms = row
            .iter()
            .map(|operator| draw::deciding_atom(&mut random, &[0], *operator));
        let condition = Condition::new(vec![atoms.collect()]);
        expected::put(&mut slots, job, &condition);
        let node = expected::first_node(job);
        let right = expected::tag(node, &condition.alternatives[0]);
        assert_eq!(tag(&slots, node), right, "{row:?}");
        tried += 1;
    }
    assert_eq!(tried, 6 + 36 + 216 + 1296);
}

#[test]
fn at_deciding_values() {
    let mut seen = Seen::default();
    for seed in FIRST_SEED..FIRST_SEED + TRIALS {
        let mut random = Random::new(seed);
        let opening = extremes::opening(&mut random, MEASURES_MOST);
        hold_together(seed, &mut random, &opening, &mut seen);
    }
    assert!(seen.everything_more_often_than(TRIALS / 10), "{seen:?}");
}

#[test]
fn with_measures_as_far_from_0_as_they_go() {
    let mut seen = Seen::default();
    for seed in FIRST_SEED..FIRST_SEED + TRIALS / 10 {
        let mut random = Random::new(seed);
        let opening = farthest::opening(&mut random, MEASURES_MOST);
        hold_together(seed, &mut random, &opening, &mut seen);
    }
    let thresholds = seen.threshold.iter().flatten();
    assert!(thresholds.min() > Some(&(TRIALS / 100)), "{seen:?}");
}

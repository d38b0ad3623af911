//! Identity: of conditions that are equal, and of some that differ in one thing alone.

use probes::conditions::{are_identical, ClosedSlots};
use probes::draw;
use probes::expected::conditions::{first_node, first_slot, put};
use second::condition::{Alternative, Atom, Condition, Operator};
use second::limits::{JOBS, MEASURES_MOST};
use second::random::Random;

const PAIRS: u64 = 40_000;
const FIRST_SEED: u64 = 10_000_000;

/// Numbers drawn, and slots that two conditions after two are put into. The slots are drawn anew
/// now and then.
struct Scene {
    random: Random,
    slots: ClosedSlots,
}

impl Scene {
    fn new(seed: u64) -> Self {
        let mut random = Random::new(FIRST_SEED + seed);
        let slots = draw::slots_in_range(&mut random);
        Scene { random, slots }
    }

    /// Puts two conditions into the slots of two jobs. What stands past the counts of the first may
    /// also stand past those of the second.
    fn put_both(&mut self, one: &Condition, other: &Condition) -> (usize, usize) {
        let Scene { random, slots } = self;
        if random.once_in(16) {
            *slots = draw::slots_in_range(random);
        }
        let first = random.below(JOBS);
        let second = (first + 1 + random.below(JOBS - 1)) % JOBS;
        put(slots, first, one);
        if random.once_in(2) {
            copy(slots, first, second);
        }
        put(slots, second, other);
        (first, second)
    }

    /// Whether the two are identical. Fails unless both implementations say the same, in either
    /// order.
    fn hold_together(&mut self, one: &Condition, other: &Condition) -> bool {
        let (first, second) = self.put_both(one, other);
        let slots = &self.slots;
        let right = one == other;
        let told = || format!("jobs {first} and {second}, {one:?}, {other:?}");
        assert_eq!(are_identical(slots, first, second), right, "{}", told());
        assert_eq!(are_identical(slots, second, first), right, "{}", told());
        assert!(are_identical(slots, first, first), "{}", told());
        right
    }
}

fn copy(slots: &mut ClosedSlots, from: usize, to: usize) {
    let nodes = first_node(from)..first_node(from + 1);
    let atoms = first_slot(nodes.start)..first_slot(nodes.end);
    let (node, slot) = (first_node(to), first_slot(first_node(to)));
    slots.alternatives[to] = slots.alternatives[from];
    slots.atoms.copy_within(nodes, node);
    slots.measure.copy_within(atoms.clone(), slot);
    slots.operator.copy_within(atoms.clone(), slot);
    slots.key.copy_within(atoms, slot);
}

/// Holds conditions against what one change leaves of each. The change says false where it can't be
/// made. Most pairs must differ.
fn differ_by(seed: u64, change: impl Fn(&mut Random, &mut Condition) -> bool) {
    let mut scene = Scene::new(seed);
    let mut seen = [0; 2];
    while seen[0] + seen[1] < PAIRS {
        let one = draw::condition(&mut scene.random);
        let mut other = one.clone();
        if change(&mut scene.random, &mut other) {
            let same = scene.hold_together(&one, &other);
            seen[usize::from(same)] += 1;
        }
    }
    assert!(seen[0] > PAIRS / 10 * 9, "{seen:?}");
}

fn some_alternative<'a>(random: &mut Random, condition: &'a mut Condition) -> &'a mut Alternative {
    let place = random.below(condition.alternatives.len());
    &mut condition.alternatives[place]
}

fn some_atom<'a>(random: &mut Random, condition: &'a mut Condition) -> &'a mut Atom {
    let atoms = &mut some_alternative(random, condition).atoms;
    let place = random.below(atoms.len());
    &mut atoms[place]
}

fn last_atom(condition: &mut Condition) -> Option<&mut Atom> {
    condition.alternatives.last_mut()?.atoms.last_mut()
}

/// Towards 0, so that it stays in its range.
fn change_key(random: &mut Random, atom: &mut Atom) {
    atom.key += match atom.key.signum() {
        0 => random.pick(&[1, -1]),
        sign => -sign,
    };
}

fn change_operator(random: &mut Random, atom: &mut Atom) {
    let number = atom.operator.number() as usize - 1;
    atom.operator = Operator::ALL[(number + 1 + random.below(5)) % 6];
}

fn change_measure(random: &mut Random, atom: &mut Atom) {
    atom.measure = (atom.measure + 1 + random.below(MEASURES_MOST - 1)) % MEASURES_MOST;
}

/// Two different places of so many; nothing if there is but one.
fn two_places(random: &mut Random, count: usize) -> Option<(usize, usize)> {
    let others = count.checked_sub(1).filter(|others| *others > 0)?;
    let one = random.below(count);
    Some((one, (one + 1 + random.below(others)) % count))
}

#[test]
fn a_key_by_one() {
    differ_by(0, |random, condition| {
        let atom = some_atom(random, condition);
        change_key(random, atom);
        true
    });
}

#[test]
fn an_operator() {
    differ_by(1, |random, condition| {
        let atom = some_atom(random, condition);
        change_operator(random, atom);
        true
    });
}

#[test]
fn a_measure() {
    differ_by(2, |random, condition| {
        let atom = some_atom(random, condition);
        change_measure(random, atom);
        true
    });
}

#[test]
fn the_last_atom() {
    differ_by(3, |random, condition| {
        let change = random.pick(&[change_key, change_operator, change_measure]);
        let atom = last_atom(condition);
        atom.map(|atom| change(random, atom)).is_some()
    });
}

#[test]
fn an_atom_count() {
    differ_by(4, |random, condition| {
        let atoms = &mut some_alternative(random, condition).atoms;
        atoms.len() > 1 && atoms.pop().is_some()
    });
}

#[test]
fn an_alternative_count() {
    differ_by(5, |_, condition| {
        let alternatives = &mut condition.alternatives;
        alternatives.len() > 1 && alternatives.pop().is_some()
    });
}

#[test]
fn the_order_of_two_atoms() {
    differ_by(6, |random, condition| {
        let atoms = &mut some_alternative(random, condition).atoms;
        let places = two_places(random, atoms.len());
        places.map(|(one, other)| atoms.swap(one, other)).is_some()
    });
}

#[test]
fn the_order_of_two_alternatives() {
    differ_by(7, |random, condition| {
        let alternatives = &mut condition.alternatives;
        let places = two_places(random, alternatives.len());
        places
            .map(|(one, other)| alternatives.swap(one, other))
            .is_some()
    });
}

/// An alternative's last atom as the first of the next: the same atoms in the same order.
#[test]
fn where_an_alternative_ends() {
    differ_by(8, |_, condition| {
        if let [first, second, ..] = condition.alternatives.as_mut_slice() {
            if first.atoms.len() > 1 && second.atoms.len() < 4 {
                second.atoms.splice(0..0, first.atoms.pop());
                return true;
            }
        }
        false
    });
}

#[test]
fn equal_whatever_stands_past_the_counts() {
    let mut scene = Scene::new(9);
    for _ in 0..PAIRS {
        let condition = draw::condition(&mut scene.random);
        assert!(scene.hold_together(&condition, &condition));
    }
}

/// Of so few atoms that many are identical by chance.
#[test]
fn random_pairs_of_few_atoms() {
    let atoms = [
        Atom::new(0, Operator::Greater, 5),
        Atom::new(0, Operator::GreaterOrEqual, 5),
        Atom::new(0, Operator::Greater, 6),
        Atom::new(15, Operator::Greater, 5),
    ];
    let few = |random: &mut Random| {
        let mut alternatives = vec![Vec::new(); 1 + random.below(2)];
        for alternative in &mut alternatives {
            for _ in 0..1 + random.below(2) {
                let place = random.below(8).saturating_sub(4);
                alternative.push(atoms[place]);
            }
        }
        Condition::new(alternatives)
    };
    let mut scene = Scene::new(10);
    let mut seen = [0; 2];
    for _ in 0..PAIRS * 5 {
        let (one, other) = (few(&mut scene.random), few(&mut scene.random));
        let same = scene.hold_together(&one, &other);
        seen[usize::from(same)] += 1;
    }
    assert!(seen.iter().all(|times| *times > PAIRS / 10), "{seen:?}");
}

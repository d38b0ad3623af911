//! Streams in which a whole crowd waits behind one guard and then leaves in rank order.
//!
//! The guard is a variable that only the guard measure has; every alternative has the atom
//! "guard ≠ 0", which is never a tag. The conditions are true at the goal, the values the shared
//! variables have once the guard is open, but for a few that never are.

use crate::condition::{Atom, Condition, Operator};
use crate::limits::{ATOMS_MOST, JOBS, MEASURES_MOST, VARIABLES};
use crate::random::Random;
use crate::record::{Event, Opening};
use crate::room::Standing;
use crate::streams::author::Author;
use crate::streams::conditions;
use crate::streams::openings;

const GUARD_VARIABLE: usize = VARIABLES - 1;
const GUARD_SHUT: i64 = 0;
const GUARD_OPEN: i64 = 1;
/// A value the guard never has.
const GUARD_NEVER: i64 = 2;
/// At most so many jobs wait for what never comes.
const STAYING_MOST: usize = 3;

struct Drain {
    author: Author,
    guard_measure: usize,
}

/// What the conditions of one round are made for and made of.
struct Round {
    /// The variables that change when the guard opens.
    sets: Vec<(usize, i64)>,
    /// What each measure comes to at the goal.
    goal: Vec<i64>,
    /// The measures and operators of the atoms; few of them make more ties.
    measures: Vec<usize>,
    operators: Vec<Operator>,
}

pub fn drain(mut random: Random, size: usize) -> Vec<u8> {
    let mut opening = openings::small(&mut random, size);
    let guard_measure = random
        .below(opening.measures.len() + 1)
        .min(MEASURES_MOST - 1);
    put_guard(&mut opening, guard_measure);
    let mut drain = Drain {
        author: Author::open(random, &opening, size),
        guard_measure,
    };
    while drain.round() {}
    drain.author.bytes
}

fn put_guard(opening: &mut Opening, guard_measure: usize) {
    for coefficients in &mut opening.measures {
        coefficients[GUARD_VARIABLE] = 0;
    }
    let mut guard = [0; VARIABLES];
    guard[GUARD_VARIABLE] = 1;
    opening.measures.insert(guard_measure, guard);
    opening.measures.truncate(MEASURES_MOST);
    opening.values[GUARD_VARIABLE] = GUARD_SHUT;
}

impl Drain {
    /// False if there were not bytes enough for two jobs to wait and leave.
    fn round(&mut self) -> bool {
        let round = self.plan_round();
        self.gather(&round) > 1 && self.open_guard(&round.sets) && self.let_all_leave()
    }

    fn plan_round(&mut self) -> Round {
        let random = &mut self.author.random;
        let mut sets = Vec::new();
        for _ in 0..random.below(3) {
            sets.push((random.below(GUARD_VARIABLE), random.between(-3, 3)));
        }
        let mut measures: Vec<usize> = (0..self.author.room.measures.len()).collect();
        if random.once_in(3) {
            measures = vec![random.pick(&measures)];
        }
        let operators = random.pick(&[
            Operator::ALL.to_vec(),
            Operator::ALL.to_vec(),
            vec![Operator::Equal],
            vec![Operator::Less, Operator::LessOrEqual],
            vec![Operator::Greater, Operator::GreaterOrEqual],
        ]);
        Round {
            goal: self.goal_measures(&sets),
            sets,
            measures,
            operators,
        }
    }

    fn goal_measures(&self, sets: &[(usize, i64)]) -> Vec<i64> {
        let mut room = self.author.room.clone();
        for (variable, value) in sets {
            room.values[*variable] = *value;
        }
        room.values[GUARD_VARIABLE] = GUARD_OPEN;
        room.measure_values()
    }

    /// Lets jobs wait as long as the bytes last for them to leave again; how many do.
    fn gather(&mut self, round: &Round) -> usize {
        let crowd = 2 + self.author.random.below(JOBS - 2);
        let mut gathered = 0;
        while gathered < crowd && self.author.room.standing(Standing::Outside).len() > 1 {
            let events = self.waiting_events(round);
            let length: usize = events
                .iter()
                .map(|event| self.author.length_of(event))
                .sum();
            let for_leaving = 4 * (gathered + 1) + 20;
            if length + for_leaving > self.author.bytes_left() {
                break;
            }
            for event in &events {
                self.author.add(event);
            }
            gathered += 1;
        }
        gathered
    }

    fn waiting_events(&mut self, round: &Round) -> Vec<Event> {
        let job = self
            .author
            .pick_standing(Standing::Outside)
            .expect("somebody is outside");
        let mut events = vec![Event::Arrive { job }, Event::Admit { job }];
        if self.author.room.values[GUARD_VARIABLE] != GUARD_SHUT {
            events.push(Event::Set {
                job,
                variable: GUARD_VARIABLE,
                value: GUARD_SHUT,
            });
        }
        let condition = self.condition(round);
        events.push(Event::Wait {
            job,
            condition: conditions::in_writing(&mut self.author.random, &condition),
        });
        events
    }

    /// Sometimes one that a job is waiting for already.
    fn condition(&mut self, round: &Round) -> Condition {
        let waiting = self.author.room.waiting();
        let random = &mut self.author.random;
        if !waiting.is_empty() && random.once_in(6) {
            return random.pick(&waiting).condition.clone();
        }
        let count = conditions::few(random);
        let surely_true = random.below(count);
        let mut alternatives = Vec::new();
        for number in 0..count {
            let mut atoms = self.atoms(round, number == surely_true);
            let guard = Atom::new(self.guard_measure, Operator::NotEqual, GUARD_SHUT);
            let place = self.author.random.below(atoms.len() + 1);
            atoms.insert(place, guard);
            alternatives.push(atoms);
        }
        Condition::new(alternatives)
    }

    /// Atoms true at the goal; a last one that is false there may be among them.
    fn atoms(&mut self, round: &Round, surely_true: bool) -> Vec<Atom> {
        let random = &mut self.author.random;
        let count = random.pick(&[0, 1, 1, 1, 1, 1, 2]);
        let mut atoms = Vec::new();
        for _ in 0..count {
            let measure = random.pick(&round.measures);
            let operator = random.pick(&round.operators);
            let value = round.goal[measure];
            atoms.push(conditions::true_atom(random, measure, operator, value));
        }
        if !surely_true && atoms.len() + 2 <= ATOMS_MOST && random.once_in(2) {
            let measure = random.pick(&round.measures);
            let value = round.goal[measure];
            atoms.push(Atom::new(measure, Operator::NotEqual, value));
        }
        atoms
    }

    fn open_guard(&mut self, sets: &[(usize, i64)]) -> bool {
        let job = match self.author.pick_standing(Standing::Outside) {
            Some(job) => job,
            None => return false,
        };
        let mut events = vec![Event::Arrive { job }, Event::Admit { job }];
        for (variable, value) in sets {
            events.push(Event::Set {
                job,
                variable: *variable,
                value: *value,
            });
        }
        events.push(Event::Set {
            job,
            variable: GUARD_VARIABLE,
            value: GUARD_OPEN,
        });
        events.push(Event::Leave { job });
        events.iter().all(|event| self.author.add(event).is_some())
    }

    fn let_all_leave(&mut self) -> bool {
        while let Some(job) = self.author.pick_standing(Standing::Called) {
            let go = if self.author.random.once_in(12) && self.one_more_may_stay() {
                self.wait_for_ever(job)
            } else {
                Event::Leave { job }
            };
            let admitted = self.author.add(&Event::Admit { job });
            if admitted.is_none() || self.author.add(&go).is_none() {
                return false;
            }
        }
        true
    }

    /// At the goal the jobs that wait for ever are the ones whose condition is false.
    fn one_more_may_stay(&self) -> bool {
        let goal = self.author.room.measure_values();
        let waiting = self.author.room.waiting();
        let stays = |condition: &Condition| !condition.is_true(&goal);
        let staying = waiting.iter().filter(|one| stays(one.condition)).count();
        let for_leaving = 4 * waiting.len();
        staying < STAYING_MOST && self.author.bytes_left() > for_leaving + 40
    }

    /// A search then runs at a Wait.
    fn wait_for_ever(&mut self, job: usize) -> Event {
        let random = &mut self.author.random;
        let operator = random.pick(&[Operator::Equal, Operator::GreaterOrEqual]);
        let never = Atom::new(self.guard_measure, operator, GUARD_NEVER);
        let condition = Condition::new(vec![vec![never]]);
        Event::Wait {
            job,
            condition: conditions::in_writing(random, &condition),
        }
    }
}

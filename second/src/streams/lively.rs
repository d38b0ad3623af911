//! Streams in which truth flips often.
//!
//! A stream has a few scenes, values of the shared variables that it comes back to again and
//! again. Sets lead towards a scene, and jobs wait for conditions that are true at one.

use crate::condition::Condition;
use crate::limits::{JOBS, VARIABLES};
use crate::measure::measure;
use crate::random::Random;
use crate::record::{Event, Opening};
use crate::room::{Room, Standing};
use crate::streams::author::Author;
use crate::streams::conditions;
use crate::streams::openings;

/// At most so many jobs wait for a condition that is true at no scene.
const HOPELESS_MOST: usize = 2;

pub struct Lively {
    pub author: Author,
    scenes: Vec<[i64; VARIABLES]>,
    /// How many jobs may have a condition at one time; few in a short stream, which would be
    /// over before they are called.
    crowd: usize,
    /// While the crowd gathers every job that comes in waits, so that nobody is called.
    gathering: bool,
}

pub fn lively(mut random: Random, size: usize) -> Vec<u8> {
    let opening = openings::small(&mut random, size);
    let mut lively = Lively::open(random, &opening, size, JOBS);
    while lively.add_event() {}
    lively.author.bytes
}

impl Lively {
    pub fn open(mut random: Random, opening: &Opening, size: usize, crowd_most: usize) -> Lively {
        Lively {
            scenes: scenes(&mut random, opening),
            crowd: 1 + random.below(crowd_most.min(2 + size / 60)),
            gathering: random.once_in(3),
            author: Author::open(random, opening, size),
        }
    }

    /// False once nothing fits, or once no event is left that the room would accept.
    pub fn add_event(&mut self) -> bool {
        for _ in 0..8 {
            if let Some(event) = self.next_event() {
                if self.author.add(&event).is_some() {
                    return true;
                }
            }
        }
        false
    }

    fn next_event(&mut self) -> Option<Event> {
        if self.author.random.once_in(8) {
            if let Some(job) = self.author.pick_standing(Standing::Outside) {
                return Some(Event::Arrive { job });
            }
        }
        let job = match self.author.room.inside() {
            Some(job) => job,
            None => return self.author.admit_or_arrive(),
        };
        let crowded = self.author.jobs_with_condition() >= self.crowd;
        self.gathering = self.gathering && !crowded;
        Some(match self.author.random.below(8) {
            _ if self.gathering => self.wait(job),
            0..=3 => self.set(job),
            4..=6 if !crowded => self.wait(job),
            _ => Event::Leave { job },
        })
    }

    /// Mostly one step towards a scene, and of these often one that changes somebody's truth.
    fn set(&mut self, job: usize) -> Event {
        let steps = self.steps_towards_scenes();
        let telling: Vec<(usize, i64)> = steps
            .iter()
            .copied()
            .filter(|step| self.is_telling(*step))
            .collect();
        let random = &mut self.author.random;
        let (variable, value) = if steps.is_empty() || random.once_in(6) {
            (random.below(VARIABLES), random.between(-3, 3))
        } else if telling.is_empty() || random.once_in(3) {
            random.pick(&steps)
        } else {
            random.pick(&telling)
        };
        Event::Set {
            job,
            variable,
            value,
        }
    }

    /// Variables whose value differs from a scene's, with the scene's value.
    fn steps_towards_scenes(&self) -> Vec<(usize, i64)> {
        let mut steps = Vec::new();
        for scene in &self.scenes {
            for (variable, value) in scene.iter().enumerate() {
                if self.author.room.values[variable] != *value {
                    steps.push((variable, *value));
                }
            }
        }
        steps
    }

    /// Whether the step makes a called job false or, if none is called, a waiting job true.
    fn is_telling(&self, step: (usize, i64)) -> bool {
        let room = &self.author.room;
        let mut values = room.values;
        values[step.0] = step.1;
        let measures = measures_at(room, &values);
        let called = room.standing(Standing::Called);
        if called.is_empty() {
            let waiting = room.waiting();
            return waiting.iter().any(|one| one.condition.is_true(&measures));
        }
        called.iter().any(|job| {
            let condition = room.jobs[*job].condition.as_ref();
            condition.map_or(false, |condition| !condition.is_true(&measures))
        })
    }

    /// Mostly with a condition that is false at present.
    fn wait(&mut self, job: usize) -> Event {
        let present = self.author.room.measure_values();
        let true_is_well = self.author.random.once_in(6);
        let hopeless_is_well = self.hopeless_jobs() < HOPELESS_MOST;
        let mut condition = self.some_condition();
        for _ in 0..20 {
            let well = (true_is_well || !condition.is_true(&present))
                && (hopeless_is_well || !self.is_hopeless(&condition));
            if well {
                break;
            }
            condition = self.some_condition();
        }
        Event::Wait {
            job,
            condition: conditions::in_writing(&mut self.author.random, &condition),
        }
    }

    /// Often one that a job is waiting for already, or almost that one.
    fn some_condition(&mut self) -> Condition {
        let waiting = self.author.room.waiting();
        let random = &mut self.author.random;
        if waiting.is_empty() || random.once_in(2) {
            let scene = random.pick(&self.scenes);
            return conditions::fresh(random, &measures_at(&self.author.room, &scene));
        }
        let model = random.pick(&waiting).condition;
        if random.once_in(2) {
            model.clone()
        } else {
            conditions::near_twin(random, model)
        }
    }

    fn hopeless_jobs(&self) -> usize {
        let waiting = self.author.room.waiting();
        let hopeless = waiting.iter().filter(|one| self.is_hopeless(one.condition));
        hopeless.count()
    }

    fn is_hopeless(&self, condition: &Condition) -> bool {
        let room = &self.author.room;
        let is_true_at = |scene| condition.is_true(&measures_at(room, scene));
        !self.scenes.iter().any(is_true_at)
    }
}

/// The opening's values, and others that differ from them in one or two variables.
fn scenes(random: &mut Random, opening: &Opening) -> Vec<[i64; VARIABLES]> {
    let mut scenes = vec![opening.values];
    for _ in 0..2 + random.below(4) {
        let mut scene = opening.values;
        for _ in 0..1 + random.below(2) {
            let variable = variable_of_some_measure(random, opening);
            scene[variable] = random.between(-3, 3);
        }
        scenes.push(scene);
    }
    scenes
}

fn variable_of_some_measure(random: &mut Random, opening: &Opening) -> usize {
    let coefficients = random.pick(&opening.measures);
    let used: Vec<usize> = (0..VARIABLES)
        .filter(|variable| coefficients[*variable] != 0)
        .collect();
    if used.is_empty() {
        random.below(VARIABLES)
    } else {
        random.pick(&used)
    }
}

fn measures_at(room: &Room, values: &[i64; VARIABLES]) -> Vec<i64> {
    room.measures
        .iter()
        .map(|coefficients| measure(coefficients, values))
        .collect()
}

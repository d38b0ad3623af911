//! Writes the events of a run, one by one, knowing the room.

use second::limits::{JOBS, VARIABLES};
use second::random::Random;
use second::record::Event;
use second::room::{Room, Standing};
use second::write;

use super::broken::broken;
use super::standings::Standings;
use super::stock::{Stock, GUARD};
use super::writing::written;

/// At most so many jobs have a condition; one is left to go on.
pub const CROWD_MOST: usize = JOBS - 1;

/// What the jobs of a run are up to.
#[derive(Clone, Copy, Debug, PartialEq, Eq)]
enum Phase {
    /// All who come in wait, until the crowd is as large as it is to be.
    Gathers,
    /// They come, change values, wait and leave as it happens, for so many events.
    Lives(usize),
    /// A job sets the scene, and then those who are called leave, for at most so many events.
    Drains(usize),
}

pub struct Author {
    random: Random,
    stock: Stock,
    crowd: usize,
    phase: Phase,
    /// The scene that Sets lead to.
    goal: [i64; VARIABLES],
    /// One event in so many is one that the room may refuse.
    strays: usize,
}

impl Author {
    pub fn new(mut random: Random, stock: Stock, strays: usize) -> Author {
        Author {
            crowd: crowd(&mut random),
            goal: random.pick(&stock.scenes),
            random,
            stock,
            phase: Phase::Gathers,
            strays,
        }
    }

    /// One record, mostly sound and fit for the room, and sometimes bytes after it.
    pub fn next(&mut self, room: &Room) -> Vec<u8> {
        let standings = Standings::of(room);
        let mut bytes = if self.random.once_in(self.strays) {
            self.stray(room, &standings)
        } else {
            let event = self.event(room, &standings);
            write::event(&event, room.measures.len())
        };
        if !bytes.is_empty() && self.random.once_in(16) {
            let more = self.stray(room, &standings);
            bytes.extend(more);
        }
        bytes
    }

    fn event(&mut self, room: &Room, standings: &Standings) -> Event {
        self.turn_phase(room, standings);
        if self.random.once_in(10) {
            if let Some(job) = standings.one(&mut self.random, Standing::Outside) {
                return Event::Arrive { job };
            }
        }
        match standings.one(&mut self.random, Standing::Inside) {
            Some(job) => self.event_inside(room, standings, job),
            None => self.event_while_empty(room, standings),
        }
    }

    fn turn_phase(&mut self, room: &Room, standings: &Standings) {
        let nobody_comes =
            standings.count(Standing::Called) == 0 && standings.count(Standing::Inside) == 0;
        self.phase = match self.phase {
            Phase::Gathers if standings.crowd() < self.crowd => return,
            Phase::Gathers | Phase::Lives(0) if self.random.once_in(2) => self.drain(),
            Phase::Gathers => Phase::Lives(20 + self.random.below(100)),
            Phase::Lives(0) | Phase::Drains(0) => self.gather(),
            Phase::Drains(_) if nobody_comes && room.values == self.goal => {
                match self.random.below(4) {
                    0 => self.gather(),
                    _ => self.drain(),
                }
            }
            Phase::Lives(left) => Phase::Lives(left - 1),
            Phase::Drains(left) => Phase::Drains(left - 1),
        };
    }

    fn drain(&mut self) -> Phase {
        self.goal = self.random.pick(&self.stock.scenes);
        Phase::Drains(4 * JOBS)
    }

    fn gather(&mut self) -> Phase {
        self.crowd = crowd(&mut self.random);
        Phase::Gathers
    }

    fn event_inside(&mut self, room: &Room, standings: &Standings, job: usize) -> Event {
        let may_wait = standings.crowd() < CROWD_MOST;
        let open = self.stock.guarded && room.values[GUARD] != 0;
        match (self.phase, self.random.below(8)) {
            (Phase::Gathers, 0..=6) if open => set_to(job, GUARD, 0),
            (Phase::Gathers, 0..=6) if may_wait => self.wait(room, job),
            (Phase::Lives(_), 0..=3) => self.set(room, job),
            (Phase::Lives(_), 4..=5) if may_wait => self.wait(room, job),
            (Phase::Drains(_), 0..=6) if room.values != self.goal => self.set(room, job),
            (Phase::Drains(_), 0) if may_wait => self.wait(room, job),
            _ => Event::Leave { job },
        }
    }

    /// A job at the door often goes before a called one, and may then make its condition false.
    fn event_while_empty(&mut self, room: &Room, standings: &Standings) -> Event {
        let random = &mut self.random;
        let called_first = match self.phase {
            Phase::Gathers => random.once_in(6),
            Phase::Lives(_) => random.once_in(2),
            Phase::Drains(_) => !random.once_in(8),
        };
        let order = match called_first {
            true => [Standing::Called, Standing::Door],
            false => [Standing::Door, Standing::Called],
        };
        for standing in order {
            if let Some(job) = standings.one(random, standing) {
                return Event::Admit { job };
            }
        }
        match standings.one(random, Standing::Outside) {
            Some(job) => Event::Arrive { job },
            None => self.any_event(room),
        }
    }

    /// A step towards the goal; at the goal, to anything, and there is another goal.
    fn set(&mut self, room: &Room, job: usize) -> Event {
        let random = &mut self.random;
        let start = random.below(VARIABLES);
        let differs = |variable: &usize| room.values[*variable] != self.goal[*variable];
        let mut variables = (start..VARIABLES).chain(0..start);
        if let Some(variable) = variables.find(differs) {
            return set_to(job, variable, self.goal[variable]);
        }
        self.goal = random.pick(&self.stock.scenes);
        let any = random.between(-3, 3);
        let value = random.pick(&[0, 0, 1, -1, any]);
        set_to(job, random.pick(&[start, GUARD]), value)
    }

    /// Mostly for a condition that is false at present; if none is to be had, values must change.
    fn wait(&mut self, room: &Room, job: usize) -> Event {
        let measures = room.measure_values();
        for _ in 0..4 {
            let condition = self.stock.condition(&mut self.random);
            if self.random.once_in(12) || !condition.is_true(&measures) {
                let condition = written(&mut self.random, &condition);
                return Event::Wait { job, condition };
            }
        }
        self.set(room, job)
    }

    /// A sound record that the room may refuse, a broken one, or none.
    fn stray(&mut self, room: &Room, standings: &Standings) -> Vec<u8> {
        let measures = room.measures.len();
        match self.random.below(8) {
            0 => Vec::new(),
            1..=4 => {
                let fields = write::event_fields(&self.any_event(room), measures);
                broken(&mut self.random, &fields)
            }
            5..=6 => {
                let at_door = standings.one(&mut self.random, Standing::Door);
                let called = standings.one(&mut self.random, Standing::Called);
                let job = called.or(at_door).unwrap_or(0);
                write::event(&Event::Admit { job }, measures)
            }
            _ => write::event(&self.any_event(room), measures),
        }
    }

    /// Of any job, wherever it stands; but the last one without a condition does not wait.
    fn any_event(&mut self, room: &Room) -> Event {
        let job = self.random.below(JOBS);
        match self.random.below(5) {
            0 => Event::Arrive { job },
            1 => Event::Admit { job },
            2 => self.set(room, job),
            3 if Standings::of(room).crowd() < CROWD_MOST => self.wait(room, job),
            _ => Event::Leave { job },
        }
    }
}

fn set_to(job: usize, variable: usize, value: i64) -> Event {
    Event::Set {
        job,
        variable,
        value,
    }
}

/// How many are to gather: in most rooms 20 to 31.
fn crowd(random: &mut Random) -> usize {
    match random.below(4) {
        0 => 1 + random.below(20),
        1 => CROWD_MOST,
        _ => 20 + random.below(12),
    }
}

//! A monitor for real threads over a room.
//!
//! The room is a step machine: it says who may come in, who waits, and who is called, and it never
//! sleeps. This monitor makes threads sleep and wakes them. A thread is a job of the room.
//!
//! One lock guards the room, its tally and two lines of jobs. It is held for one event at a time and
//! not while a thread is inside: that somebody is inside is the room's knowledge, not the lock's.
//!
//! A thread that wants in stands in one of the lines: at the door, since it arrived, or called,
//! since the room called it. It asks the room to admit it. The answer is one of these:
//!
//! - `in`: it leaves its line and goes on.
//! - refusal 6, another is inside: it sleeps, each job on a condition variable of its own. The
//!   refused event changed nothing, so to ask was free.
//! - `back`: it was called, but another came in before it and made its condition false again. The
//!   room has it waiting once more, and perhaps has called somebody else. It leaves its line and
//!   sleeps until it is called again.
//!
//! The room is empty after a Leave, after a Wait that was false, and after `back`. Whoever gave that
//! event wakes exactly one thread: the one called first, else the one first at the door. No thread
//! is woken to find out whether its condition is true; the room knows that, and names the job.
//!
//! A thread that arrives while the room is empty is admitted at once, even if another was just woken
//! and has not asked yet. That one then asks, is refused with 6 or sent back, and sleeps again. The
//! paper allows this: "the signaled thread is not guaranteed to get the lock".
//!
//! No wakeup is lost. Whenever the lock is free, nobody is inside and somebody stands in a line, one
//! of those has been woken and has not asked since. For a line becomes longer by an Arrive, whose
//! thread asks at once, or by a call, which only those three events make; each of them is followed by
//! waking one; and a thread that was woken either goes inside, or finds another there who will make
//! the room empty later, or is sent back and wakes the next. And a search calls somebody whenever a
//! waiting job's condition is true: that is the room's promise. It is not fair, though: while others
//! keep coming in between, a thread may be passed over again and again.

use std::collections::VecDeque;
use std::sync::{Condvar, Mutex, MutexGuard};

use harbour::{Outcome, Refusal, Report, Room, Tally, JOBS};

use crate::records;

pub struct Monitor {
    shared: Mutex<Shared>,
    /// Where the thread of each job sleeps.
    beds: Vec<Condvar>,
}

struct Shared {
    room: Room,
    tally: Tally,
    /// Jobs at the door and called jobs, the first first.
    door: VecDeque<u8>,
    called: VecDeque<u8>,
    figures: Figures,
}

/// What the monitor did.
#[derive(Clone, Copy, Debug, Default, PartialEq, Eq)]
pub struct Figures {
    /// Waits that were false, so that a thread slept.
    pub waits: u64,
    /// Threads woken.
    pub woken: u64,
    /// Times that a thread asked and another was inside.
    pub refused: u64,
}

impl Monitor {
    pub fn open(opening: &[u8]) -> Result<Monitor, Refusal> {
        let (room, _) = Room::open(opening)?;
        let shared = Shared {
            room,
            tally: Tally::default(),
            door: VecDeque::new(),
            called: VecDeque::new(),
            figures: Figures::default(),
        };
        Ok(Monitor {
            shared: Mutex::new(shared),
            beds: (0..JOBS).map(|_| Condvar::new()).collect(),
        })
    }

    /// Comes in, as soon as nobody is inside and it is the job's turn.
    pub fn enter(&self, job: u8) {
        let mut shared = self.lock();
        shared.accepted(&records::arrive(job));
        shared.door.push_back(job);
        while !self.is_admitted(&mut shared, job) {
            shared = self.sleep(shared, job);
        }
    }

    /// Returns with the condition true and the job inside. Others may have been inside meanwhile.
    pub fn wait_until(&self, job: u8, condition: &[u8]) {
        let mut shared = self.lock();
        let report = shared.accepted(&records::wait(job, condition));
        if report.outcome == Outcome::On {
            return;
        }
        shared.figures.waits += 1;
        self.wake_one(&mut shared);
        loop {
            shared = self.sleep(shared, job);
            if self.is_admitted(&mut shared, job) {
                return;
            }
        }
    }

    /// Only for the job inside, as is `set`: others' values may change at any time.
    pub fn value(&self, variable: u8) -> i64 {
        self.lock().room.value(variable)
    }

    pub fn set(&self, job: u8, variable: u8, value: i64) {
        self.lock().accepted(&records::set(job, variable, value));
    }

    pub fn leave(&self, job: u8) {
        let mut shared = self.lock();
        shared.accepted(&records::leave(job));
        self.wake_one(&mut shared);
    }

    /// Counts so far.
    pub fn counts(&self) -> (Tally, Figures) {
        let shared = self.lock();
        (shared.tally, shared.figures)
    }

    fn lock(&self) -> MutexGuard<'_, Shared> {
        self.shared.lock().expect("no thread broke the protocol")
    }

    fn sleep<'a>(&'a self, shared: MutexGuard<'a, Shared>, job: u8) -> MutexGuard<'a, Shared> {
        let bed = &self.beds[usize::from(job)];
        bed.wait(shared).expect("no thread broke the protocol")
    }

    /// Asks the room.
    fn is_admitted(&self, shared: &mut Shared, job: u8) -> bool {
        let report = shared.event(&records::admit(job));
        match report.outcome {
            Outcome::In => shared.strike_off(job),
            Outcome::Back => {
                shared.strike_off(job);
                self.wake_one(shared);
            }
            Outcome::Refused(Refusal::AnotherInside) => shared.figures.refused += 1,
            // It waits still: a condition variable may wake a thread for no reason.
            Outcome::Refused(Refusal::WrongStanding) => {}
            outcome => unreachable!("an Admit is not answered {:?}", outcome),
        }
        report.outcome == Outcome::In
    }

    /// For whoever made the room empty.
    fn wake_one(&self, shared: &mut Shared) {
        let next = shared.called.front().or_else(|| shared.door.front());
        if let Some(job) = next {
            self.beds[usize::from(*job)].notify_one();
            shared.figures.woken += 1;
        }
    }
}

impl Shared {
    /// Whom the event calls stands in the line of those called.
    fn event(&mut self, bytes: &[u8]) -> Report {
        let report = self.room.event(&mut self.tally, bytes);
        self.called.extend(report.called);
        report
    }

    /// For events that the monitor's protocol leaves no reason to refuse, unless a caller breaks it
    /// or the room's tickets are all given.
    fn accepted(&mut self, bytes: &[u8]) -> Report {
        let report = self.event(bytes);
        if let Some(refusal) = report.refusal() {
            panic!("{:?}: {}", bytes, refusal);
        }
        report
    }

    fn strike_off(&mut self, job: u8) {
        self.door.retain(|other| *other != job);
        self.called.retain(|other| *other != job);
    }
}

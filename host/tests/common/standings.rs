//! The jobs of a room by where they stand.

use second::limits::JOBS;
use second::random::Random;
use second::room::{Room, Standing};

use super::compare::standing_number;

pub struct Standings {
    jobs: [[usize; JOBS]; 5],
    counts: [usize; 5],
}

impl Standings {
    pub fn of(room: &Room) -> Standings {
        let mut standings = Standings {
            jobs: [[0; JOBS]; 5],
            counts: [0; 5],
        };
        for (number, job) in room.jobs.iter().enumerate() {
            let standing = usize::from(standing_number(job.standing));
            standings.jobs[standing][standings.counts[standing]] = number;
            standings.counts[standing] += 1;
        }
        standings
    }

    pub fn count(&self, standing: Standing) -> usize {
        self.counts[usize::from(standing_number(standing))]
    }

    /// One of those that stand so.
    pub fn one(&self, random: &mut Random, standing: Standing) -> Option<usize> {
        let count = self.count(standing);
        let jobs = &self.jobs[usize::from(standing_number(standing))][..count];
        (count > 0).then(|| random.pick(jobs))
    }

    /// Jobs with a condition: those waiting and those called.
    pub fn crowd(&self) -> usize {
        self.count(Standing::Waiting) + self.count(Standing::Called)
    }
}

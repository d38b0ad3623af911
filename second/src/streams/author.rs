//! Writes a stream event by event and follows the room it makes.

use crate::random::Random;
use crate::record::{Event, Opening};
use crate::report::Report;
use crate::room::{Room, Standing};
use crate::tally::Tally;
use crate::write;

pub struct Author {
    pub random: Random,
    pub bytes: Vec<u8>,
    pub room: Room,
    pub size: usize,
}

impl Author {
    pub fn open(random: Random, opening: &Opening, size: usize) -> Author {
        Author {
            random,
            bytes: write::opening(opening),
            room: Room::new(opening),
            size,
        }
    }

    pub fn bytes_left(&self) -> usize {
        self.size.saturating_sub(self.bytes.len())
    }

    pub fn length_of(&self, event: &Event) -> usize {
        write::event(event, self.room.measures.len()).len()
    }

    /// Adds the event, unless it would pass the size.
    pub fn add(&mut self, event: &Event) -> Option<Report> {
        let bytes = write::event(event, self.room.measures.len());
        if bytes.len() > self.bytes_left() {
            return None;
        }
        self.bytes.extend_from_slice(&bytes);
        Some(self.room.event(&mut Tally::default(), &bytes))
    }

    pub fn pick_standing(&mut self, standing: Standing) -> Option<usize> {
        let jobs = self.room.standing(standing);
        if jobs.is_empty() {
            None
        } else {
            Some(self.random.pick(&jobs))
        }
    }

    /// An event while nobody is inside. A job at the door often goes before a called one, and
    /// may then make its condition false again.
    pub fn admit_or_arrive(&mut self) -> Option<Event> {
        let order = if self.random.once_in(2) {
            [Standing::Called, Standing::Door]
        } else {
            [Standing::Door, Standing::Called]
        };
        for standing in order {
            if let Some(job) = self.pick_standing(standing) {
                return Some(Event::Admit { job });
            }
        }
        let job = self.pick_standing(Standing::Outside)?;
        Some(Event::Arrive { job })
    }

    /// Waiting and called jobs together.
    pub fn jobs_with_condition(&self) -> usize {
        let jobs = self.room.jobs.iter();
        jobs.filter(|job| job.condition.is_some()).count()
    }
}

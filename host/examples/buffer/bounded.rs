//! The bounded buffer of the paper's figure 1: a producer puts several items at once and waits while
//! they do not fit, a consumer takes as many as it asks for and waits while there are fewer.

use std::collections::VecDeque;
use std::sync::Mutex;

use crate::monitor::{Figures, Monitor};
use crate::records::{at_least, opening};
use harbour::{Refusal, Tally};

/// The shared variables: how many items are in the buffer, and how many it holds at most.
const COUNT: u8 = 0;
const CAPACITY: usize = 1;

/// The measures: the count, and capacity − count.
const ITEMS: u8 = 0;
const SPACE: u8 = 1;

pub struct Buffer {
    monitor: Monitor,
    /// Touched by the job inside alone, so that its lock is always free.
    items: Mutex<VecDeque<u64>>,
}

impl Buffer {
    pub fn new(capacity: i64) -> Result<Buffer, Refusal> {
        let mut values = [0; 8];
        values[CAPACITY] = capacity;
        let measures = [[1, 0, 0, 0, 0, 0, 0, 0], [-1, 1, 0, 0, 0, 0, 0, 0]];
        Ok(Buffer {
            monitor: Monitor::open(&opening(&measures, &values))?,
            items: Mutex::new(VecDeque::new()),
        })
    }

    pub fn put(&self, job: u8, items: &[u64]) {
        let number = items.len() as i64;
        self.monitor.enter(job);
        self.monitor.wait_until(job, &at_least(SPACE, number));
        self.with_items(|inside| inside.extend(items));
        let count = self.monitor.value(COUNT);
        self.monitor.set(job, COUNT, count + number);
        self.monitor.leave(job);
    }

    pub fn take(&self, job: u8, number: usize) -> Vec<u64> {
        self.monitor.enter(job);
        self.monitor
            .wait_until(job, &at_least(ITEMS, number as i64));
        let taken = self.with_items(|inside| inside.drain(..number).collect());
        let count = self.monitor.value(COUNT);
        self.monitor.set(job, COUNT, count - number as i64);
        self.monitor.leave(job);
        taken
    }

    pub fn counts(&self) -> (Tally, Figures) {
        self.monitor.counts()
    }

    fn with_items<T>(&self, change: impl FnOnce(&mut VecDeque<u64>) -> T) -> T {
        let mut items = self.items.try_lock().expect("nobody else is inside");
        change(&mut items)
    }
}

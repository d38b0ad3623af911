//! A small host: threads that put items into a bounded buffer and take them out, and a room that
//! says who sleeps and who is woken.
//!
//! `monitor` is the protocol between threads and room, `bounded` the buffer, `records` the bytes.

mod bounded;
mod monitor;
mod records;

use std::sync::Arc;
use std::thread;

use bounded::Buffer;

/// The largest put and the largest take together are one more than this at most. Were they more, a
/// put and a take could both be too large for one and the same count, and wait for each other.
const CAPACITY: i64 = 10;

/// Each of three producers puts one item, then two, and so on to five: 45 items.
const PRODUCERS: u8 = 3;
const PUT_MOST: usize = 5;

/// One consumer takes three items at a time, five times; the other five, six times. 45 items.
const TAKES: [(usize, usize); 2] = [(3, 5), (5, 6)];

fn main() {
    let buffer = Arc::new(Buffer::new(CAPACITY).expect("a sound opening"));
    let mut threads = Vec::new();
    for job in 0..PRODUCERS {
        let buffer = Arc::clone(&buffer);
        threads.push(thread::spawn(move || {
            for number in 1..=PUT_MOST {
                buffer.put(job, &vec![u64::from(job); number]);
            }
        }));
    }
    for (job, (number, times)) in (PRODUCERS..).zip(TAKES) {
        let buffer = Arc::clone(&buffer);
        threads.push(thread::spawn(move || {
            for _ in 0..times {
                let taken = buffer.take(job, number);
                println!("job {job} took the items of {taken:?}");
            }
        }));
    }
    for thread in threads {
        thread.join().expect("it ends");
    }
    let (tally, figures) = buffer.counts();
    println!("{tally:?}");
    println!("{figures:?}");
}

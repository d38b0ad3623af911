//! The example's monitor with real threads: everything put is taken once, nobody sleeps for ever,
//! and the counts fit together.

#[path = "../examples/buffer/bounded.rs"]
mod bounded;
#[path = "../examples/buffer/monitor.rs"]
mod monitor;
#[path = "../examples/buffer/records.rs"]
mod records;

use std::sync::mpsc::{channel, Sender};
use std::sync::Arc;
use std::thread;
use std::time::Duration;

use bounded::Buffer;
use second::random::Random;

const PRODUCERS: u8 = 4;
const CONSUMERS: u8 = 6;

/// The largest put and the largest take are together one more than the capacity, so that they never
/// wait for each other.
const CAPACITY: i64 = 12;
const PUT_MOST: usize = 6;
const TAKE_MOST: usize = 7;

const ITEMS_OF_EACH_PRODUCER: usize = 6_000;

/// Longer than any machine needs, and shorter than for ever.
const PATIENCE: Duration = Duration::from_secs(240);

/// Parts of 1 to `most` that come to `whole`.
fn parts(random: &mut Random, whole: usize, most: usize) -> Vec<usize> {
    let mut parts = Vec::new();
    let mut left = whole;
    while left > 0 {
        let part = left.min(1 + random.below(most));
        parts.push(part);
        left -= part;
    }
    parts
}

fn produce(buffer: &Buffer, job: u8, puts: &[usize]) {
    let mut next = u64::from(job) * 1_000_000;
    for number in puts {
        let items: Vec<u64> = (next..next + *number as u64).collect();
        buffer.put(job, &items);
        next += *number as u64;
    }
}

fn consume(buffer: &Buffer, job: u8, takes: &[usize]) -> Vec<u64> {
    let taken = takes.iter().map(|number| buffer.take(job, *number));
    taken.flatten().collect()
}

/// A thread that tells what it took once it is done.
fn start(done: &Sender<Vec<u64>>, work: impl FnOnce() -> Vec<u64> + Send + 'static) {
    let done = done.clone();
    thread::spawn(move || done.send(work()).expect("the test listens"));
}

fn run(seed: u64) {
    let mut random = Random::new(seed);
    let buffer = Arc::new(Buffer::new(CAPACITY).expect("a sound opening"));
    let (done, finished) = channel();
    let mut operations = 0;
    for job in 0..PRODUCERS {
        let puts = parts(&mut random, ITEMS_OF_EACH_PRODUCER, PUT_MOST);
        operations += puts.len() as u64;
        let buffer = Arc::clone(&buffer);
        start(&done, move || {
            produce(&buffer, job, &puts);
            Vec::new()
        });
    }
    let items = ITEMS_OF_EACH_PRODUCER * usize::from(PRODUCERS);
    for job in PRODUCERS..PRODUCERS + CONSUMERS {
        let takes = parts(&mut random, items / usize::from(CONSUMERS), TAKE_MOST);
        operations += takes.len() as u64;
        let buffer = Arc::clone(&buffer);
        start(&done, move || consume(&buffer, job, &takes));
    }
    let mut taken = Vec::new();
    for _ in 0..PRODUCERS + CONSUMERS {
        match finished.recv_timeout(PATIENCE) {
            Ok(items) => taken.extend(items),
            Err(_) => panic!(
                "seed {seed}: somebody sleeps for ever, {:?}",
                buffer.counts()
            ),
        }
    }
    let (tally, figures) = buffer.counts();
    println!("{operations} operations, {tally:?}, {figures:?}");
    taken.sort_unstable();
    let put = (0..u64::from(PRODUCERS)).flat_map(|job| {
        let first = job * 1_000_000;
        first..first + ITEMS_OF_EACH_PRODUCER as u64
    });
    assert!(taken.into_iter().eq(put), "seed {seed}: not what was put");
    // Each operation is an Arrive, an Admit, a Wait, a Set and a Leave; each Wait that was false
    // takes another Admit, and so does each time that the job was sent back.
    assert_eq!(
        tally.events,
        5 * operations + figures.waits + tally.sent_back
    );
    // Who waits is called once, and once more for each time it is sent back.
    assert_eq!(tally.calls, figures.waits + tally.sent_back);
    assert!(figures.waits > 0);
    // One thread at most each time that the room becomes empty.
    assert!(figures.woken <= operations + figures.waits + tally.sent_back);
}

#[test]
fn producers_and_consumers() {
    run(90_000_000);
}

#[test]
fn producers_and_consumers_again() {
    run(90_000_001);
}

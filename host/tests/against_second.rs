//! A million events given to the library and to the second implementation. After each the reports,
//! the tallies and all that can be seen of the rooms must be the same.
//!
//! A failure tells its seed, and a short list of events that fails as well.

mod common;

use common::author::Author;
use common::run::{Run, Start};
use common::seen::Seen;
use common::stock::{Keys, Stock};
use harbour::{Tally, TALLY_MOST, TICKETS};
use second::random::Random;
use second::write;

const FIRST_SEED: u64 = 50_000_000;

/// Five tests of so many runs of so many events: a million.
const RUNS: u64 = 100;
const EVENTS: u64 = 2_000;

fn start(random: &mut Random, stock: &Stock) -> Start {
    let mut count = || {
        let any = random.bits();
        random.pick(&[0, 0, TALLY_MOST - 900, TALLY_MOST, TALLY_MOST + 1, any])
    };
    let tally = Tally {
        events: count(),
        calls: count(),
        evaluated: count(),
        sent_back: count(),
    };
    Start {
        opening: write::opening(&stock.opening),
        tickets: random.pick(&[0, 0, 0, 255, 65_530, TICKETS - 1_000, TICKETS - 200]),
        tally,
    }
}

/// Runs with events of which one in `strays` is one that the room may refuse.
fn runs(name: &str, first: u64, strays: usize, stock: impl Fn(&mut Random) -> Stock) -> Seen {
    let mut seen = Seen::default();
    for seed in FIRST_SEED + first..FIRST_SEED + first + RUNS {
        let mut random = Random::new(seed);
        let stock = stock(&mut random);
        let start = start(&mut random, &stock);
        let mut run = Run::new(format!("{name}, seed {seed}"), start);
        let mut author = Author::new(random, stock, strays);
        for _ in 0..EVENTS {
            let bytes = author.next(run.room());
            let report = run.event(bytes);
            seen.add(run.room(), &report);
        }
    }
    println!("{name}: {seen:?}");
    assert_eq!(seen.events, RUNS * EVENTS);
    assert!(seen.every_kind_more_often_than(RUNS), "{seen:?}");
    assert!(seen.waiting[3] > seen.events / 8, "{seen:?}");
    seen
}

#[test]
fn few_conditions_shared_by_many() {
    let stock = |random: &mut Random| Stock::new(random, Keys::Near, false, true);
    runs("few conditions shared by many", 0, 12, stock);
}

#[test]
fn few_conditions_behind_a_guard() {
    let stock = |random: &mut Random| Stock::new(random, Keys::Near, true, true);
    let seen = runs("few conditions behind a guard", 1_000, 12, stock);
    assert!(seen.most_evaluated > 16, "{seen:?}");
}

#[test]
fn any_conditions() {
    let stock = |random: &mut Random| Stock::new(random, Keys::Near, false, false);
    runs("any conditions", 2_000, 6, stock);
}

#[test]
fn any_conditions_behind_a_guard() {
    let stock = |random: &mut Random| Stock::new(random, Keys::Near, true, false);
    let seen = runs("any conditions behind a guard", 3_000, 12, stock);
    assert!(seen.most_evaluated > 40, "{seen:?}");
}

#[test]
fn numbers_at_the_ends_of_their_ranges() {
    let stock = |random: &mut Random| {
        let guarded = random.once_in(2);
        Stock::new(random, Keys::Far, guarded, false)
    };
    runs("numbers at the ends", 4_000, 12, stock);
}

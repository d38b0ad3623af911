//! Events that were written, whole, cut and spoiled.

use probes::events::{wait, WaitSlots};
use probes::expected::events::{self, none_left, refused_head, refused_numbers, Numbers};
use probes::expected::got;
use probes::extremes;
use probes::strings::{eventful, short};
use probes::trial::Trial;
use second::limits::MEASURES_MOST;
use second::record::Event;
use second::spoil::every_spoiling;
use second::write;

const FIRST_SEED: u64 = 4_000_000;
/// Events of each kind for each measure count.
const EVENTS: usize = 24;

/// Calls `try_one` with events of every kind for every measure count.
fn for_events(trial: &mut Trial, mut try_one: impl FnMut(&mut Trial, &Event, usize)) {
    for measure_count in 1..=MEASURES_MOST {
        for kind in 1..=5 {
            for _ in 0..EVENTS {
                let event = extremes::event(&mut trial.random, kind, measure_count);
                try_one(trial, &event, measure_count);
            }
        }
    }
}

#[test]
fn events_of_the_whole_run() {
    let mut trial = Trial::new(FIRST_SEED);
    for (bytes, kind, job) in [
        ([1, 0], 1, 0),
        ([2, 0], 2, 0),
        ([1, 1], 1, 1),
        ([2, 1], 2, 1),
        ([5, 1], 5, 1),
        ([5, 0], 5, 0),
    ] {
        let right = events::job_alone(kind, job, 2);
        assert_eq!(trial.event(&bytes, 0, 1), right);
    }

    let mut set = events::job_alone(3, 1, 4);
    set.head.value = 50;
    assert_eq!(trial.event(&[3, 1, 0, 100], 0, 1), set);

    let mut slots = WaitSlots::CLEAR;
    slots.locals[0] = 48;
    slots.counts[0] = 1;
    slots.operator[0] = 6;
    slots.coefficients[0] = 1;
    let answer = got(1, 15);
    let bytes = [4, 0, 96, 0, 0, 0, 1, 1, 0, 6, 2, 0, 0, 0, 0];
    let right = events::wait(0, 0, Numbers { answer, slots });
    assert_eq!(trial.event(&bytes, 0, 1), right);
}

#[test]
fn no_bytes_are_none_left_and_no_refusal() {
    let mut trial = Trial::new(FIRST_SEED + 1);
    assert_eq!(trial.event(&[], 0, 1), none_left());
    for at in [3, 4, 1000, usize::MAX / 2, usize::MAX] {
        assert_eq!(trial.event(&[4, 0, 0], at, 1), none_left());
    }
}

#[test]
fn no_bytes_for_the_numbers_of_a_wait_are_refusal_1() {
    let mut trial = Trial::new(FIRST_SEED + 2);
    for at in [3, 4, 1000, usize::MAX / 2, usize::MAX] {
        let mut slots = trial.slots_with_anything();
        let answer = wait(&mut slots, &[4, 0, 0], at, 16);
        assert_eq!(Numbers { answer, slots }, refused_numbers(1));
    }
}

#[test]
fn kinds_other_than_1_to_5_are_refusal_3_whatever_follows() {
    let mut trial = Trial::new(FIRST_SEED + 3);
    for kind in 0..128 {
        let known = (1..=5).contains(&kind);
        let right = refused_head(if known { 1 } else { 3 });
        assert_eq!(trial.event(&[kind], 0, 1), right);
        for _ in 0..100 {
            let bytes = [&[kind], short(&mut trial.random).as_slice()].concat();
            let answer = trial.event(&bytes, 0, 16);
            assert_eq!(answer == refused_head(3), !known, "{bytes:?}");
        }
    }
}

#[test]
fn what_was_written_is_read() {
    let mut trial = Trial::new(FIRST_SEED + 4);
    let mut alternative_counts = [0; 5];
    let mut atom_counts = [0; 5];
    let mut operators = [0; 7];
    for_events(&mut trial, |trial, event, measure_count| {
        let bytes = write::event(event, measure_count);
        let answer = trial.event(&bytes, 0, measure_count);
        let right = events::whole(event, 0, bytes.len());
        assert_eq!(answer, right, "{measure_count} measures");
        if let Event::Wait { condition, .. } = event {
            alternative_counts[condition.alternatives.len()] += 1;
            for atoms in &condition.alternatives {
                atom_counts[atoms.len()] += 1;
                for atom in atoms {
                    operators[atom.operator.number() as usize] += 1;
                }
            }
        }
    });
    assert_eq!(trial.seen.refused(), 0);
    let counts = alternative_counts[1..].iter().chain(&atom_counts[1..]);
    let mut met = counts.chain(&operators[1..]);
    assert!(
        met.all(|times| *times > EVENTS),
        "{alternative_counts:?}, {atom_counts:?}, {operators:?}"
    );
}

#[test]
fn bytes_before_and_after_are_not_looked_at() {
    let mut trial = Trial::new(FIRST_SEED + 5);
    for_events(&mut trial, |trial, event, measure_count| {
        let record = write::event(event, measure_count);
        for _ in 0..4 {
            let (before, after) = (eventful(&mut trial.random), eventful(&mut trial.random));
            let bytes = [before.as_slice(), &record, &after].concat();
            let next = before.len() + record.len();
            for at in 0..=bytes.len() {
                let answer = trial.event(&bytes, at, measure_count);
                if at == before.len() {
                    assert_eq!(answer, events::whole(event, at, next));
                }
            }
        }
    });
    let seen = &trial.seen;
    assert!(seen.every_kind_more_often_than(1_000), "{seen:?}");
    assert!(seen.every_refusal_more_often_than(1_000), "{seen:?}");
}

#[test]
fn cut_anywhere_is_refusal_1() {
    let mut trial = Trial::new(FIRST_SEED + 6);
    for_events(&mut trial, |trial, event, measure_count| {
        let bytes = write::event(event, measure_count);
        for length in 1..bytes.len() {
            let answer = trial.event(&bytes[..length], 0, measure_count);
            assert_eq!(answer.refusal(), 1, "{length} bytes of {bytes:?}");
        }
    });
    let seen = &trial.seen;
    assert!(seen.refused_heads[1] > 1_000, "{seen:?}");
    assert!(seen.refused_numbers[1] > 10_000, "{seen:?}");
}

#[test]
fn every_spoiling_of_every_field() {
    let mut trial = Trial::new(FIRST_SEED + 7);
    for_events(&mut trial, |trial, event, measure_count| {
        for spoiled in every_spoiling(&write::event_fields(event, measure_count)) {
            let refusal = spoiled.refusal.number();
            let answer = trial.event(&spoiled.bytes, 0, measure_count);
            assert_eq!(answer.refusal(), refusal, "{spoiled:?}");
            let (before, after) = (short(&mut trial.random), short(&mut trial.random));
            let bytes = [before.as_slice(), &spoiled.bytes, &after].concat();
            trial.event(&bytes, before.len(), measure_count);
        }
    });
    let seen = &trial.seen;
    assert!(seen.every_refusal_more_often_than(1_000), "{seen:?}");
}

#[test]
fn a_measure_that_the_room_lacks_is_refusal_4() {
    let mut trial = Trial::new(FIRST_SEED + 8);
    for_events(&mut trial, |trial, event, measure_count| {
        let (job, condition) = match event {
            Event::Wait { job, condition } => (*job, condition),
            _ => return,
        };
        for alternative in 0..condition.alternatives.len() {
            for atom in 0..condition.alternatives[alternative].len() {
                let mut condition = condition.clone();
                condition.alternatives[alternative][atom].measure = measure_count;
                let event = Event::Wait { job, condition };
                let bytes = write::event(&event, measure_count);
                let answer = trial.event(&bytes, 0, measure_count);
                assert_eq!(answer, events::wait(job, 0, refused_numbers(4)));
                if measure_count < MEASURES_MOST {
                    let answer = trial.event(&bytes, 0, measure_count + 1);
                    assert_eq!(answer, events::whole(&event, 0, bytes.len()));
                }
            }
        }
    });
    assert!(trial.seen.refused_numbers[4] > 1_000, "{:?}", trial.seen);
}

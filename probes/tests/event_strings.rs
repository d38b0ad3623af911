//! Events in strings of any bytes, and one after the other in streams.

use probes::expected::events::{none_left, EventAnswer};
use probes::strings::{eventful, places};
use probes::trial::Trial;
use second::limits::MEASURES_MOST;
use second::record::read_opening;
use second::streams::{stream, Kind};

const STRINGS: u64 = 400_000;
const FIRST_SEED: u64 = 5_000_000;
/// Streams of each kind.
const STREAMS: u64 = 1_000;
const STREAM_SIZE: usize = 600;

#[test]
fn random_strings_from_every_place() {
    let mut trial = Trial::new(FIRST_SEED);
    for _ in 0..STRINGS {
        let bytes = eventful(&mut trial.random);
        let measure_count = 1 + trial.random.below(MEASURES_MOST);
        for at in places(&bytes) {
            trial.event(&bytes, at, measure_count);
        }
    }
    let seen = &trial.seen;
    assert!(seen.every_kind_more_often_than(STRINGS / 100), "{seen:?}");
    assert!(
        seen.every_refusal_more_often_than(STRINGS / 100),
        "{seen:?}"
    );
}

/// Streams of these kinds are whole events to the last byte.
fn is_whole(kind: Kind) -> bool {
    use Kind::{Drain, Extreme, Lively, Long};
    matches!(kind, Lively | Extreme | Drain | Long)
}

/// Reads a stream event by event. The last answer, and the place that it is of; nothing if the
/// opening is refused.
fn read_to_the_end(trial: &mut Trial, bytes: &[u8]) -> Option<(EventAnswer, usize)> {
    let (opening, mut at) = read_opening(bytes).ok()?;
    loop {
        let answer = trial.event(bytes, at, opening.measures.len());
        if answer.head.kind == 0 || answer.refusal() != 0 {
            return Some((answer, at));
        }
        at = answer.next();
    }
}

#[test]
fn streams_event_by_event() {
    let mut trial = Trial::new(FIRST_SEED + 1);
    for kind in Kind::ALL {
        let streams = if kind == Kind::Long { 10 } else { STREAMS };
        for seed in 0..streams {
            let bytes = stream(kind, seed, STREAM_SIZE);
            let end = read_to_the_end(&mut trial, &bytes);
            if is_whole(kind) {
                let right = Some((none_left(), bytes.len()));
                assert_eq!(end, right, "{}, seed {seed}", kind.name());
            }
        }
    }
    let seen = &trial.seen;
    assert!(seen.every_kind_more_often_than(STREAMS), "{seen:?}");
    assert!(seen.every_refusal_more_often_than(STREAMS / 20), "{seen:?}");
}

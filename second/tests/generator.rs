//! What the streams of the generator reach.

use second::figures::Figures;
use second::limits::TICKETS;
use second::listing::listing;
use second::random::Random;
use second::room::Room;
use second::streams::{filled, mixed, stream, Kind};

fn streams_of(kind: Kind, count: u64, size: usize) -> Vec<Vec<u8>> {
    (0..count).map(|seed| stream(kind, seed, size)).collect()
}

fn figures_of(kind: Kind, count: u64, size: usize) -> Figures {
    Figures::of(&streams_of(kind, count, size))
}

#[test]
fn a_seed_always_gives_the_same_stream() {
    for kind in Kind::ALL {
        assert_eq!(stream(kind, 77, 500), stream(kind, 77, 500));
        assert_eq!(Kind::named(kind.name()), Some(kind));
    }
    assert_eq!(mixed(77, 500), mixed(77, 500));
    assert_eq!(Kind::named("mixed"), None);
}

#[test]
fn figures_count_the_lines_of_the_listing() {
    for kind in Kind::ALL {
        for seed in 0..5 {
            let stream = stream(kind, seed, 500);
            let mut figures = Figures::default();
            figures.add_stream(&stream);
            let text = listing(&stream);
            assert_eq!(figures.lines, text.lines().count());
            assert_eq!(figures.backs, text.matches(" back ").count());
        }
    }
}

#[test]
fn seeds_give_different_streams() {
    for kind in &Kind::ALL[..6] {
        let mut streams = streams_of(*kind, 100, 500);
        streams.sort();
        streams.dedup();
        assert!(streams.len() > 90, "{}", kind.name());
    }
}

#[test]
fn no_stream_passes_its_size() {
    for kind in &Kind::ALL[..6] {
        for size in [0, 1, 16, 17, 18, 30, 60, 100, 300, 1_000] {
            for stream in streams_of(*kind, 20, size) {
                assert!(stream.len() <= size, "{} {}", kind.name(), size);
            }
        }
    }
}

#[test]
fn lively_streams_are_accepted_throughout_and_lively() {
    let figures = figures_of(Kind::Lively, 300, 2_000);
    assert_eq!(figures.refusals, [0; 9]);
    assert!(figures.calls > 3_000, "{}", figures);
    assert!(figures.backs > 300, "{}", figures);
    assert!(figures.waits > 3_000, "{}", figures);
    assert!(figures.ons > 300, "{}", figures);
    assert!(figures.most_called > 3, "{}", figures);
    assert!(figures.most_waiting >= 31, "{}", figures);
    assert!(figures.most_evaluated > 3, "{}", figures);
    assert!(
        figures.searches_with_shared_conditions > 1_000,
        "{}",
        figures
    );
    for operator in [0, 1, 3, 4, 5, 6] {
        assert!(figures.found_tags[operator] > 20, "{:?}", figures);
    }
    assert_eq!(figures.found_tags[2], 0);
}

#[test]
fn short_lively_streams_are_lively_too() {
    let figures = figures_of(Kind::Lively, 300, 300);
    assert!(figures.calls > 300, "{}", figures);
    assert!(figures.backs > 10, "{}", figures);
    assert!(figures.ons > 50, "{}", figures);
}

#[test]
fn lively_streams_have_every_number_from_1_to_31_as_their_largest_crowd() {
    let mut seen = [false; 33];
    for stream in streams_of(Kind::Lively, 400, 3_000) {
        let mut figures = Figures::default();
        figures.add_stream(&stream);
        seen[figures.most_waiting] = true;
    }
    let missing: Vec<usize> = (1..=31).filter(|number| !seen[*number]).collect();
    assert!(missing.is_empty(), "{:?}", missing);
}

#[test]
fn extreme_streams_call_by_every_operator_and_send_back() {
    let figures = figures_of(Kind::Extreme, 300, 2_000);
    assert_eq!(figures.refusals, [0; 9]);
    assert!(figures.backs > 20, "{}", figures);
    for operator in [0, 1, 3, 4, 5, 6] {
        assert!(figures.found_tags[operator] > 10, "{:?}", figures);
    }
}

#[test]
fn extreme_streams_reach_the_ends_of_measures_and_keys() {
    let mut measures = (0, 0);
    let mut keys = (0, 0);
    for stream in streams_of(Kind::Extreme, 200, 1_000) {
        let (mut room, mut at) = Room::open(&stream).unwrap();
        loop {
            for measure in room.measure_values() {
                measures = (measures.0.min(measure), measures.1.max(measure));
            }
            for one in room.waiting() {
                for alternative in &one.condition.alternatives {
                    for atom in &alternative.atoms {
                        keys = (keys.0.min(atom.key), keys.1.max(atom.key));
                    }
                }
            }
            let report = room.event(&mut Default::default(), &stream[at..]);
            if report.taken == 0 {
                break;
            }
            at += report.taken;
        }
    }
    assert_eq!(measures, (-800_000_000, 800_000_000));
    assert_eq!(keys, (-401_000_000, 401_000_000));
}

#[test]
fn drains_have_31_waiting_and_let_them_all_leave() {
    let figures = figures_of(Kind::Drain, 300, 2_000);
    assert_eq!(figures.refusals, [0; 9]);
    assert_eq!(figures.most_waiting, 31);
    assert!(figures.calls * 10 > figures.waits * 8, "{}", figures);
    assert!(figures.most_evaluated > 10, "{}", figures);
    assert!(
        figures.searches_with_shared_conditions > 1_000,
        "{}",
        figures
    );
    for operator in [0, 1, 3, 4, 5, 6] {
        assert!(figures.found_tags[operator] > 300, "{:?}", figures);
    }
}

#[test]
fn strays_have_refusals_1_to_6_and_refused_openings() {
    let figures = figures_of(Kind::Strays, 400, 600);
    for refusal in 1..=4 {
        assert!(figures.refusals[refusal] > 20, "{}", figures);
    }
    assert!(figures.refusals[5] > 1_000, "{}", figures);
    assert!(figures.refusals[6] > 100, "{}", figures);
    assert!(figures.refused_openings > 20, "{}", figures);
    assert!(figures.calls > 100, "{}", figures);
}

#[test]
fn damaged_and_random_streams_are_refused_in_many_ways() {
    let damaged = figures_of(Kind::Damaged, 400, 400);
    for refusal in 1..=6 {
        assert!(damaged.refusals[refusal] > 10, "{}", damaged);
    }
    let random = figures_of(Kind::Random, 1_000, 400);
    for refusal in 1..=5 {
        assert!(random.refusals[refusal] > 10, "{}", random);
    }
    assert!(random.refused_openings > 100, "{}", random);
    assert!(random.accepted > 100, "{}", random);
}

#[test]
fn random_streams_have_every_length_up_to_80() {
    let mut seen = [false; 81];
    for stream in streams_of(Kind::Random, 2_000, 400) {
        if stream.len() <= 80 {
            seen[stream.len()] = true;
        }
    }
    assert!(seen.iter().all(|seen| *seen));
}

#[test]
fn long_streams_stand_on_both_sides_of_the_limit() {
    let lengths: Vec<usize> = streams_of(Kind::Long, 40, 300)
        .iter()
        .map(|stream| {
            assert_eq!(listing(stream) == "refused 8\n", stream.len() > 65_536);
            stream.len()
        })
        .collect();
    for length in [65_534, 65_535, 65_536, 65_537, 65_545] {
        assert!(lengths.contains(&length), "{}", length);
    }
}

#[test]
fn filled_streams_have_the_very_length_and_no_refusal() {
    for length in (150..330).chain([1_000, 5_001]) {
        let stream = filled(Random::new(length as u64), length);
        assert_eq!(stream.len(), length);
        assert!(!listing(&stream).contains("refused"), "{}", length);
    }
    assert_eq!(filled(Random::new(1), 20).len(), 20);
}

#[test]
fn mixed_streams_reach_refusal_8_too() {
    let streams: Vec<Vec<u8>> = (0..1_000).map(|seed| mixed(seed, 300)).collect();
    let figures = Figures::of(&streams);
    for refusal in [1, 2, 3, 4, 5, 6, 8] {
        assert!(figures.refusals[refusal] > 0, "{}", figures);
    }
}

/// Within 65,536 bytes there are not tickets enough to give; a room late in its life has few.
#[test]
fn events_of_lively_streams_reach_refusal_7_in_a_late_room() {
    let mut figures = Figures::default();
    for stream in streams_of(Kind::Lively, 50, 1_000) {
        let (mut room, taken) = Room::open(&stream).unwrap();
        room.next_ticket = TICKETS - 3;
        figures.add_events(&mut room, &stream[taken..]);
    }
    assert!(figures.refusals[7] > 50, "{}", figures);
    assert!(figures.ons > 10, "{}", figures);
}

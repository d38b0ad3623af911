//! What the stream program prints.

mod common;

use common::board_opening;
use second::listing::listing;
use second::random::Random;
use second::record::{Event, Opening};
use second::streams::filled;
use second::write;

const OPENING: [u8; 17] = [1, 2, 0, 0, 0, 0, 0, 0, 0, 0, 0, 0, 0, 0, 0, 0, 0];

fn after_opening(events: &[&[u8]]) -> String {
    listing(&[OPENING.as_slice(), &events.concat()].concat())
}

#[test]
fn the_whole_run_of_the_document() {
    let text = after_opening(&[
        &[1, 0],
        &[2, 0],
        &[4, 0, 96, 0, 0, 0, 1, 1, 0, 6, 2, 0, 0, 0, 0],
        &[1, 1],
        &[2, 1],
        &[3, 1, 0, 100],
        &[5, 1],
        &[2, 0],
        &[5, 0],
    ]);
    let expected = "\
open 1
1 done - 0
2 in - 0
3 waits - 0
4 done - 0
5 in - 0
6 done - 0
7 done 0 1
8 in - 0
9 done - 0
end 9
";
    assert_eq!(text.as_bytes(), expected.as_bytes());
}

#[test]
fn an_opening_alone() {
    assert_eq!(after_opening(&[]), "open 1\nend 0\n");
    let opening = Opening {
        measures: vec![[0; 8]; 16],
        values: [0; 8],
    };
    assert_eq!(listing(&write::opening(&opening)), "open 16\nend 0\n");
}

#[test]
fn a_refused_opening_prints_one_line() {
    assert_eq!(listing(&[]), "open refused 1\n");
    assert_eq!(listing(&OPENING[..16]), "open refused 1\n");
    assert_eq!(listing(&[129, 0]), "open refused 2\n");
    assert_eq!(listing(&[0]), "open refused 4\n");
    assert_eq!(listing(&[17, 1, 2, 3]), "open refused 4\n");
    assert_eq!(listing(&[1, 202, 1]), "open refused 4\n");
}

#[test]
fn end_follows_refusals_1_to_4_and_nothing_more_is_read() {
    let arrive = [1, 0];
    assert_eq!(
        after_opening(&[&arrive, &[1]]),
        "open 1\n1 done - 0\n2 refused 1\nend 1\n"
    );
    for (bad, refusal) in [
        ([2, 128, 0], 2),
        ([6, 0, 1], 3),
        ([1, 32, 1], 4),
        ([1, 160, 1], 4),
    ] {
        let text = after_opening(&[&arrive, &bad, &[1, 2], &[1, 3]]);
        assert_eq!(
            text,
            format!("open 1\n1 done - 0\n2 refused {}\nend 1\n", refusal)
        );
    }
}

#[test]
fn refusals_5_and_6_have_a_number_and_reading_goes_on() {
    let text = after_opening(&[
        &[2, 0],
        &[1, 0],
        &[1, 1],
        &[2, 0],
        &[2, 1],
        &[2, 0],
        &[5, 0],
    ]);
    let expected = "\
open 1
1 refused 5
2 done - 0
3 done - 0
4 in - 0
5 refused 6
6 refused 5
7 done - 0
end 4
";
    assert_eq!(text, expected);
}

#[test]
fn on_and_back_and_two_digit_jobs() {
    let wait = |job: u8, constant: u8| vec![4, job, 0, 0, 0, 0, 1, 1, 0, 1, 0, 0, 0, 0, constant];
    let text = after_opening(&[
        &[1, 31],
        &[2, 31],
        &wait(31, 0),
        &wait(31, 2),
        &[1, 10],
        &[2, 10],
        &[3, 10, 0, 2],
        &[5, 10],
        &[1, 10],
        &[2, 10],
        &[3, 10, 0, 0],
        &wait(10, 4),
        &[2, 31],
    ]);
    let expected = "\
open 1
1 done - 0
2 in - 0
3 on - 0
4 waits - 0
5 done - 0
6 in - 0
7 done - 0
8 done 31 1
9 done - 0
10 in - 0
11 done - 0
12 waits - 0
13 back - 0
end 13
";
    assert_eq!(text, expected);
}

#[test]
fn an_input_of_65_536_bytes_is_read_to_the_end() {
    for seed in 0..3 {
        let stream = filled(Random::new(seed), 65_536);
        assert_eq!(stream.len(), 65_536);
        let text = listing(&stream);
        assert!(!text.contains("refused"));
        let lines: Vec<&str> = text.lines().collect();
        assert_eq!(lines[lines.len() - 1], format!("end {}", lines.len() - 2));
    }
}

#[test]
fn a_longer_input_is_refusal_8_whatever_it_holds() {
    assert_eq!(listing(&filled(Random::new(5), 65_537)), "refused 8\n");
    assert_eq!(listing(&[0; 65_537]), "refused 8\n");
    assert_eq!(listing(&[255; 70_000]), "refused 8\n");
    assert_eq!(listing(&[0; 65_536]), "open refused 4\n");
}

#[test]
fn numbers_of_lines_go_on_past_thousands() {
    let opening = write::opening(&board_opening(0, 0));
    let mut stream = opening.clone();
    for _ in 0..5_000 {
        for event in [
            Event::Arrive { job: 0 },
            Event::Admit { job: 0 },
            Event::Leave { job: 0 },
            Event::Leave { job: 0 },
        ] {
            stream.extend(write::event(&event, 3));
        }
    }
    let text = listing(&stream);
    assert!(text.ends_with("19999 done - 0\n20000 refused 5\nend 15000\n"));
}

//! Document 01's board examples without a star, as listings of the library: each number at the end
//! of its range is taken, and the one after it is refused with 4.

use harbour::listing;
use second::number;

fn signed(value: i64) -> Vec<u8> {
    let mut bytes = Vec::new();
    number::write(number::from_signed(value), &mut bytes);
    bytes
}

/// An opening with so many measures, all of whose coefficients are the same, and all values too.
fn opening(measures: u8, coefficient: i64, value: i64) -> Vec<u8> {
    let mut bytes = vec![measures];
    for _ in 0..8 * usize::from(measures) {
        bytes.extend(signed(coefficient));
    }
    for _ in 0..8 {
        bytes.extend(signed(value));
    }
    bytes
}

fn listed(parts: &[&[u8]]) -> String {
    String::from_utf8(listing(&parts.concat())).expect("a listing is text")
}

const ENTER: [u8; 4] = [1, 0, 2, 0];

/// A Wait of job 0 for measure 0 ≥ c: its local values are all `local`, its coefficients `coefficient`.
fn wait(coefficient: i64, local: i64, constant: i64) -> Vec<u8> {
    let mut bytes = vec![4, 0];
    for _ in 0..4 {
        bytes.extend(signed(local));
    }
    bytes.extend([1, 1, 0, 6]);
    for _ in 0..4 {
        bytes.extend(signed(coefficient));
    }
    bytes.extend(signed(constant));
    bytes
}

#[test]
fn the_largest_measure_is_above_the_largest_key() {
    let text = listed(&[
        &opening(1, 100, 1_000_000),
        &ENTER,
        &wait(100, 1_000_000, 1_000_000),
    ]);
    assert_eq!(text, "open 1\n1 done - 0\n2 in - 0\n3 on - 0\nend 3\n");
    let text = listed(&[
        &opening(1, -100, 1_000_000),
        &ENTER,
        &wait(-100, 1_000_000, -1_000_000),
    ]);
    assert_eq!(text, "open 1\n1 done - 0\n2 in - 0\n3 waits - 0\nend 3\n");
}

#[test]
fn a_value_or_coefficient_past_its_range() {
    for (coefficient, value) in [(0, 1_000_001), (0, -1_000_001), (101, 0), (-101, 0)] {
        let text = listed(&[&opening(1, coefficient, value)]);
        assert_eq!(text, "open refused 4\n");
    }
    let opened = opening(1, 100, 1_000_000);
    for value in [1_000_001, -1_000_001] {
        let text = listed(&[&opened, &ENTER, &[3, 0, 0], &signed(value)]);
        assert_eq!(text, "open 1\n1 done - 0\n2 in - 0\n3 refused 4\nend 2\n");
    }
}

#[test]
fn no_measures_or_seventeen() {
    for measures in [0, 17] {
        assert_eq!(listed(&[&opening(measures, 1, 1)]), "open refused 4\n");
    }
    assert_eq!(listed(&[&opening(16, 1, 1)]), "open 16\nend 0\n");
}

#[test]
fn job_thirty_two() {
    let opened = opening(1, 1, 0);
    let text = listed(&[&opened, &[1, 31, 1, 32]]);
    assert_eq!(text, "open 1\n1 done - 0\n2 refused 4\nend 1\n");
}

#[test]
fn no_alternatives_or_five() {
    let opened = opening(1, 1, 0);
    for alternatives in [0, 5] {
        let text = listed(&[&opened, &ENTER, &[4, 0, 0, 0, 0, 0, alternatives]]);
        assert_eq!(text, "open 1\n1 done - 0\n2 in - 0\n3 refused 4\nend 2\n");
    }
}

//! A failing run is told by a short list: what cannot be left out, and nothing else.

mod common;

use common::shrink::shrink;

#[test]
fn what_is_needed_stays_in_its_order() {
    let needed = [17, 18, 400, 999];
    let fails = |list: &[u32]| needed.iter().all(|one| list.contains(one));
    assert_eq!(shrink((0..1_000).collect(), fails), needed);
}

/// Leaving one thing out may let an earlier one go.
#[test]
fn nothing_more_can_be_left_out() {
    let fails = |list: &[u32]| list.len() > 2 && list.len() % 2 == 1;
    assert_eq!(shrink((0..101).collect(), fails).len() % 2, 1);
    let all_or_few = |list: &[u32]| list.len() == 50 || list == [7];
    assert_eq!(shrink((0..50).collect(), all_or_few).len(), 50);
    let in_pairs = |list: &[u32]| list.contains(&0) && (list.contains(&1) || !list.contains(&2));
    assert_eq!(shrink((0..3).collect(), in_pairs), [0]);
}

#[test]
fn a_list_that_fails_whatever_is_in_it_becomes_empty() {
    assert!(shrink((0..77).collect(), |_: &[u32]| true).is_empty());
    assert!(shrink(Vec::<u32>::new(), |_| true).is_empty());
}

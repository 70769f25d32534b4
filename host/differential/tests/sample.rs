//! The recorded sample is what the original answers now, holds every kind of call, and the port answers the same.

use std::collections::BTreeSet;

use differential::compare::run_records;
use differential::lists::{benchmark, sample, LISTS};
use differential::plain;

const RECORDED: &[u8] = include_bytes!("../../sample/recorded");

#[test]
fn the_sample() {
    let list = sample();
    assert_eq!(RECORDED, [&list.requests[..], &list.answers].concat());
    let (requests, answers) = RECORDED.split_at(RECORDED.len() / 2);
    let mut ours = vec![0; answers.len()];
    assert_eq!(run_records(requests, &mut ours), 0);
    assert_eq!(answers, ours);
    let first_words = |bytes: &[u8]| bytes.chunks_exact(20).map(|record| record[0]).collect::<BTreeSet<_>>();
    assert_eq!(first_words(requests), (1..=9).collect());
    assert_eq!(first_words(answers), [0, 4, 7, 11, 12, 13].into());
}

#[test]
fn the_original_alone_answers_the_lists() {
    for list in (0..LISTS).map(|list| benchmark(list, 500)).chain([sample()]) {
        let mut answers = vec![0; list.answers.len()];
        plain::run(&list.requests, &mut answers);
        assert!(answers == list.answers, "{}", list.name);
    }
}

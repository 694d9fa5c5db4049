//! The program that compares, fed with this reader's own answers: the cases reach all that they
//! must, the same answers pass, and other ones do not.

#[allow(dead_code)]
#[path = "../examples/compare/main.rs"]
mod program;

use program::cases::{Cases, LIMIT};
use program::judge;
use program::replies::{tell, Break};

/// The count that `tests/compare` takes by itself.
const COUNT: usize = 24_000;

/// This reader's answers, and how many cases of the sweep were left out.
fn answers_and_left(seed: u64, count: usize) -> (Vec<u8>, usize) {
    let mut cases = Cases::new(seed);
    let mut page = vec![0; LIMIT];
    let answer = |_| tell(&cases.next_case(), &mut page, Break::Nothing).bytes();
    let answers = (0..count).flat_map(answer).collect();
    (answers, cases.left())
}

fn answers(seed: u64, count: usize) -> Vec<u8> {
    answers_and_left(seed, count).0
}

fn judged(seed: u64, count: usize, wrong: Break, answers: &[u8]) -> bool {
    judge(seed, count, wrong, &mut &answers[..])
}

/// The cases of a seed reach all that they must, and none of the sweep is left.
fn reaches_all(seed: u64) {
    let (answers, left) = answers_and_left(seed, COUNT);
    assert!(judged(seed, COUNT, Break::Nothing, &answers), "{seed}");
    assert_eq!(left, 0, "{seed}");
}

/// Seed 7 is the one that `tests/compare` takes by itself.
#[test]
fn every_seed_reaches_all_that_it_must() {
    [7, 1, 2, 3].into_iter().for_each(reaches_all);
}

/// Nothing that must come comes by chance alone. Run with --release --ignored.
#[test]
#[ignore = "300 seeds"]
fn many_seeds_reach_all_that_they_must() {
    (0..300).for_each(reaches_all);
}

#[test]
fn other_answers_do_not_pass() {
    let answers = answers(7, COUNT);
    let judged = |answers: &[u8]| judged(7, COUNT, Break::Nothing, answers);
    assert!(!judged(&answers[..answers.len() - 1]));
    assert!(!judged(&[&answers[..], &[0]].concat()));
    for at in [0, 39, answers.len() - 1] {
        let mut changed = answers.clone();
        changed[at] ^= 1;
        assert!(!judged(&changed), "byte {at}");
    }
}

#[test]
fn too_few_cases_do_not_pass() {
    assert!(!judged(7, 100, Break::Nothing, &answers(7, 100)));
}

#[test]
fn every_break_shows() {
    let answers = answers(7, COUNT);
    for name in ["padding", "offset", "room", "rule", "place", "last"] {
        let wrong = Break::named(name).unwrap();
        assert!(!judged(7, COUNT, wrong, &answers), "{name}");
    }
}

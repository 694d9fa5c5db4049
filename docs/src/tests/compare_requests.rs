//! The program that compares the requests, fed with this crate's own answers: the cases reach all
//! that they must, the same answers pass, and other ones do not.

#[allow(dead_code)]
#[path = "../examples/compare_requests/main.rs"]
mod program;

use program::cases::{Cases, LIMIT};
use program::judge;
use program::replies::{tell, Break};

/// The seed and count that `tests/compare-requests` takes by itself.
const SEED: u64 = 7;
const COUNT: usize = 41_000;

fn answers_of(seed: u64, wrong: Break) -> Vec<u8> {
    let mut cases = Cases::new(seed);
    let mut page = vec![0; LIMIT];
    let answer = |_| tell(&cases.next_case(), &mut page, wrong).bytes();
    (0..COUNT).flat_map(answer).collect()
}

fn answers(wrong: Break) -> Vec<u8> {
    answers_of(SEED, wrong)
}

/// Nothing that must come comes by chance alone. Run with --release --ignored.
#[test]
#[ignore = "300 seeds"]
fn many_seeds_reach_all_that_they_must() {
    let most = (0..300).map(|seed| Cases::new(seed).left()).max().unwrap();
    println!(
        "the sweeps have at most {most} cases, with room for {}",
        COUNT / 2
    );
    for seed in 0..300 {
        let answers = answers_of(seed, Break::Nothing);
        let passed = judge(seed, COUNT, Break::Nothing, &mut &answers[..]);
        assert!(passed, "{seed}");
    }
}

#[test]
fn the_same_answers_pass() {
    let answers = answers(Break::Nothing);
    let judged = |answers: &[u8]| judge(SEED, COUNT, Break::Nothing, &mut &answers[..]);
    assert!(judged(&answers));
    assert!(!judged(&answers[..answers.len() - 1]));
    assert!(!judged(&[&answers[..], &[0]].concat()));
    for at in [0, 39, 40, answers.len() / 2, answers.len() - 1] {
        let mut changed = answers.clone();
        changed[at] ^= 1;
        assert!(!judged(&changed), "byte {at}");
    }
}

#[test]
fn too_few_cases_do_not_pass() {
    let mut cases = Cases::new(SEED);
    let mut page = vec![0; LIMIT];
    let answer = |_| tell(&cases.next_case(), &mut page, Break::Nothing).bytes();
    let answers: Vec<u8> = (0..100).flat_map(answer).collect();
    assert!(!judge(SEED, 100, Break::Nothing, &mut &answers[..]));
}

#[test]
fn every_break_shows() {
    let answers = answers(Break::Nothing);
    for name in [
        "counter", "remote", "time", "place", "scratch", "seam", "tray", "uneven",
    ] {
        let wrong = Break::named(name).unwrap();
        assert!(!judge(SEED, COUNT, wrong, &mut &answers[..]), "{name}");
    }
}

#[test]
fn parts_and_rooms_are_short() {
    let mut cases = Cases::new(SEED);
    for _ in 0..COUNT {
        let case = cases.next_case();
        assert!(case.first.len() <= LIMIT && case.second.len() <= LIMIT);
        assert!(case.room() <= LIMIT);
    }
}

/// The first part of a tray's question has its form.
#[test]
fn trays_have_their_form() {
    let mut cases = Cases::new(SEED);
    let trays = (0..COUNT).map(|_| cases.next_case());
    for case in trays.filter(|case| case.question == 7) {
        let part = &case.first[..];
        assert_eq!(part.len(), 120);
        assert!(part[3] <= 8 && part[14] <= 8 && part[15] == 0);
        match part[0] {
            1 => assert_eq!(part[16..24], [0; 8]),
            header => assert_eq!((header, part[9]), (2, 0)),
        }
        assert!(case.second.len() <= 80);
    }
}

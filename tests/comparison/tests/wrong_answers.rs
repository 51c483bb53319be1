//! The comparison can fail: wrong checkers are seen.

use comparison::compare::{compare, Checker, Difference};
use comparison::generator::{self, Finding};
use comparison::run::run;
use second_checker::verdict::{verdict, Answer};
use std::sync::OnceLock;

const SEED: u64 = 7;
const FINDINGS: u64 = 150;

/// The findings all tests here use.
fn findings() -> &'static [Finding] {
    static FOUND: OnceLock<Vec<Finding>> = OnceLock::new();
    FOUND.get_or_init(|| (0..FINDINGS).map(|number| generator::finding(SEED, number)).collect())
}

/// The differences of a wrong checker.
fn differences(tested: Checker) -> Vec<Difference> {
    let compared = (0..).zip(findings()).map(|(number, finding)| compare(SEED, number, finding, tested));
    compared.filter_map(|result| result.err().map(|difference| *difference)).collect()
}

#[test]
fn a_run_with_a_difference_does_not_pass() {
    let wrong: Checker = |f, s, p, w, b| Answer { slice: 4, ..verdict(f, s, p, w, b) };
    let mut reported = 0;
    let run = run(20, &[SEED, SEED + 1], wrong, |_| reported += 1);
    assert_eq!((run.differences, run.shares.findings(), reported), (20, 20, 20));
    assert!(!run.passed());
}

#[test]
fn the_second_checker_does_not_differ_from_itself() {
    assert!(differences(verdict).is_empty());
}

#[test]
fn each_number_off_by_one_is_seen_on_every_finding() {
    let wrong: [Checker; 4] = [
        |f, s, p, w, b| Answer { result: verdict(f, s, p, w, b).result + 1, ..verdict(f, s, p, w, b) },
        |f, s, p, w, b| Answer { slice: verdict(f, s, p, w, b).slice + 1, ..verdict(f, s, p, w, b) },
        |f, s, p, w, b| Answer { place: verdict(f, s, p, w, b).place + 1, ..verdict(f, s, p, w, b) },
        |f, s, p, w, b| Answer { count: verdict(f, s, p, w, b).count.wrapping_add(1), ..verdict(f, s, p, w, b) },
    ];
    for tested in wrong {
        assert_eq!(differences(tested).len() as u64, FINDINGS);
    }
}

/// The second checker's answer, with one work byte changed after it, where there is one at the place.
fn with_byte<const PLACE: usize>(f: &[u8], s: &[u8], p: &[u8], work: &mut [u8], budget: u32) -> Answer {
    let answer = verdict(f, s, p, work, budget);
    if let Some(byte) = work.get_mut(PLACE) {
        *byte ^= 1;
    }
    answer
}

/// The places at which a changed byte was seen, which must all be the one given.
fn seen_at<const PLACE: usize>() -> usize {
    let seen = differences(with_byte::<PLACE>);
    for difference in &seen {
        assert_eq!(difference.tested, difference.expected);
        assert_eq!(difference.work_byte.map(|(place, ..)| place), Some(PLACE));
    }
    seen.len()
}

#[test]
fn one_changed_work_byte_is_seen() {
    assert!(seen_at::<0>() > 100);
    assert!(seen_at::<65_535>() > 100);
    assert!(seen_at::<65_536>() > 10);
    assert!(seen_at::<69_999>() > 5);
}

#[test]
fn work_bytes_left_alone_or_always_cleared_are_seen() {
    let leaves: Checker = |f, s, p, w, b| verdict(f, s, p, &mut w.to_vec(), b);
    let clears: Checker = |f, s, p, w, b| {
        let answer = verdict(f, s, p, w, b);
        w.fill(0);
        answer
    };
    assert!(differences(leaves).iter().all(|difference| matches!(difference.expected.result, 0 | 10..=13)));
    assert!(differences(leaves).len() > 50);
    assert!(differences(clears).len() > 50);
}

#[test]
fn always_accepted_and_always_false_are_seen() {
    let accepted: Checker = |_, _, _, work, _| {
        work.fill(0);
        Answer { result: 0, slice: 0, place: 0, count: 0 }
    };
    assert_eq!(differences(accepted).len() as u64, FINDINGS);
    let always_0: Checker = |f, s, p, w, b| Answer { result: 0, ..verdict(f, s, p, w, b) };
    let always_12: Checker = |f, s, p, w, b| Answer { result: 12, ..verdict(f, s, p, w, b) };
    assert!(differences(always_0).iter().all(|difference| difference.expected.result != 0));
    assert!(differences(always_12).iter().all(|difference| difference.expected.result != 12));
    assert!(differences(always_0).len() > 100 && differences(always_12).len() > 100);
}

#[test]
fn a_difference_can_be_repeated() {
    let wrong: Checker = |f, s, p, w, b| Answer { place: 99, ..verdict(f, s, p, w, b) };
    let finding = generator::finding(SEED, 3);
    assert_eq!(finding, generator::finding(SEED, 3));
    let text = compare(SEED, 3, &finding, wrong).expect_err("the place is wrong").to_string();
    for part in ["seed 7, finding 3", " 99 ", "first: vec![", "work_length: ", "fill: ", "budget: "] {
        assert!(text.contains(part), "{part} is not in:\n{text}");
    }
}

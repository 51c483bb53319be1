//! The `answer` line of a finding, under the budget it is meant for and under others.

use judge::answer_line::{compare, under_its_budget, Comparison};
use judge::arguments::BUDGET;
use library::Answer;

const OVER: Answer = Answer { result: 10, slice: 0, place: 0, count: BUDGET };

fn judged(result: u32, count: u32) -> Answer {
    Answer { result, slice: 0, place: 0, count }
}

/// A refusal is the same under every budget.
#[test]
fn refusals() {
    for result in 1..=9 {
        let answer = Answer { result, slice: 2, place: 3, count: 0 };
        for budget in [0, 5, BUDGET, u32::MAX] {
            assert_eq!(under_its_budget(answer, budget), Some(answer));
        }
    }
}

/// What takes no more visits than the line's budget gets the same answer within it.
#[test]
fn settled_within_its_budget() {
    for result in [0, 11, 12, 13] {
        for (count, budget) in [(2, 2), (5, 9), (5, BUDGET), (BUDGET, BUDGET), (5, u32::MAX), (BUDGET, u32::MAX)] {
            assert_eq!(under_its_budget(judged(result, count), budget), Some(judged(result, count)));
        }
    }
}

#[test]
fn settled_within_a_larger_budget_alone() {
    for result in [0, 11, 12, 13] {
        assert_eq!(under_its_budget(judged(result, BUDGET + 1), BUDGET + 1), Some(OVER));
        assert_eq!(under_its_budget(judged(result, u32::MAX), u32::MAX), Some(OVER));
    }
}

#[test]
fn over_a_budget() {
    for budget in [BUDGET, BUDGET + 1, u32::MAX] {
        assert_eq!(under_its_budget(judged(10, budget), budget), Some(OVER));
    }
    for budget in [0, 1, BUDGET - 1] {
        assert_eq!(under_its_budget(judged(10, budget), budget), None);
    }
}

#[test]
fn lines_that_are_fine() {
    assert_eq!(compare("t", None, judged(0, 5), BUDGET), Comparison::Fine);
    assert_eq!(compare("t", None, judged(10, 4), 4), Comparison::Fine);
    assert_eq!(compare("t", Some([0, 0, 0, 5]), judged(0, 5), BUDGET), Comparison::Fine);
    assert_eq!(compare("t", Some([0, 0, 0, 5]), judged(0, 5), 5), Comparison::Fine);
    assert_eq!(compare("t", Some([10, 0, 0, BUDGET]), judged(13, BUDGET + 1), u32::MAX), Comparison::Fine);
}

#[test]
fn lines_that_differ() {
    let said = "a/finding.txt says answer 0 0 0 5, but the answer is 12 0 0 5";
    let compared = compare("a/finding.txt", Some([0, 0, 0, 5]), judged(12, 5), BUDGET);
    assert_eq!(compared, Comparison::Differs(said.to_string()));
    for line in [[1, 0, 0, 5], [0, 1, 0, 5], [0, 0, 1, 5], [0, 0, 0, 6]] {
        for budget in [5, BUDGET, u32::MAX] {
            assert!(matches!(compare("t", Some(line), judged(0, 5), budget), Comparison::Differs(_)));
        }
    }
    let Comparison::Differs(message) = compare("t", Some([0, 0, 0, 2000000]), judged(0, 2000000), 3000000) else {
        panic!("a line for another budget is taken");
    };
    assert!(message.starts_with("t says answer 0 0 0 2000000, but the answer is 10 0 0 1000000"), "{message}");
}

#[test]
fn lines_that_cannot_be_compared() {
    let Comparison::Unknown(note) = compare("t", Some([0, 0, 0, 5]), judged(10, 4), 4) else {
        panic!("nothing is known of the answer within a larger budget");
    };
    assert!(note.contains("not compared"), "{note}");
}

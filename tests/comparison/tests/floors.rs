//! A run fails where one thing that is counted does not come, names in each role among them, and a checker for which names with the same
//! first byte are one is seen (document 02, 2.2).

use comparison::compare::{compare, Checker};
use comparison::encoding;
use comparison::generator::{self, Finding};
use comparison::names::{with_equal_second_bytes, NameShares, COUNTED};
use comparison::roles::Role;
use comparison::run::Run;
use comparison::shares::{Shares, FLOORS};
use second_checker::syntax::{Formula, Process, Term};
use second_checker::verdict::verdict;

/// A finding with these public names as channels, in messages and in recipes, and two more of which its formula says that they differ.
fn of_names([channels, messages, recipes]: [&[u16]; 3], [left, right]: [u16; 2]) -> Finding {
    let sent = channels.iter().fold(Process::Nil, |then, name| {
        let (channel, message) = (Term::Name(*name), Term::Variable(0));
        Process::Output { channel, message, then: Box::new(then) }
    });
    let bound =
        messages.iter().fold(sent, |then, name| Process::Let { value: Term::Name(*name), then: Box::new(then) });
    let equal = |left, right| Box::new(Formula::Equal(Term::Name(left), Term::Name(right)));
    let different = Formula::Not(equal(left, right));
    let formula = recipes.iter().fold(different, |rest, name| Formula::And(equal(*name, *name), Box::new(rest)));
    Finding {
        first: encoding::process(&Process::New(Box::new(bound))),
        second: encoding::process(&Process::Nil),
        formula: encoding::formula(&formula),
        work_length: 65_536,
        fill: 0,
        budget: 100,
    }
}

/// Two names that differ in their second byte alone: 80 03 and 80 04.
const ALIKE: [u16; 2] = [384, 512];

/// All that a comparison counts, in one finding.
fn with_all() -> Finding {
    of_names([&COUNTED; 3], ALIKE)
}

/// A run in which each result but one came often enough, always on the same finding; no bytes get 5.
fn run_on(finding: &Finding, missing: Option<u32>) -> Run {
    let mut run = Run::default();
    for result in (0..14).filter(|result| *result != 5 && Some(*result) != missing) {
        let many = if (1..=9).contains(&result) { 5 } else { 20 };
        (0..many).for_each(|_| run.add(finding, result));
    }
    run
}

/// A run does not pass, and says that this and nothing else is under its floor.
fn fails(run: Run, said: String) {
    assert_eq!(run.under_floor(), [said]);
    assert!(!run.passed());
}

#[test]
fn a_run_with_all_that_is_counted_passes() {
    let run = run_on(&with_all(), None);
    assert_eq!(run.under_floor(), Vec::<String>::new());
    assert!(run.passed());
}

#[test]
fn a_run_without_a_result_fails() {
    for missing in (0..14).filter(|result| *result != 5) {
        fails(run_on(&with_all(), Some(missing)), format!("result {missing}"));
    }
    assert!((0..14).all(|result| (FLOORS[result] > 0.0) == (result != 5)));
}

#[test]
fn a_run_without_a_name_in_a_role_fails() {
    for missing in COUNTED {
        let others: Vec<u16> = COUNTED.into_iter().filter(|name| *name != missing).collect();
        for role in Role::ALL {
            let mut names: [&[u16]; 3] = [&COUNTED; 3];
            names[role as usize] = &others;
            fails(run_on(&of_names(names, ALIKE), None), format!("name {missing} in {}", role.title()));
        }
    }
}

#[test]
fn a_run_whose_answers_depend_on_no_second_byte_fails() {
    for two in [[384, 385], [384, 384]] {
        fails(run_on(&of_names([&COUNTED; 3], two), None), "answers that depend on second bytes".to_string());
    }
}

#[test]
fn a_run_without_numbers_of_two_bytes_fails() {
    let short = run_on(&of_names([&[0, 1, 127]; 3], [0, 1]), None);
    assert!(short.under_floor().contains(&"numbers of two bytes".to_string()) && !short.passed());
}

#[test]
fn names_count_only_where_a_finding_is_judged() {
    let (mut shares, mut names) = (Shares::default(), NameShares::default());
    shares.add(&with_all(), 9);
    names.add(&with_all(), 9);
    assert!(!shares.enough_long());
    assert_eq!(names.under_floor().len(), COUNTED.len() * Role::ALL.len() + 1);
}

#[test]
fn equal_second_bytes_are_seen() {
    let wrong: Checker = |first, second, formula, work, budget| {
        let [first, second, formula] = [first, second, formula].map(with_equal_second_bytes);
        verdict(&first, &second, &formula, work, budget)
    };
    let seen = |number| compare(7, number, &generator::finding(7, number), wrong).err();
    let judged = (0..300).filter_map(seen).filter(|difference| matches!(difference.expected.result, 0 | 11..=13));
    assert!(judged.count() > 5);
}

//! The last line, and the exit status.

use judge::summary::{Outcome, Summary};

fn summary(outcomes: &[(Outcome, bool)]) -> Summary {
    let mut summary = Summary::default();
    outcomes.iter().for_each(|(outcome, misstated)| summary.add(*outcome, *misstated));
    summary
}

#[test]
fn the_worst_decides() {
    let accepted = (Outcome::Accepted, false);
    let (other, without, misstated) = ((Outcome::Other, false), (Outcome::Without, false), (Outcome::Accepted, true));
    for (outcomes, status) in [
        (&[accepted, accepted][..], 0),
        (&[accepted, other], 1),
        (&[misstated, accepted], 1),
        (&[other, without], 2),
        (&[without, accepted, misstated], 2),
    ] {
        assert_eq!(summary(outcomes).status(), status, "{outcomes:?}");
    }
}

#[test]
fn the_line() {
    let three = summary(&[(Outcome::Without, false), (Outcome::Accepted, false), (Outcome::Other, false)]);
    assert_eq!(three.to_string(), "3 findings: 1 accepted, 1 not accepted, 1 without an answer");
    let two = summary(&[(Outcome::Accepted, true), (Outcome::Accepted, false)]);
    assert_eq!(
        two.to_string(),
        "2 findings: 2 accepted, 0 not accepted, 0 without an answer; 1 with another answer than finding.txt says"
    );
}

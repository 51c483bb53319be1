//! Each limit at its border, and what a visit past it counts (document 01, "Judging and its count").

mod bytes;

use bytes::{answer, judge, par_of};
use second_checker::verdict::Answer;

const TRUE: &str = "00 00 00 00 00";

/// The verdict with nil as the second model.
fn with(model: &str, formula: &str) -> Answer {
    judge(model, "00", formula, 1000)
}

fn met_limit(model: &str, formula: &str) -> bool {
    with(model, formula).result == 11
}

/// A full tree of mac: 2 to the `depth` less 1 nodes, and no equation applies.
fn full(depth: usize) -> String {
    if depth == 1 {
        return "00 00".to_string();
    }
    format!("07 {0} {0}", full(depth - 1))
}

/// `let x = M in P`, where M has 127 nodes and x is the first variable.
fn with_127(process: &str) -> String {
    format!("05 {} {process}", full(7))
}

/// Terms of 255 and 256 nodes around the first variable, or alias, when that has 127.
const AT_255: &str = "02 01 00 01 00";
const AT_256: &str = "02 01 00 03 01 00";

#[test]
fn private_names() {
    let chunk = |names: usize| format!("{} 00", "01 ".repeat(names));
    let made = |last: usize| par_of(&[vec![chunk(12); 10], vec![chunk(last)]].concat());
    assert_eq!(with(&made(8), TRUE), answer(13, 0, 0, 2));
    assert_eq!(with(&made(9), TRUE), answer(11, 0, 0, 2));
    let beside_copy = |last: usize| par_of(&[made(last), "07 01 02 00 00 01 00 00".to_string()]);
    assert!(!met_limit(&beside_copy(8), TRUE));
    assert!(met_limit(&beside_copy(8), &format!("03 00 00 {TRUE}")));
    assert!(!met_limit(&beside_copy(7), &format!("03 00 00 {TRUE}")));
}

#[test]
fn bound_nodes_count_in_each_thread() {
    let output = "02 00 00 00 00 00".to_string();
    let last = |names: usize| format!("{} {output}", "01 ".repeat(names));
    let model = |names| format!("05 {} {}", full(8), par_of(&[vec![output.clone(); 3], vec![last(names)]].concat()));
    assert!(!met_limit(&model(4), TRUE));
    assert!(met_limit(&model(5), TRUE));
    let in_repl = |names| {
        format!(
            "05 {} {}",
            full(8),
            par_of(&[vec![output.clone(); 3], vec![format!("{} 07 00", "01 ".repeat(names))]].concat())
        )
    };
    assert!(!met_limit(&in_repl(4), TRUE));
    assert!(met_limit(&in_repl(5), TRUE));
}

#[test]
fn aliases_count_too() {
    let bound = format!("05 {} {}", full(8), par_of(&["02 00 01 00 00 00"; 4]));
    let sending = |message: &str| format!("06 02 00 00 {message} 00 {bound}");
    let four = "03 07 00 00 00 00";
    let five = "07 07 00 00 00 00 00 00";
    assert!(!met_limit(&sending(four), &format!("03 00 00 {TRUE}")));
    assert!(met_limit(&sending(five), &format!("03 00 00 {TRUE}")));
    assert!(!met_limit(&sending(five), TRUE));
}

#[test]
fn normal_forms_in_a_model() {
    let places = |term: &str| {
        [
            format!("05 {term} 00"),
            format!("02 00 00 {term} 00"),
            format!("02 {term} 00 00 00"),
            format!("03 {term} 00"),
            format!("04 {term} 00 00 00 00"),
            format!("04 00 00 {term} 00 00"),
            format!("07 05 {term} 00"),
            format!("07 02 00 00 {term} 00"),
            format!("07 01 07 03 {term} 00"),
            format!("05 03 {term} 00"),
            format!("02 00 00 03 {term} 00"),
        ]
    };
    for (at, over) in places(AT_255).iter().zip(places(AT_256)) {
        assert!(!met_limit(&with_127(at), TRUE), "{at}");
        assert_eq!(with(&with_127(&over), TRUE), answer(11, 0, 0, 2), "{over}");
    }
}

#[test]
fn what_is_not_worked_meets_no_limit() {
    assert!(!met_limit(&with_127(&format!("04 00 00 00 01 05 {AT_256} 00 00")), TRUE));
    let behind_output = with_127(&format!("02 00 00 00 00 05 {AT_256} 00"));
    assert!(!met_limit(&behind_output, TRUE));
    assert!(met_limit(&behind_output, &format!("03 00 00 {TRUE}")));
    assert!(!met_limit(&format!("07 {behind_output}"), TRUE));
}

#[test]
fn a_part_that_an_equation_drops_meets_the_limit() {
    assert!(met_limit(&with_127(&format!("05 03 {AT_256} 00")), TRUE));
    assert!(!met_limit(&with_127(&format!("05 03 {AT_255} 00")), TRUE));
    let decrypted = |key: &str| with_127(&format!("05 06 05 01 00 {key} {key} 00"));
    assert!(!met_limit(&decrypted("01 00"), TRUE));
    assert!(met_limit(&decrypted("03 01 00"), TRUE));
}

#[test]
fn normal_forms_of_recipes() {
    let model = format!("02 00 00 {} 03 00 01 00", full(7));
    let after = |body: &str| met_limit(&model, &format!("03 00 00 {body}"));
    for (term, over) in [(AT_255, false), (AT_256, true)] {
        assert_eq!(after(&format!("00 {term} 00 00")), over);
        assert_eq!(after(&format!("00 00 00 {term}")), over);
        assert_eq!(after(&format!("03 {term} {TRUE}")), over);
        assert_eq!(after(&format!("04 {term} 00 00 {TRUE}")), over);
        assert_eq!(after(&format!("04 00 01 {term} {TRUE}")), over);
        assert_eq!(after(&format!("04 00 09 {term} {TRUE}")), over);
        assert_eq!(after(&format!("00 03 {term} 00 00")), over);
    }
}

#[test]
fn a_visit_past_a_limit_counts_1_and_goes_no_further() {
    let over = with_127(&format!("05 {AT_256} 00"));
    assert_eq!(with(&over, &format!("01 01 {TRUE}")), answer(11, 0, 0, 4));
    assert_eq!(with("00", &format!("02 {TRUE} {TRUE}")), answer(13, 0, 0, 6));
    assert_eq!(judge(&over, &over, &format!("02 {TRUE} {TRUE}"), 9), answer(11, 0, 0, 2));
    assert_eq!(judge(&over, &over, TRUE, 1), answer(10, 0, 0, 1));
}

#[test]
fn a_recipe_past_the_limit_leaves_the_other_side_judged() {
    let model = format!("02 00 00 {} 00", full(7));
    let formula = format!("03 00 00 02 04 {AT_256} 00 00 {TRUE} 01 {TRUE}");
    // first: output step, and, input step, not, equal; second: output step.
    assert_eq!(with(&model, &formula), answer(11, 0, 0, 6));
}

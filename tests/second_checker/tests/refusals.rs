//! Each refusal, at its border and in each slice, and the work bytes (document 01, "Turned back for the input").

mod bytes;

use bytes::{answer, hex, judge};
use second_checker::verdict::verdict;

const TRUE: &str = "00 00 00 00 00";

/// The result and place of a first model.
fn model(text: &str) -> (u32, u32) {
    let answer = judge(text, "00", TRUE, 9);
    (answer.result, answer.place)
}

/// The result and place of a formula.
fn formula(text: &str) -> (u32, u32) {
    let answer = judge("00", "00", text, 1000);
    (answer.result, answer.place)
}

#[test]
fn a_refusal_names_its_slice() {
    assert_eq!(judge("08", "08", "08", 9), answer(4, 1, 0, 0));
    assert_eq!(judge("00", "01 08", "08", 9), answer(4, 2, 1, 0));
    assert_eq!(judge("00", "00", "01 06", 9), answer(4, 3, 1, 0));
}

#[test]
fn refusal_1_is_tested_at_the_slice_s_turn() {
    let long = "00 ".repeat(4097);
    assert_eq!(judge(&long, &long, &long, 9), answer(1, 1, 4096, 0));
    assert_eq!(judge("08", &long, TRUE, 9), answer(4, 1, 0, 0));
    assert_eq!(judge("00", &long, TRUE, 9), answer(1, 2, 4096, 0));
    assert_eq!(judge("00", "00", &long, 9), answer(1, 3, 4096, 0));
    assert_eq!(judge(&"00 ".repeat(4096), "00", TRUE, 9), answer(8, 1, 1, 0));
}

#[test]
fn refusal_2_is_at_the_length() {
    assert_eq!(model("02 00"), (2, 2));
    assert_eq!(model("02 00 80"), (2, 3));
    assert_eq!(model("01"), (2, 1));
    assert_eq!(formula("00 00 00"), (2, 3));
}

#[test]
fn refusal_3_is_at_the_number_s_first_byte() {
    assert_eq!(model("80 00"), (3, 0));
    assert_eq!(model("01 80 80 01"), (3, 1));
    assert_eq!(model("02 00 FF FF 01 00 00 00"), (3, 2));
}

#[test]
fn refusal_4_is_an_unlisted_kind() {
    assert_eq!(model("08"), (4, 0));
    assert_eq!(model("FF 7F"), (4, 0));
    assert_eq!(model("03 08"), (4, 1));
    assert_eq!(formula("06"), (4, 0));
    assert_eq!(formula("00 80 01"), (4, 1));
}

#[test]
fn refusal_5_is_met_by_no_bytes() {
    assert_eq!(model("03 00 FF 01 00"), (13, 0));
    assert_eq!(model("03 00 80 02 00"), (13, 0));
    assert_eq!(model("03 00 FF 7F 00"), (13, 0));
    assert_eq!(model("03 00 80 80 01 00"), (3, 2));
    assert_eq!(formula("00 00 FF 7F 00 FF 7F"), (13, 0));
    assert_eq!(formula("00 00 FF 7F 00 FE 7F"), (12, 0));
}

/// Names that differ in their second byte alone are two: as channels, in messages, in recipes.
#[test]
fn names_with_the_same_first_byte() {
    let output_on = |bytes: &str| format!("02 00 {bytes} 00 00 00");
    let output_step_on = |bytes: &str| format!("03 00 {bytes} 00 00 00 00 00");
    let output_of = |bytes: &str| format!("02 00 00 00 {bytes} 00");
    let is = |bytes: &str| format!("03 00 00 00 01 00 00 {bytes}");
    for (name, other) in [("80 01", "80 02"), ("80 02", "80 03"), ("FF 01", "FF 7F"), ("81 01", "81 02")] {
        assert_eq!(judge(&output_on(name), &output_on(other), &output_step_on(name), 9), answer(0, 0, 0, 3));
        assert_eq!(judge(&output_on(other), &output_on(name), &output_step_on(name), 9), answer(12, 0, 0, 3));
        assert_eq!(judge(&output_of(name), &output_of(other), &is(name), 9), answer(0, 0, 0, 4));
        assert_eq!(judge(&output_of(other), &output_of(name), &is(name), 9), answer(12, 0, 0, 4));
    }
}

#[test]
fn refusal_6_is_out_of_scope() {
    assert_eq!(model("03 01 00 00"), (6, 2));
    assert_eq!(model("01 03 01 00 00"), (13, 0));
    assert_eq!(model("06 01 00 03 01 00 00"), (6, 5));
    assert_eq!(model("05 01 00 00"), (6, 2));
    assert_eq!(formula("03 01 00 00 00 00 00 00"), (6, 2));
    assert_eq!(formula("03 00 00 00 01 00 01 00"), (12, 0));
    assert_eq!(formula("04 00 00 00 00 00 01 00 00 00"), (6, 7));
    assert_eq!(formula("02 03 00 00 00 01 00 01 00 00 01 00 00 00"), (6, 11));
}

#[test]
fn refusal_7_for_terms() {
    assert_eq!(model(&format!("03 {} 00 00 00", "03 ".repeat(7))), (13, 0));
    assert_eq!(model(&format!("03 {} 00 00 00", "03 ".repeat(8))), (7, 9));
    assert_eq!(model(&format!("03 {} 08 00 00", "03 ".repeat(8))), (4, 9));
    assert_eq!(formula(&format!("00 00 00 {} 00 00", "04 ".repeat(8))), (7, 11));
}

#[test]
fn refusal_7_for_processes() {
    assert_eq!(model(&format!("{} 00", "07 ".repeat(63))), (13, 0));
    assert_eq!(model(&format!("{} 00", "07 ".repeat(64))), (7, 64));
    assert_eq!(model(&format!("{} 00", "01 ".repeat(12))), (13, 0));
    assert_eq!(model(&format!("{} 01 00", "01 ".repeat(12))), (7, 12));
    assert_eq!(model(&format!("{} 03", "01 ".repeat(12))), (7, 12));
    assert_eq!(model(&format!("{} 05 FF FF", "01 ".repeat(12))), (7, 12));
    assert_eq!(model(&format!("{} 02 01 0B 01 0C 00", "01 ".repeat(12))), (6, 16));
}

#[test]
fn refusal_7_for_formulas() {
    assert_eq!(formula(&format!("{} {TRUE}", "01 01 ".repeat(23))), (13, 0));
    assert_eq!(formula(&format!("01 {} {TRUE}", "01 01 ".repeat(23))), (12, 0));
    assert_eq!(formula(&format!("{} {TRUE}", "01 01 ".repeat(24))), (7, 48));
    assert_eq!(formula(&format!("{} {TRUE}", "05 ".repeat(16))), (12, 0));
    assert_eq!(formula(&format!("{} {TRUE}", "05 ".repeat(17))), (7, 16));
    assert_eq!(formula(&format!("{} {TRUE}", "03 00 00 ".repeat(17))), (7, 48));
    assert_eq!(formula(&format!("02 {} {TRUE} {} {TRUE}", "05 ".repeat(16), "05 ".repeat(16))), (12, 0));
}

#[test]
fn sixteen_aliases_are_in_scope() {
    assert_eq!(formula(&format!("{} 00 01 0F 01 0F", "03 00 00 ".repeat(16))), (12, 0));
    assert_eq!(formula(&format!("{} 00 01 0F 01 10", "03 00 00 ".repeat(16))), (6, 52));
}

#[test]
fn refusal_8_is_at_the_first_byte_left() {
    assert_eq!(model("00 00"), (8, 1));
    assert_eq!(model("00 80"), (8, 1));
    assert_eq!(formula(&format!("{TRUE} FF")), (8, 5));
}

#[test]
fn refusal_9_comes_first() {
    let mut work = vec![7; 65_535];
    assert_eq!(verdict(&[8], &[], &[], &mut work, 0), answer(9, 0, 0, 0));
    assert_eq!(verdict(&[8], &[], &[], &mut [], 0), answer(9, 0, 0, 0));
    assert!(work.iter().all(|byte| *byte == 7));
}

#[test]
fn work_bytes_are_cleared_or_untouched() {
    let mut work = vec![7; 70_000];
    assert_eq!(verdict(&[0], &[0], &[8], &mut work, 0), answer(4, 3, 0, 0));
    assert!(work.iter().all(|byte| *byte == 7));
    for (budget, result) in [(0, 10), (2, 13)] {
        let mut work = vec![7; 70_000];
        assert_eq!(verdict(&[0], &[0], &hex(TRUE), &mut work, budget).result, result);
        assert!(work[..65_536].iter().all(|byte| *byte == 0));
        assert!(work[65_536..].iter().all(|byte| *byte == 7));
    }
}

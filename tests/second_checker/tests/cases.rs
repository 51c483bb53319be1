//! The cases judged by hand (document 01, "Judged by hand").

mod bytes;

use bytes::{answer, hex, judge, par_of};
use std::fs;
use std::path::Path;

const TRUE: &str = "00 00 00 00 00";
const OUTPUT: &str = "02 00 00 00 00 00";
const NO_OUTPUT: &str = "01 03 00 00 00 00 00 00 00";

#[test]
fn case_1_no_output_on_name_0() {
    assert_eq!(judge("00", OUTPUT, NO_OUTPUT, 1_000_000), answer(0, 0, 0, 5));
}

#[test]
fn case_2_changed_about() {
    assert_eq!(judge(OUTPUT, "00", NO_OUTPUT, 1_000_000), answer(12, 0, 0, 5));
}

#[test]
fn case_3_nil_twice() {
    assert_eq!(judge("00", "00", NO_OUTPUT, 1_000_000), answer(13, 0, 0, 4));
}

#[test]
fn case_4_budgets() {
    assert_eq!(judge("00", OUTPUT, NO_OUTPUT, 4), answer(10, 0, 0, 4));
    assert_eq!(judge("00", OUTPUT, NO_OUTPUT, 5), answer(0, 0, 0, 5));
    assert_eq!(judge("00", OUTPUT, NO_OUTPUT, 0), answer(10, 0, 0, 0));
    assert_eq!(judge("00", OUTPUT, NO_OUTPUT, u32::MAX), answer(0, 0, 0, 5));
}

#[test]
fn case_5_numbers() {
    assert_eq!(judge("02 00 FF 01 00 00 00", "00", TRUE, 9), answer(13, 0, 0, 2));
    assert_eq!(judge("02 00 80 02 00 00 00", "00", TRUE, 9), answer(13, 0, 0, 2));
    assert_eq!(judge("02 00 80 00 00 00 00", "00", TRUE, 9), answer(3, 1, 2, 0));
    assert_eq!(judge("", "00", TRUE, 9), answer(2, 1, 0, 0));
}

#[test]
fn case_6_wrong_key_and_enc_of_dec() {
    let wrong_key = "00 06 05 00 00 00 01 00 02 00 00";
    assert_eq!(judge("00", "00", wrong_key, 9), answer(12, 0, 0, 2));
    let enc_of_dec = "00 05 06 00 00 00 01 00 01 00 00";
    assert_eq!(judge("00", "00", enc_of_dec, 9), answer(13, 0, 0, 2));
}

#[test]
fn case_7_silent_steps_of_copies() {
    let public = "07 06 02 00 00 00 00 00 03 00 00 00";
    let private = "07 01 06 02 01 00 00 00 00 03 01 00 00";
    let silent = format!("05 {TRUE}");
    assert_eq!(judge(public, "00", &silent, 9), answer(0, 0, 0, 4));
    assert_eq!(judge(private, "00", &silent, 9), answer(0, 0, 0, 3));
}

#[test]
fn case_8_threads() {
    let outputs = |number| par_of(&vec![OUTPUT; number]);
    assert_eq!(judge(&outputs(32), "00", TRUE, 9), answer(13, 0, 0, 2));
    assert_eq!(judge(&outputs(33), "00", TRUE, 9), answer(11, 0, 0, 2));
}

#[test]
fn case_9_document_003() {
    assert_eq!(judge_folder("epassport"), answer(0, 0, 0, 175));
    assert_eq!(judge_folder("epassport_mended"), answer(13, 0, 0, 175));
}

fn judge_folder(name: &str) -> second_checker::verdict::Answer {
    let folder = Path::new(env!("CARGO_MANIFEST_DIR")).join("../../examples").join(name);
    let read = |file| fs::read(folder.join(file)).expect("the examples are in the repository");
    let mut work = vec![1; 65_536];
    second_checker::verdict::verdict(
        &read("first.bin"),
        &read("second.bin"),
        &read("formula.bin"),
        &mut work,
        1_000_000,
    )
}

#[test]
fn hex_reads_pairs() {
    assert_eq!(hex("00 fF\n10"), [0, 255, 16]);
}

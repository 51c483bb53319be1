//! The cases judged by hand (document 01, "Judged by hand"), through the library.

use comparison::library::verdict;
use second_checker::verdict::Answer;
use std::fs;
use std::path::Path;

const TRUE: &str = "00 00 00 00 00";
const OUTPUT: &str = "02 00 00 00 00 00";
const NO_OUTPUT: &str = "01 03 00 00 00 00 00 00 00";

fn hex(text: &str) -> Vec<u8> {
    text.split_whitespace().map(|pair| u8::from_str_radix(pair, 16).expect("two hexadecimal digits")).collect()
}

fn judge(first: &str, second: &str, formula: &str, budget: u32) -> [u32; 4] {
    numbers(verdict(&hex(first), &hex(second), &hex(formula), &mut vec![1; 65_536], budget))
}

fn numbers(answer: Answer) -> [u32; 4] {
    [answer.result, answer.slice, answer.place, answer.count]
}

#[test]
fn case_1_no_output_on_name_0() {
    assert_eq!(judge("00", OUTPUT, NO_OUTPUT, 1_000_000), [0, 0, 0, 5]);
}

#[test]
fn case_2_changed_about() {
    assert_eq!(judge(OUTPUT, "00", NO_OUTPUT, 1_000_000), [12, 0, 0, 5]);
}

#[test]
fn case_3_nil_twice() {
    assert_eq!(judge("00", "00", NO_OUTPUT, 1_000_000), [13, 0, 0, 4]);
}

#[test]
fn case_4_budgets() {
    assert_eq!(judge("00", OUTPUT, NO_OUTPUT, 4), [10, 0, 0, 4]);
    assert_eq!(judge("00", OUTPUT, NO_OUTPUT, 5), [0, 0, 0, 5]);
}

#[test]
fn case_5_numbers() {
    assert_eq!(judge("02 00 FF 01 00 00 00", "00", TRUE, 9), [13, 0, 0, 2]);
    assert_eq!(judge("02 00 80 02 00 00 00", "00", TRUE, 9), [13, 0, 0, 2]);
    assert_eq!(judge("02 00 80 00 00 00 00", "00", TRUE, 9), [3, 1, 2, 0]);
    assert_eq!(judge("", "00", TRUE, 9), [2, 1, 0, 0]);
}

#[test]
fn case_6_wrong_key_and_enc_of_dec() {
    assert_eq!(judge("00", "00", "00 06 05 00 00 00 01 00 02 00 00", 9), [12, 0, 0, 2]);
    assert_eq!(judge("00", "00", "00 05 06 00 00 00 01 00 01 00 00", 9), [13, 0, 0, 2]);
}

#[test]
fn case_7_silent_steps_of_copies() {
    let silent = format!("05 {TRUE}");
    assert_eq!(judge("07 06 02 00 00 00 00 00 03 00 00 00", "00", &silent, 9), [0, 0, 0, 4]);
    assert_eq!(judge("07 01 06 02 01 00 00 00 00 03 01 00 00", "00", &silent, 9), [0, 0, 0, 3]);
}

#[test]
fn case_8_threads() {
    let outputs = |number: usize| format!("{}{}", "06 ".repeat(number - 1), format!("{OUTPUT} ").repeat(number));
    assert_eq!(judge(&outputs(32), "00", TRUE, 9), [13, 0, 0, 2]);
    assert_eq!(judge(&outputs(33), "00", TRUE, 9), [11, 0, 0, 2]);
}

#[test]
fn case_9_document_003() {
    assert_eq!(judge_folder("epassport"), [0, 0, 0, 175]);
    assert_eq!(judge_folder("epassport_mended"), [13, 0, 0, 175]);
}

fn judge_folder(name: &str) -> [u32; 4] {
    let folder = Path::new(env!("CARGO_MANIFEST_DIR")).join("../../examples").join(name);
    let read = |file| fs::read(folder.join(file)).expect("the examples are in the repository");
    let (first, second, formula) = (read("first.bin"), read("second.bin"), read("formula.bin"));
    numbers(verdict(&first, &second, &formula, &mut vec![1; 65_536], 1_000_000))
}

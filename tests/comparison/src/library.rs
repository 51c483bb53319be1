//! The library's verdict, as an answer of the second checker.

use second_checker::verdict::Answer;

pub fn verdict(first: &[u8], second: &[u8], formula: &[u8], work: &mut [u8], budget: u32) -> Answer {
    let [result, slice, place, count] = ::library::verdict(first, second, formula, work, budget).numbers();
    Answer { result, slice, place, count }
}

//! The `answer` line of a finding, compared with the answer it got. The line is meant for the budget that holds where none
//! is given, so what the answer under that budget is has to be known first.

use crate::arguments::BUDGET;
use library::Answer;

/// What is to be said of an `answer` line.
#[derive(Clone, Debug, PartialEq, Eq)]
pub enum Comparison {
    /// There is no line, or it is as it should be.
    Fine,
    /// The answer under the line's budget is not known; the note says so.
    Unknown(String),
    /// The line gives other numbers; the message says which.
    Differs(String),
}

/// The answer under the budget of the line, where the answer under another one tells it.
pub fn under_its_budget(answer: Answer, budget: u32) -> Option<Answer> {
    let over = Answer { result: 10, slice: 0, place: 0, count: BUDGET };
    match answer.result {
        10 if budget < BUDGET => None,
        10 => Some(over),
        0 | 11..=13 if answer.count > BUDGET => Some(over),
        _ => Some(answer),
    }
}

/// Compares a line with the answer that the finding got within a budget. `text` is the name of the finding's text.
pub fn compare(text: &str, line: Option<[u32; 4]>, answer: Answer, budget: u32) -> Comparison {
    let Some(line) = line else { return Comparison::Fine };
    let [result, slice, place, count] = line;
    let said = Answer { result, slice, place, count };
    match under_its_budget(answer, budget) {
        None => Comparison::Unknown(unknown(text, said, budget)),
        Some(known) if known == said => Comparison::Fine,
        Some(known) => Comparison::Differs(differs(text, said, known, budget)),
    }
}

fn unknown(text: &str, said: Answer, budget: u32) -> String {
    format!("{text} says answer {said}, for a budget of {BUDGET}; with a budget of {budget} it is not compared")
}

fn differs(text: &str, said: Answer, known: Answer, budget: u32) -> String {
    let under =
        if budget == BUDGET { String::new() } else { format!(" with a budget of {BUDGET}, for which it is meant") };
    format!("{text} says answer {said}, but the answer is {known}{under}")
}

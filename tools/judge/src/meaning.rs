//! What the four numbers of an answer mean, in a sentence and in a few words.

use crate::refusals::{self, slice};
use library::Answer;
use notation::folder::Loaded;

/// The results that there are.
pub const RESULTS: std::ops::RangeInclusive<u32> = 0..=13;

/// The sentence under the numbers. Hints say what can be done next.
pub fn sentence(answer: Answer, loaded: &Loaded, hints: bool) -> String {
    let meaning = meaning(answer, loaded);
    match hint(answer) {
        Some(hint) if hints => format!("{meaning} {hint}"),
        _ => meaning,
    }
}

fn meaning(answer: Answer, loaded: &Loaded) -> String {
    let Answer { result, place, count, .. } = answer;
    match result {
        0 => {
            "Accepted: the formula is true of the first model and false of the second, so no strong early bisimulation \
              relates the two, and an onlooker can tell them apart."
                .to_string()
        }
        1..=8 => {
            let told = refusals::told(loaded, answer);
            format!("Refused by rule {result}, at byte {place} of {}: {told}.", slice(answer))
        }
        9 => "Refused by rule 9: the work buffer is too short.".to_string(),
        10 => format!("Not settled: judging takes more visits than the budget of {count}."),
        11 => {
            "Not settled: a visit met a limit, too many threads, private names or nodes for one state, or too large a \
               message."
                .to_string()
        }
        12 => "Not accepted: the formula is false of the first model.".to_string(),
        _ => "Not accepted: the formula is true of both models, so it does not tell them apart.".to_string(),
    }
}

fn hint(answer: Answer) -> Option<String> {
    match (answer.result, answer.count) {
        (10, u32::MAX) => Some("There is no larger budget.".to_string()),
        (10, _) => Some(format!(
            "A larger budget, --budget N with N up to {}, may settle it; judge --why FOLDER looks for the count that it takes.",
            u32::MAX
        )),
        (11..=13, _) => Some("judge --why FOLDER says why.".to_string()),
        _ => None,
    }
}

/// The words behind the numbers, where each folder has one line.
pub fn words(answer: Answer) -> String {
    match answer.result {
        0 => "accepted".to_string(),
        1..=8 => format!("refused by rule {}, at byte {} of {}", answer.result, answer.place, slice(answer)),
        9 => "refused by rule 9".to_string(),
        10 => "not settled, over the budget".to_string(),
        11 => "not settled, a limit was met".to_string(),
        12 => "not accepted, false of the first model".to_string(),
        _ => "not accepted, true of both models".to_string(),
    }
}

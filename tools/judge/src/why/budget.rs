//! The count that a finding takes whose budget was too small: found by the library itself, with the largest budget.

use crate::judging::verdict;
use crate::meaning::words;
use crate::timed::Stopped;
use std::path::Path;
use std::time::Duration;

/// How long the count is looked for.
const PATIENCE: Duration = Duration::from_secs(20);

pub fn needed(folder: &Path, slices: &[Vec<u8>; 3], budget: u32) -> Vec<String> {
    if budget == u32::MAX {
        return vec![String::new(), "No budget is larger.".to_string()];
    }
    vec![
        String::new(),
        match verdict(folder, slices, u32::MAX, Some(PATIENCE)) {
            Ok(answer) if answer.result == 10 => {
                format!("By the library's count it takes more than {} visits: no budget is enough.", u32::MAX)
            }
            Ok(answer) => {
                let count = answer.count;
                let words = words(answer);
                format!("By the library's count it takes {count} visits. With --budget {count} the answer is {answer}, {words}.")
            }
            Err(Stopped::Late(patience)) => {
                format!("How many visits it takes was not found within {} s.", patience.as_secs())
            }
            Err(stopped) => format!("How many visits it takes was not found: {stopped}."),
        },
    ]
}

//! The verdict on a finding: the four numbers and the work bytes (document 01, "Turned back for the input" and "Turned
//! back for the state").

use crate::judging::{Judging, Spent};
use crate::reading::{self, Refusal};
use crate::syntax::{Formula, Process};

pub const WORK_LENGTH: usize = 65_536;

/// The four numbers of an answer.
#[derive(Clone, Copy, Debug, PartialEq, Eq)]
pub struct Answer {
    pub result: u32,
    pub slice: u32,
    pub place: u32,
    pub count: u32,
}

/// Judges a finding. The work bytes are touched only once the three slices are well-formed; then the first 65,536 end
/// as 0, and later ones stay.
pub fn verdict(first: &[u8], second: &[u8], formula: &[u8], work: &mut [u8], budget: u32) -> Answer {
    if work.len() < WORK_LENGTH {
        return Answer { result: 9, slice: 0, place: 0, count: 0 };
    }
    match read(first, second, formula) {
        Ok((first, second, formula)) => {
            work[..WORK_LENGTH].fill(0);
            judged(&first, &second, &formula, budget)
        }
        Err((slice, refusal)) => Answer { result: refusal.rule, slice, place: refusal.place as u32, count: 0 },
    }
}

/// Reads the slices in turn; an error names the first that is refused.
fn read(first: &[u8], second: &[u8], formula: &[u8]) -> Result<(Process, Process, Formula), (u32, Refusal)> {
    let first = reading::process(first).map_err(|refusal| (1, refusal))?;
    let second = reading::process(second).map_err(|refusal| (2, refusal))?;
    let formula = reading::formula(formula).map_err(|refusal| (3, refusal))?;
    Ok((first, second, formula))
}

/// Judges both models, whatever the first one gives, and answers 10 before 11 before the rest.
fn judged(first: &Process, second: &Process, formula: &Formula, budget: u32) -> Answer {
    let mut judging = Judging::new(budget);
    let result = match both(&mut judging, first, second, formula) {
        Err(Spent) => 10,
        Ok(_) if judging.met_limit => 11,
        Ok((false, _)) => 12,
        Ok((true, true)) => 13,
        Ok((true, false)) => 0,
    };
    Answer { result, slice: 0, place: 0, count: judging.count }
}

fn both(judging: &mut Judging, first: &Process, second: &Process, formula: &Formula) -> Result<(bool, bool), Spent> {
    let of_first = judging.model(formula, first)?;
    let of_second = judging.model(formula, second)?;
    Ok((of_first, of_second))
}

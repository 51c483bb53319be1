//! The judging of one folder, by the library.

use crate::meaning::RESULTS;
use crate::timed::{self, Stopped};
use library::{Answer, WORK_BYTES};
use notation::folder::{self, Loaded};
use std::path::Path;
use std::time::Duration;

/// A finding and its answer.
pub struct Judged {
    pub loaded: Loaded,
    pub answer: Answer,
}

/// Judges the finding in a folder, or says why there is no answer, each reason a line. `mend` is the command that writes
/// the files of bytes anew.
pub fn judge(folder: &Path, budget: u32, mend: &str) -> Result<Judged, Vec<String>> {
    let loaded = folder::load(folder, mend)?;
    match verdict(folder, &loaded.slices, budget, None) {
        Ok(answer) => Ok(Judged { loaded, answer }),
        Err(reason) => Err(vec![format!("{}: {reason}", folder.display())]),
    }
}

/// The library's verdict, in so much time if that is given.
pub fn verdict(
    folder: &Path,
    slices: &[Vec<u8>; 3],
    budget: u32,
    patience: Option<Duration>,
) -> Result<Answer, Stopped> {
    let [first, second, formula] = slices.clone();
    let call = move || library::verdict(&first, &second, &formula, &mut vec![0; WORK_BYTES], budget);
    let answer = timed::run(folder, patience, call)?;
    match RESULTS.contains(&answer.result) {
        true => Ok(answer),
        false => Err(Stopped::Failed(format!("the library answers {answer}, and there is no such answer"))),
    }
}

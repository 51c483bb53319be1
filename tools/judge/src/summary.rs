//! What came of all folders of a call: the last line, and the exit status.

use std::fmt;

/// What came of one folder.
#[derive(Clone, Copy, Debug, PartialEq, Eq)]
pub enum Outcome {
    Accepted,
    /// Refused, not settled or not accepted.
    Other,
    /// There is no answer.
    Without,
}

#[derive(Clone, Copy, Debug, Default, PartialEq, Eq)]
pub struct Summary {
    accepted: usize,
    other: usize,
    without: usize,
    /// Findings whose `answer` line gives other numbers.
    misstated: usize,
}

impl Summary {
    pub fn add(&mut self, outcome: Outcome, misstated: bool) {
        match outcome {
            Outcome::Accepted => self.accepted += 1,
            Outcome::Other => self.other += 1,
            Outcome::Without => self.without += 1,
        }
        self.misstated += usize::from(misstated);
    }

    /// The exit status of the program.
    pub fn status(&self) -> u8 {
        match self {
            Summary { without: 1.., .. } => 2,
            Summary { other: 0, misstated: 0, .. } => 0,
            _ => 1,
        }
    }
}

impl fmt::Display for Summary {
    fn fmt(&self, f: &mut fmt::Formatter<'_>) -> fmt::Result {
        let Summary { accepted, other, without, misstated } = self;
        let all = accepted + other + without;
        write!(f, "{all} findings: {accepted} accepted, {other} not accepted, {without} without an answer")?;
        match misstated {
            0 => Ok(()),
            _ => write!(f, "; {misstated} with another answer than finding.txt says"),
        }
    }
}

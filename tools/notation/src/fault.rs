//! What is wrong with a text, and where.

use std::fmt;
use std::sync::Arc;

/// A line and a column, both counted from 1.
#[derive(Clone, Copy, Debug, PartialEq, Eq, PartialOrd, Ord)]
pub struct Place {
    pub line: usize,
    pub column: usize,
}

/// An abbreviation in whose text something stands, and where it is used.
#[derive(Debug, PartialEq, Eq)]
pub struct Use {
    pub word: String,
    pub place: Place,
    pub outer: Within,
}

/// The abbreviations around a place, the innermost first.
pub type Within = Option<Arc<Use>>;

#[derive(Clone, Copy, Debug, PartialEq, Eq)]
pub enum Cause {
    /// It is not written as the grammar has it.
    Syntax,
    /// A word or a number stands for nothing, for two things, or for something else.
    Scope,
    /// The bytes would break the rule of this number (document 01, "Turned back for the input").
    Rule(u32),
    /// It is allowed, but hardly meant.
    Doubt,
}

#[derive(Clone, Debug, PartialEq, Eq)]
pub struct Fault {
    pub place: Place,
    pub cause: Cause,
    pub message: String,
    pub within: Within,
}

impl fmt::Display for Place {
    fn fmt(&self, f: &mut fmt::Formatter<'_>) -> fmt::Result {
        write!(f, "line {}, column {}", self.line, self.column)
    }
}

impl fmt::Display for Fault {
    fn fmt(&self, f: &mut fmt::Formatter<'_>) -> fmt::Result {
        write!(f, "{}: {}", self.place, self.message)?;
        for (index, used) in uses(&self.within).enumerate() {
            match index {
                0..MOST_USES => write!(f, " (in `{}`, used at {})", used.word, used.place)?,
                _ => return write!(f, " .."),
            }
        }
        Ok(())
    }
}

/// Of abbreviations in abbreviations, so many are told.
const MOST_USES: usize = 3;

/// The uses of abbreviations around a place, the innermost first.
pub fn uses(within: &Within) -> impl Iterator<Item = &Use> {
    std::iter::successors(within.as_deref(), |used| used.outer.as_deref())
}

/// The faults in the order of their places. Of those of syntax at one place the first is told, and none twice.
pub fn in_order(mut faults: Vec<Fault>) -> Vec<Fault> {
    faults.sort_by_key(|fault| fault.place);
    let mut told: Vec<Fault> = Vec::new();
    for fault in faults {
        let same = |other: &Fault| {
            other.message == fault.message || (other.cause, fault.cause) == (Cause::Syntax, Cause::Syntax)
        };
        let mut here = told.iter().rev().take_while(|other| other.place == fault.place);
        if !here.any(same) {
            told.push(fault);
        }
    }
    told
}

//! From bytes to trees, or the rule that is broken first (document 01, "Bytes" and "Turned back for the input").

mod formulas;
mod processes;
mod terms;

use crate::rules::{in_words, LONGEST};
use crate::syntax::{Formula, Process};
use std::fmt;

/// The number of the rule that a slice breaks, the place that document 01 gives for it, and which limit it is of rule 7's.
#[derive(Clone, Copy, Debug, PartialEq, Eq)]
pub struct Refusal {
    pub rule: u32,
    pub place: usize,
    pub limit: Option<&'static str>,
}

impl Refusal {
    fn new(rule: u32, place: usize) -> Refusal {
        Refusal { rule, place, limit: None }
    }

    /// What is wrong with the slice.
    pub fn in_words(&self) -> String {
        let limit = self.limit.map_or(String::new(), |limit| format!(": {limit}"));
        format!("{}{limit}", in_words(self.rule))
    }
}

impl fmt::Display for Refusal {
    fn fmt(&self, f: &mut fmt::Formatter<'_>) -> fmt::Result {
        write!(f, "refused by rule {}, at byte {}: {}", self.rule, self.place, self.in_words())
    }
}

type Decoded<T> = Result<T, Refusal>;

/// The model that a slice is.
pub fn process(slice: &[u8]) -> Decoded<Process> {
    whole(slice, processes::model)
}

/// The formula that a slice is.
pub fn formula(slice: &[u8]) -> Decoded<Formula> {
    whole(slice, formulas::outermost)
}

fn whole<T>(slice: &[u8], decode: fn(&mut Bytes) -> Decoded<T>) -> Decoded<T> {
    if slice.len() > LONGEST {
        return Err(Refusal::new(1, LONGEST));
    }
    let mut bytes = Bytes { slice, at: 0 };
    let tree = decode(&mut bytes)?;
    if bytes.at < slice.len() {
        return Err(Refusal::new(8, bytes.at));
    }
    Ok(tree)
}

/// A slice that is decoded up to `at`.
struct Bytes<'s> {
    slice: &'s [u8],
    at: usize,
}

/// A number, and the place of its first byte.
#[derive(Clone, Copy)]
struct Number {
    value: u16,
    place: usize,
}

impl Number {
    /// This number, unless it breaks the rule.
    fn unless(self, broken: bool, rule: u32) -> Decoded<Number> {
        if broken {
            Err(Refusal::new(rule, self.place))
        } else {
            Ok(self)
        }
    }

    /// This kind, unless it is one node, step or variable too many for the limit of rule 7.
    fn within(self, is_over: bool, limit: &'static str) -> Decoded<Number> {
        self.unless(is_over, 7).map_err(|refusal| Refusal { limit: Some(limit), ..refusal })
    }
}

impl Bytes<'_> {
    fn byte(&mut self) -> Decoded<u16> {
        let end = Refusal::new(2, self.slice.len());
        let byte = self.slice.get(self.at).ok_or(end)?;
        self.at += 1;
        Ok(u16::from(*byte))
    }

    fn number(&mut self) -> Decoded<Number> {
        let place = self.at;
        let first = self.byte()?;
        if first < 128 {
            return Ok(Number { value: first, place });
        }
        let second = self.byte()?;
        let number = Number { value: first % 128 + 128 * second, place };
        number.unless(second == 0 || second > 127, 3)
    }

    /// A kind, of which so many are listed, from 0.
    fn kind(&mut self, listed: u16) -> Decoded<Number> {
        let kind = self.number()?;
        kind.unless(kind.value >= listed, 4)
    }
}

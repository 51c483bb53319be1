//! Well-formed slices of an exact length: what is added does nothing.

use super::formulas::and;
use super::models::{par, repl, test};
use super::terms::written_in;
use crate::encoding;
use second_checker::syntax::{Formula, Process, Term};

/// A model written with exactly `length` bytes, where it is short enough: the rest stands in a branch never taken.
pub fn model(model: Process, length: usize) -> Process {
    let written = encoding::process(&model).len() + 5;
    if written >= length {
        return model;
    }
    test(Term::Name(0), Term::Name(0), model, filler(length - written))
}

/// A process of exactly so many bytes.
fn filler(bytes: usize) -> Process {
    match bytes {
        0 | 1 => Process::Nil,
        2 => repl(Process::Nil),
        _ => {
            let left = (bytes - 1) / 2;
            par(filler(left), filler(bytes - 1 - left))
        }
    }
}

/// A formula written with exactly `length` bytes, where it is short enough: the rest stands beside it.
pub fn formula(formula: Formula, length: usize) -> Formula {
    let written = encoding::formula(&formula).len() + 1;
    if written + 5 > length {
        return formula;
    }
    and(formula, beside(length - written))
}

/// A conjunction of equalities of exactly so many bytes, at least 5.
fn beside(bytes: usize) -> Formula {
    if bytes < 200 {
        let left = (bytes - 1) / 2;
        return Formula::Equal(written_in(left), written_in(bytes - 1 - left));
    }
    let left = (bytes - 1) / 2;
    and(beside(left), beside(bytes - 1 - left))
}

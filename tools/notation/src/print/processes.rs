//! Processes, on one line where that fits.

use super::terms::term;
use super::Margin;
use crate::syntax::Process;

/// A process on one line.
pub fn process(process: &Process) -> String {
    flat(process, 0)
}

/// A process whose first line starts at column `indent`.
pub(super) fn indented(process: &Process, indent: usize) -> String {
    broken(process, 0, Margin::new(indent))
}

/// `bound` is the number of variables in scope.
fn flat(process: &Process, bound: usize) -> String {
    match process {
        Process::Par(left, right) => format!("{} | {}", flat_part(left, bound), flat(right, bound)),
        Process::If { left, right, then, otherwise } => {
            let (then, otherwise) = (flat_part(then, bound), flat_part(otherwise, bound));
            format!("if {} = {} then {then} else {otherwise}", term(left), term(right))
        }
        _ => match prefix(process, bound) {
            Some((head, rest, bound)) => join(&head, " ", rest, &flat_part(rest, bound)),
            None => "nil".to_string(),
        },
    }
}

/// The same where only a sequence can stand.
fn flat_part(process: &Process, bound: usize) -> String {
    let text = flat(process, bound);
    if matches!(process, Process::Par(..)) {
        format!("({text})")
    } else {
        text
    }
}

fn broken(process: &Process, bound: usize, margin: Margin) -> String {
    let text = flat(process, bound);
    if margin.fits(&text) {
        return text;
    }
    match process {
        Process::Par(left, right) => {
            let (left, right) = (broken_part(left, bound, margin), broken(right, bound, margin.deeper()));
            format!("{left}{}| {right}", margin.newline())
        }
        Process::If { left, right, then, otherwise } => {
            let deeper = margin.deeper();
            let branch = |part| format!("{}{}", deeper.newline(), broken_part(part, bound, deeper));
            let (then, otherwise) = (branch(then), branch(otherwise));
            format!("if {} = {} then{then}{}else{otherwise}", term(left), term(right), margin.newline())
        }
        _ => match prefix(process, bound) {
            Some((head, rest, bound)) => broken_after(&head, rest, bound, margin),
            None => text,
        },
    }
}

/// An `if` that does not fit in the line starts a new one.
fn broken_after(head: &str, rest: &Process, bound: usize, margin: Margin) -> String {
    let (mut between, mut after) = margin.after(head);
    if matches!(rest, Process::If { .. }) && !after.fits(&flat(rest, bound)) {
        (between, after) = (margin.newline(), Margin::new(margin.indent));
    }
    join(head, &between, rest, &broken_part(rest, bound, after))
}

fn broken_part(process: &Process, bound: usize, margin: Margin) -> String {
    if matches!(process, Process::Par(..)) {
        let deeper = margin.deeper();
        format!("({}{}{})", deeper.newline(), broken(process, bound, deeper), margin.newline())
    } else {
        broken(process, bound, margin)
    }
}

/// What stands before the rest of a sequence, that rest, and the number of variables in scope there.
fn prefix(process: &Process, bound: usize) -> Option<(String, &Process, usize)> {
    match process {
        Process::New(then) => Some((format!("new {}.", word(then, bound)), then, bound + 1)),
        Process::Output { channel, message, then } => {
            Some((format!("out({}, {})", term(channel), term(message)), then, bound))
        }
        Process::Input { channel, then } => {
            Some((format!("in({}, {})", term(channel), word(then, bound)), then, bound + 1))
        }
        Process::Let { value, then } => {
            Some((format!("let {} = {} in", word(then, bound), term(value)), then, bound + 1))
        }
        Process::Repl(copy) => Some(("repl".to_string(), copy, bound)),
        Process::Nil | Process::If { .. } | Process::Par(..) => None,
    }
}

/// The word for the variable of this number, which is bound in `then`.
fn word(then: &Process, index: usize) -> String {
    if then.has_variable(index) {
        format!("v{index}")
    } else {
        "_".to_string()
    }
}

/// Head and rest; after an output or input a nil is left off, and anything else follows a dot.
fn join(head: &str, between: &str, rest: &Process, text: &str) -> String {
    match (head.ends_with(')'), rest) {
        (true, Process::Nil) => head.to_string(),
        (true, _) => format!("{head}.{between}{text}"),
        (false, _) => format!("{head}{between}{text}"),
    }
}

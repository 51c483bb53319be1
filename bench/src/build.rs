//! Short names for the trees of which the benchmark's findings are made.

use second_checker::syntax::{Formula, Process, Term};

pub fn name(n: u16) -> Term {
    Term::Name(n)
}

pub fn variable(k: usize) -> Term {
    Term::Variable(k)
}

pub fn pair(left: Term, right: Term) -> Term {
    Term::Pair(Box::new(left), Box::new(right))
}

pub fn fst(pair: Term) -> Term {
    Term::Fst(Box::new(pair))
}

/// A message of 2^(depth + 1) - 1 nodes.
pub fn tree(depth: u32) -> Term {
    if depth == 0 {
        return name(7);
    }
    pair(tree(depth - 1), tree(depth - 1))
}

pub fn nil() -> Process {
    Process::Nil
}

pub fn new(then: Process) -> Process {
    Process::New(Box::new(then))
}

pub fn output(channel: Term, message: Term, then: Process) -> Process {
    Process::Output { channel, message, then: Box::new(then) }
}

pub fn input(channel: Term, then: Process) -> Process {
    Process::Input { channel, then: Box::new(then) }
}

pub fn bind(value: Term, then: Process) -> Process {
    Process::Let { value, then: Box::new(then) }
}

pub fn repl(body: Process) -> Process {
    Process::Repl(Box::new(body))
}

pub fn par(left: Process, right: Process) -> Process {
    Process::Par(Box::new(left), Box::new(right))
}

/// All of them in parallel, in order.
pub fn all(processes: Vec<Process>) -> Process {
    processes.into_iter().rev().reduce(|right, left| par(left, right)).unwrap_or(Process::Nil)
}

/// The same, nested as a balanced tree.
pub fn balanced(mut parts: Vec<Process>) -> Process {
    match parts.len() {
        0 => nil(),
        1 => parts.remove(0),
        n => {
            let right = parts.split_off(n / 2);
            par(balanced(parts), balanced(right))
        }
    }
}

pub fn equal(left: Term, right: Term) -> Formula {
    Formula::Equal(left, right)
}

pub fn yes() -> Formula {
    equal(name(0), name(0))
}

pub fn not(body: Formula) -> Formula {
    Formula::Not(Box::new(body))
}

pub fn and(left: Formula, right: Formula) -> Formula {
    Formula::And(Box::new(left), Box::new(right))
}

pub fn sends(channel: u16, body: Formula) -> Formula {
    Formula::OutputStep { channel: name(channel), body: Box::new(body) }
}

pub fn takes(channel: u16, message: u16, body: Formula) -> Formula {
    Formula::InputStep { channel: name(channel), message: name(message), body: Box::new(body) }
}

pub fn silent(body: Formula) -> Formula {
    Formula::SilentStep(Box::new(body))
}

/// The same step so many times around a body.
pub fn times(count: usize, step: impl Fn(Formula) -> Formula, body: Formula) -> Formula {
    (0..count).fold(body, |inner, _| step(inner))
}

//! Small changes to a model: the second model of a finding is often the first with one of them.

use super::models::{binding, input, new, output, par, repl, test};
use super::terms::{leaf, term};
use crate::random::Random;
use second_checker::syntax::{Process, Term};

/// A model changed at a random node.
pub fn mutated(random: &mut Random, model: &Process) -> Process {
    let target = random.below(nodes(model));
    Mutation { random, left: target }.at(model, 0)
}

/// The number of process nodes.
pub fn nodes(process: &Process) -> usize {
    1 + match process {
        Process::Nil => 0,
        Process::New(p) | Process::Repl(p) => nodes(p),
        Process::Output { then, .. } | Process::Input { then, .. } | Process::Let { then, .. } => nodes(then),
        Process::If { then, otherwise, .. } => nodes(then) + nodes(otherwise),
        Process::Par(left, right) => nodes(left) + nodes(right),
    }
}

/// Copies a process in prefix order; `left` nodes come before the one that is changed.
struct Mutation<'r> {
    random: &'r mut Random,
    left: usize,
}

impl Mutation<'_> {
    fn at(&mut self, process: &Process, in_scope: usize) -> Process {
        if self.left == 0 {
            self.left = usize::MAX;
            return self.changed(process, in_scope);
        }
        self.left -= 1;
        match process {
            Process::Nil => Process::Nil,
            Process::New(then) => new(self.at(then, in_scope + 1)),
            Process::Output { channel, message, then } => {
                output(channel.clone(), message.clone(), self.at(then, in_scope))
            }
            Process::Input { channel, then } => input(channel.clone(), self.at(then, in_scope + 1)),
            Process::If { left, right, then, otherwise } => {
                let then = self.at(then, in_scope);
                test(left.clone(), right.clone(), then, self.at(otherwise, in_scope))
            }
            Process::Let { value, then } => binding(value.clone(), self.at(then, in_scope + 1)),
            Process::Par(left, right) => {
                let left = self.at(left, in_scope);
                par(left, self.at(right, in_scope))
            }
            Process::Repl(body) => repl(self.at(body, in_scope)),
        }
    }

    /// A node changed in a way of its kind, or in one that fits all kinds.
    fn changed(&mut self, process: &Process, in_scope: usize) -> Process {
        if self.random.chance(25) {
            return self.around(process, in_scope);
        }
        match process {
            Process::Output { channel, message, then } if self.random.chance(30) => {
                output(self.other(channel, in_scope), message.clone(), (**then).clone())
            }
            Process::Output { channel, message, then } => {
                output(channel.clone(), self.other(message, in_scope), (**then).clone())
            }
            Process::Input { channel, then } => input(self.other(channel, in_scope), (**then).clone()),
            Process::If { left, right, then, otherwise } if self.random.chance(50) => {
                test(left.clone(), right.clone(), (**otherwise).clone(), (**then).clone())
            }
            Process::If { left, right, then, otherwise } => {
                test(self.other(left, in_scope), right.clone(), (**then).clone(), (**otherwise).clone())
            }
            Process::Let { value, then } => binding(self.other(value, in_scope), (**then).clone()),
            Process::New(then) => binding(leaf(self.random, in_scope), (**then).clone()),
            Process::Par(left, right) => par((**right).clone(), (**left).clone()),
            Process::Repl(body) => (**body).clone(),
            Process::Nil => self.around(process, in_scope),
        }
    }

    fn around(&mut self, process: &Process, in_scope: usize) -> Process {
        let process = process.clone();
        match self.random.below(4) {
            0 => Process::Nil,
            1 => repl(process),
            2 => output(leaf(self.random, in_scope), term(self.random, in_scope, 3), process),
            _ => par(output(leaf(self.random, in_scope), leaf(self.random, in_scope), Process::Nil), process),
        }
    }

    /// Another term, near to the one given.
    fn other(&mut self, given: &Term, in_scope: usize) -> Term {
        match given {
            Term::Pair(m, n) if self.random.chance(60) => Term::Pair(n.clone(), m.clone()),
            Term::Fst(m) if self.random.chance(60) => Term::Snd(m.clone()),
            Term::Snd(m) if self.random.chance(60) => (**m).clone(),
            Term::Enc(m, _) if self.random.chance(60) => Term::Enc(m.clone(), Box::new(leaf(self.random, in_scope))),
            Term::Dec(m, _) if self.random.chance(60) => Term::Dec(m.clone(), Box::new(leaf(self.random, in_scope))),
            _ => term(self.random, in_scope, 3),
        }
    }
}

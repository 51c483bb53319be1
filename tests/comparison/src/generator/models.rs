//! Random models: few channels, so that threads meet; tests on what was received; private names; nested replication.

use super::terms::{dec, enc, fst, leaf, mac, name, pair, snd, term};
use crate::random::Random;
use second_checker::syntax::{Process, Term};

pub fn output(channel: Term, message: Term, then: Process) -> Process {
    Process::Output { channel, message, then: Box::new(then) }
}

pub fn input(channel: Term, then: Process) -> Process {
    Process::Input { channel, then: Box::new(then) }
}

pub fn new(then: Process) -> Process {
    Process::New(Box::new(then))
}

pub fn repl(body: Process) -> Process {
    Process::Repl(Box::new(body))
}

pub fn par(left: Process, right: Process) -> Process {
    Process::Par(Box::new(left), Box::new(right))
}

pub fn binding(value: Term, then: Process) -> Process {
    Process::Let { value, then: Box::new(then) }
}

pub fn test(left: Term, right: Term, then: Process, otherwise: Process) -> Process {
    Process::If { left, right, then: Box::new(then), otherwise: Box::new(otherwise) }
}

/// Processes side by side, in order, nested evenly.
pub fn par_of(mut processes: Vec<Process>) -> Process {
    match processes.len() {
        0 => Process::Nil,
        1 => processes.remove(0),
        length => {
            let right = processes.split_off(length / 2);
            par(par_of(processes), par_of(right))
        }
    }
}

/// A model of about so many prefixes.
pub fn model(random: &mut Random, prefixes: usize) -> Process {
    process(random, 0, prefixes, 2)
}

/// A process with so many variables in scope, of about so many prefixes, with at most so many repl on a path.
fn process(random: &mut Random, in_scope: usize, prefixes: usize, repls: usize) -> Process {
    if prefixes == 0 {
        return Process::Nil;
    }
    let binds = usize::from(in_scope < 12);
    let weights = [8, 6 * binds, 4 * binds, 2 * binds, 4, 5, 3 * repls.min(1), 2 * binds];
    match random.weighted(&weights) {
        0 => {
            let channel = channel(random, in_scope);
            output(channel, term(random, in_scope, 4), process(random, in_scope, prefixes - 1, repls))
        }
        1 => input(channel(random, in_scope), process(random, in_scope + 1, prefixes - 1, repls)),
        2 => new(process(random, in_scope + 1, prefixes, repls)),
        3 => binding(term(random, in_scope, 4), process(random, in_scope + 1, prefixes, repls)),
        4 => choice(random, in_scope, prefixes, repls),
        5 => {
            let left = random.below(prefixes + 1);
            par(process(random, in_scope, left, repls), process(random, in_scope, prefixes - left, repls))
        }
        6 => repl(process(random, in_scope, prefixes, repls - 1)),
        _ => meeting(random, in_scope, prefixes, repls),
    }
}

/// A private channel with an output and an input on it, any number of them at times.
fn meeting(random: &mut Random, in_scope: usize, prefixes: usize, repls: usize) -> Process {
    let channel = || Term::Variable(in_scope);
    let left = random.below(prefixes);
    let sending = process(random, in_scope + 1, left, repls / 2);
    let sending = output(channel(), term(random, in_scope + 1, 3), sending);
    let receiving = if in_scope < 11 {
        input(channel(), process(random, in_scope + 2, prefixes - 1 - left, repls / 2))
    } else {
        Process::Nil
    };
    let sides = if random.chance(50) { par(sending, receiving) } else { par(receiving, sending) };
    let sides = if random.chance(20 * repls) { repl(sides) } else { sides };
    new(sides)
}

fn channel(random: &mut Random, in_scope: usize) -> Term {
    match random.weighted(&[12, 6, 1]) {
        0 => name(random),
        1 => leaf(random, in_scope),
        _ => term(random, in_scope, 3),
    }
}

/// A test whose both sides go on.
fn choice(random: &mut Random, in_scope: usize, prefixes: usize, repls: usize) -> Process {
    let (left, right) = condition(random, in_scope);
    let then = process(random, in_scope, prefixes - 1, repls);
    let otherwise = if random.chance(50) {
        process(random, in_scope, prefixes / 2, repls)
    } else {
        output(name(random), name(random), Process::Nil)
    };
    test(left, right, then, otherwise)
}

/// Two terms that are equal in some states and different in others.
fn condition(random: &mut Random, in_scope: usize) -> (Term, Term) {
    let m = leaf(random, in_scope);
    let k = leaf(random, in_scope);
    match random.below(7) {
        0 => (snd(m.clone()), mac(fst(m), k)),
        1 => (dec(m, k), leaf(random, in_scope)),
        2 => (fst(m), leaf(random, in_scope)),
        3 => (pair(fst(m.clone()), snd(m.clone())), m),
        4 => (enc(dec(m.clone(), k.clone()), k), m),
        5 => (m, k),
        _ => (term(random, in_scope, 4), term(random, in_scope, 4)),
    }
}

/// Replication within replication, where copies of either meet: on a public channel or on one private to a copy.
pub fn nested(random: &mut Random) -> Process {
    let outer_names = random.below(2);
    let inner_names = random.below(2);
    let scope = outer_names + inner_names;
    let number = random.between(1, 3);
    let inner = par_of((0..number).map(|_| prefix(random, scope)).collect());
    let inner = repl(if inner_names == 1 { new(inner) } else { inner });
    let middle = match random.below(3) {
        0 => inner,
        1 => par(inner, prefix(random, outer_names)),
        _ => par(prefix(random, outer_names), inner),
    };
    let outer = if outer_names == 1 { new(middle) } else { middle };
    match random.below(4) {
        0 => par(repl(outer), prefix(random, 0)),
        1 => outer,
        _ => repl(outer),
    }
}

/// An output or input on one of few channels, and little after it.
fn prefix(random: &mut Random, in_scope: usize) -> Process {
    let channel = if in_scope == 0 || random.chance(50) { Term::Name(0) } else { leaf(random, in_scope) };
    if random.chance(50) {
        let then = output(Term::Name(1), leaf(random, in_scope), Process::Nil);
        return output(channel, leaf(random, in_scope), if random.chance(30) { then } else { Process::Nil });
    }
    let then = output(Term::Name(2), leaf(random, in_scope + 1), Process::Nil);
    input(channel, if random.chance(50) { then } else { Process::Nil })
}

/// A protocol: parties that share keys and meet on announced private channels, any number of them.
pub fn protocol(random: &mut Random) -> Process {
    let keys = random.between(1, 2);
    let announced = |random: &mut Random, scope: usize, party: fn(&mut Random, usize) -> Process| {
        let name = Term::Name(random.below(2) as u16);
        new(output(name, Term::Variable(scope), party(random, scope)))
    };
    let mut parties = par(announced(random, keys, asking), announced(random, keys, answering));
    if random.chance(60) {
        parties = repl(parties);
    }
    let keyed = (0..keys).fold(parties, |process, _| new(process));
    if random.chance(70) {
        repl(keyed)
    } else {
        keyed
    }
}

/// Sends a challenge on the channel, the last variable, and looks at the answer.
fn asking(random: &mut Random, scope: usize) -> Process {
    let channel = Term::Variable(scope);
    let answer = Term::Variable(scope + 2);
    let good = output(channel.clone(), enc(answer.clone(), Term::Variable(0)), Process::Nil);
    let bad = output(channel.clone(), name(random), Process::Nil);
    let challenge = Term::Variable(scope + 1);
    let (left, right) = match random.below(3) {
        0 => (dec(answer, Term::Variable(0)), challenge),
        1 => (fst(dec(answer, Term::Variable(0))), challenge),
        _ => (snd(answer.clone()), mac(fst(answer), Term::Variable(0))),
    };
    new(output(channel.clone(), Term::Variable(scope + 1), input(channel, test(left, right, good, bad))))
}

/// Takes a challenge on the channel and answers with it under a key.
fn answering(random: &mut Random, scope: usize) -> Process {
    let channel = Term::Variable(scope);
    let challenge = Term::Variable(scope + 1);
    let key = Term::Variable(random.below(scope));
    let answer = match random.below(3) {
        0 => enc(challenge, key),
        1 => enc(pair(challenge, name(random)), key),
        _ => pair(challenge.clone(), mac(challenge, key)),
    };
    input(channel.clone(), output(channel, answer, Process::Nil))
}

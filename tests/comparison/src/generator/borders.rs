//! Models and formulas that lead to a state near a limit: threads, private names, bound nodes.

use super::forms;
use super::formulas::{and, input_step, not, output_step, silent_step, truth};
use super::models::{binding, input, new, output, par, par_of, repl};
use super::terms::{name, sized};
use crate::random::Random;
use second_checker::syntax::{Formula, Process, Term};

/// A model and a formula that leads to its border.
pub type Bordered = (Process, Formula);

/// Where a process is put: it is built for so many variables in scope.
pub type Build<'b> = &'b dyn Fn(&mut Random, usize) -> Process;

/// A model near one of the limits.
pub fn bordered(random: &mut Random) -> Bordered {
    match random.weighted(&[3, 4, 4, 8, 3, 1]) {
        0 => {
            let number = random.between(29, 34);
            placed(random, &|random, _| threads(random, number))
        }
        1 => private_names(random),
        2 => {
            let total = random.between(1018, 1027);
            placed(random, &|random, _| bound_nodes(random, total))
        }
        3 => forms::bordered(random),
        4 => gathered(random),
        _ => many_aliases(random),
    }
}

/// Puts a process at the start, after a step, or into a copy.
pub fn placed(random: &mut Random, build: Build) -> Bordered {
    let zero = || Term::Name(0);
    let end = end(random);
    match random.below(9) {
        0 | 1 => (build(random, 0), end),
        2 => (output(zero(), name(random), build(random, 0)), output_step(zero(), end)),
        3 => (input(zero(), build(random, 1)), input_step(zero(), name(random), end)),
        4 => (par(output(zero(), name(random), Process::Nil), input(zero(), build(random, 1))), silent_step(end)),
        5 => (repl(output(zero(), name(random), build(random, 0))), output_step(zero(), end)),
        6 => (repl(build(random, 0)), end),
        7 => (repl(new(repl(build(random, 1)))), end),
        _ => {
            let copy = par(output(zero(), name(random), build(random, 0)), input(zero(), Process::Nil));
            (repl(copy), silent_step(end))
        }
    }
}

/// What is judged at the border: mostly one visit.
fn end(random: &mut Random) -> Formula {
    match random.below(6) {
        0 => not(truth()),
        1 => and(truth(), not(truth())),
        2 => silent_step(truth()),
        3 => output_step(name(random), truth()),
        _ => truth(),
    }
}

/// An output, input or repl thread.
fn thread(random: &mut Random) -> Process {
    match random.below(6) {
        0 => input(Term::Name(1), Process::Nil),
        1 => repl(output(Term::Name(2), name(random), Process::Nil)),
        _ => output(Term::Name(2), name(random), Process::Nil),
    }
}

fn threads(random: &mut Random, number: usize) -> Process {
    par_of((0..number).map(|_| thread(random)).collect())
}

/// Makes so many private names, and leaves no threads.
fn names(number: usize) -> Process {
    let chunk = |length: usize| (0..length).fold(Process::Nil, |process, _| new(process));
    let mut chunks: Vec<Process> = (0..number / 10).map(|_| chunk(10)).collect();
    chunks.push(chunk(number % 10));
    par_of(chunks)
}

/// Private names made at the start and by copies, which are opened one, two or no times.
fn private_names(random: &mut Random) -> Bordered {
    let total = random.between(127, 130);
    let own = random.between(1, 9);
    let news = |process: Process, number: usize| (0..number).fold(process, |process, _| new(process));
    let zero = || Term::Name(0);
    let end = end(random);
    match random.below(7) {
        0 => placed(random, &|_, _| names(total)),
        1 => {
            let copy = repl(news(output(zero(), Term::Variable(0), Process::Nil), own));
            let taken = random.between(0, 3);
            let formula = (0..taken).fold(end, |body, _| output_step(zero(), body));
            (par(copy, names(total - own * taken)), formula)
        }
        2 => {
            let nested = repl(news(repl(news(output(zero(), Term::Variable(0), Process::Nil), 1)), own));
            (par(names(total - own - 1), nested), output_step(zero(), end))
        }
        3 => {
            let copy = news(par(output(zero(), zero(), names(2)), input(zero(), names(3))), own);
            (par(repl(copy), names(total - 5 - own * random.between(1, 2))), silent_step(end))
        }
        4 => {
            let copy = news(output(Term::Name(1), zero(), Process::Nil), own);
            let sides = par(output(zero(), zero(), names(2)), input(zero(), names(2)));
            (par_of(vec![repl(copy), sides, names(total - 4)]), silent_step(end))
        }
        5 => {
            let output_copy = repl(news(output(zero(), zero(), names(1)), own));
            let input_copy = repl(news(input(zero(), names(1)), 3));
            (par_of(vec![input_copy, names(total - own - 5), output_copy]), silent_step(end))
        }
        _ => {
            let copy = repl(news(input(zero(), names(2)), own));
            (par(names(total - own - 2), copy), input_step(zero(), name(random), end))
        }
    }
}

/// Threads whose variables have so many nodes in all.
fn bound_nodes(random: &mut Random, total: usize) -> Process {
    let number = random.between(5, 9);
    let each = random.between(60, total / number);
    let mut threads: Vec<Process> = (0..number).map(|_| thread(random)).collect();
    let mut left = total - number * each;
    let mut index = random.below(number);
    while left > 0 {
        let nodes = left.min(random.between(1, 255));
        left -= nodes;
        threads[index % number] = binding(sized(random, nodes), threads[index % number].clone());
        index += 1;
    }
    binding(sized(random, each), par_of(threads))
}

/// Nodes gathered by aliases and received messages, step after step.
fn gathered(random: &mut Random) -> Bordered {
    let steps = random.between(5, 8);
    let total = random.between(1020, 1027);
    let sizes = parts(random, total, steps);
    let zero = || Term::Name(0);
    let end = end(random);
    if random.chance(33) {
        let send = |then, nodes: &usize| output(zero(), sized(random, *nodes), then);
        let model = sizes.iter().fold(Process::Nil, send);
        return (model, sizes.iter().fold(end, |body, _| output_step(zero(), body)));
    }
    let model = if random.chance(50) {
        let kept = thread(random);
        sizes.iter().fold(kept, |then, _| input(zero(), then))
    } else {
        repl(input(zero(), input(Term::Name(1), Process::Nil)))
    };
    (model, sizes.iter().fold(end, |body, nodes| input_step(zero(), sized(random, *nodes), body)))
}

/// More aliases than a model may have variables.
fn many_aliases(random: &mut Random) -> Bordered {
    let outputs = random.between(11, 16);
    let (left, right) = (random.below(outputs), random.below(outputs));
    let end = Formula::Equal(Term::Variable(left), Term::Variable(right));
    let model = if random.chance(50) {
        repl(new(output(Term::Name(0), Term::Variable(0), Process::Nil)))
    } else {
        (0..outputs).fold(Process::Nil, |then, _| output(Term::Name(0), name(random), then))
    };
    (model, (0..outputs).fold(end, |body, _| output_step(Term::Name(0), body)))
}

/// A number as so many parts of 1 to 255 each.
fn parts(random: &mut Random, total: usize, number: usize) -> Vec<usize> {
    let mut left = total;
    (0..number)
        .map(|index| {
            let after = number - index - 1;
            let least = left.saturating_sub(255 * after).max(1);
            let most = (left - after).min(255);
            let part = if after == 0 { left } else { random.between(least.min(most), most) };
            left -= part;
            part
        })
        .collect()
}

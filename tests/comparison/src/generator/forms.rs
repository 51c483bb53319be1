//! Normal forms near 255 nodes, in every place where one can arise.

use super::borders::{placed, Bordered};
use super::formulas::{input_step, output_step, truth};
use super::models::{binding, input, new, output, par, repl, test};
use super::terms::{dec, enc, fst, mac, name, pair, sized, sized_within, snd};
use crate::random::Random;
use second_checker::syntax::{Formula, Process, Term};

/// A bound message of `bound` nodes, and terms around it whose normal form, or a part's, has `nodes` nodes.
pub fn bordered(random: &mut Random) -> Bordered {
    let nodes = random.between(254, 257);
    if random.chance(30) {
        return recipe(random, nodes);
    }
    if random.chance(15) {
        return received(random, nodes);
    }
    let bound = random.between(196, 251);
    placed(random, &|random, scope| {
        let large = large(random, Term::Variable(scope), bound, nodes);
        binding(sized(random, bound), site(random, large))
    })
}

/// A term of `nodes` nodes around one of `bound`, or one that an equation then shortens.
fn large(random: &mut Random, around: Term, bound: usize, nodes: usize) -> Term {
    let other = sized_within(random, nodes - 1 - bound, 6);
    match random.below(8) {
        0 => fst(pair(around, other)),
        1 => snd(pair(around, other)),
        2 => dec(enc(around, other.clone()), other),
        3 => mac(other, around),
        4 => fst(mac(around, sized_within(random, nodes - 2 - bound, 6))),
        _ => pair(around, other),
    }
}

/// A process that works the term, or that has it where it is never worked.
fn site(random: &mut Random, large: Term) -> Process {
    let nil = || Process::Nil;
    let small = name(random);
    let seen = || output(Term::Name(2), Term::Name(1), Process::Nil);
    match random.below(13) {
        0 => output(small, large, nil()),
        1 => output(large, small, nil()),
        2 => input(large, nil()),
        3 => test(large, small, nil(), seen()),
        4 => test(small, large, nil(), seen()),
        5 => binding(large, seen()),
        6 => binding(large, nil()),
        7 => repl(output(small, large, nil())),
        8 => repl(new(repl(input(large, nil())))),
        9 => repl(par(seen(), binding(large, nil()))),
        10 => test(Term::Name(0), Term::Name(1), output(small, large, nil()), seen()),
        11 => output(Term::Name(2), small, output(large, Term::Name(0), nil())),
        _ => repl(output(Term::Name(2), small, output(Term::Name(0), large, nil()))),
    }
}

/// A recipe around an alias.
fn recipe(random: &mut Random, nodes: usize) -> Bordered {
    let bound = random.between(196, 251);
    let model = output(Term::Name(0), sized(random, bound), input(Term::Name(1), Process::Nil));
    let large = large(random, Term::Variable(0), bound, nodes);
    let small = name(random);
    let body = match random.below(6) {
        0 => Formula::Equal(large, small),
        1 => Formula::Equal(small, large),
        2 => output_step(large, truth()),
        3 => input_step(large, small, truth()),
        4 => input_step(Term::Name(9), large, truth()),
        _ => input_step(Term::Name(1), large, truth()),
    };
    (model, output_step(Term::Name(0), body))
}

/// A received message that grows in the model.
fn received(random: &mut Random, nodes: usize) -> Bordered {
    let bound = random.between(196, 251);
    let large = large(random, Term::Variable(0), bound, nodes);
    let model = input(Term::Name(0), site(random, large));
    (model, input_step(Term::Name(0), sized(random, bound), truth()))
}

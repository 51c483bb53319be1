//! Damaged slices: each refusal, at random places.

use super::formulas::{and, input_step, not, output_step, silent_step, truth};
use super::models::{binding, input, new, output, par, repl, test};
use crate::encoding;
use crate::random::Random;
use second_checker::syntax::{Formula, Process, Term};

/// Damages one of three slices in a way that mostly leads to `rule`, 1 to 8 but for 5, which no bytes break.
pub fn damage(random: &mut Random, slices: &mut [Vec<u8>; 3], rule: usize) {
    let index = random.below(3);
    let slice = &mut slices[index];
    match rule {
        1 => lengthen(random, slice),
        2 => shorten(random, slice),
        3 | 4 => other_number(random, slice, rule),
        6 => *slice = out_of_scope(random, index),
        7 => *slice = too_deep(random, index),
        _ => {
            for _ in 0..random.between(1, 4) {
                slice.push(*random.pick(&[0, 1, 2, 127, 128, 255]));
            }
        }
    }
}

/// Changes a few bytes anywhere.
pub fn scatter(random: &mut Random, slice: &mut Vec<u8>) {
    for _ in 0..random.between(1, 3) {
        if slice.is_empty() {
            return;
        }
        let place = random.below(slice.len());
        match random.below(4) {
            0 => slice[place] = random.below(256) as u8,
            1 => slice[place] = random.below(9) as u8,
            2 => drop(slice.remove(place)),
            _ => slice.insert(place, *random.pick(&[0, 1, 2, 3, 7, 8, 128, 129, 255])),
        }
    }
}

fn lengthen(random: &mut Random, slice: &mut Vec<u8>) {
    let length = *random.pick(&[4096, 4097, 4097, 4098, 4200, 5000]);
    while slice.len() < length {
        slice.push(random.below(256) as u8);
    }
}

/// Cuts the slice, sometimes within a number.
fn shorten(random: &mut Random, slice: &mut Vec<u8>) {
    slice.truncate(random.below(slice.len().max(1)));
    if random.chance(30) {
        slice.push(random.between(128, 255) as u8);
    }
}

/// The offsets at which numbers start.
fn places(slice: &[u8]) -> Vec<usize> {
    let starts = |place: &usize| *place == 0 || slice[place - 1] < 128;
    (0..slice.len()).filter(starts).collect()
}

/// Writes a number in another form (3), or a large one (4).
fn other_number(random: &mut Random, slice: &mut Vec<u8>, rule: usize) {
    let places = places(slice);
    if places.is_empty() {
        return;
    }
    let place = *random.pick(&places);
    let low = slice[place] | 128;
    let bytes = if rule == 3 {
        random.pick(&[vec![low, 0], vec![low, 128], vec![low, 128, 1], vec![128, 255, 1], vec![low, 129, 0]]).clone()
    } else {
        random.pick(&[vec![6], vec![7], vec![8], vec![9], vec![127], vec![128, 1], vec![255, 127]]).clone()
    };
    slice.splice(place..=place, bytes);
}

/// A slice with a variable or alias out of scope.
fn out_of_scope(random: &mut Random, index: usize) -> Vec<u8> {
    let in_scope = if random.chance(80) { random.below(4) } else { random.between(10, 12) };
    let leaf = Term::Variable(in_scope + *random.pick(&[0, 0, 0, 1, 9, 300]));
    let deep = (0..random.below(7)).fold(leaf, |term, _| wrapped(random, term, in_scope));
    if index < 2 {
        return encoding::process(&(0..in_scope).fold(with_term(random, deep), |process, _| new(process)));
    }
    encoding::formula(&(0..in_scope).fold(with_recipe(random, deep), |body, _| output_step(Term::Name(0), body)))
}

/// A process with a term in any of its places, sometimes right of a binder that is not around it.
fn with_term(random: &mut Random, term: Term) -> Process {
    let zero = Term::Name(0);
    let process = match random.below(6) {
        0 => output(term, zero, Process::Nil),
        1 => output(zero, term, Process::Nil),
        2 => input(term, Process::Nil),
        3 => binding(term, Process::Nil),
        4 => test(term, zero, Process::Nil, Process::Nil),
        _ => test(zero, term, Process::Nil, Process::Nil),
    };
    match random.below(4) {
        0 => par(new(Process::Nil), process),
        1 => test(Term::Name(0), Term::Name(0), input(Term::Name(1), Process::Nil), process),
        _ => process,
    }
}

/// A formula with a recipe in any of its places, sometimes right of an output step that is not around it.
fn with_recipe(random: &mut Random, recipe: Term) -> Formula {
    let zero = Term::Name(0);
    let formula = match random.below(5) {
        0 => Formula::Equal(zero, recipe),
        1 => Formula::Equal(recipe, zero),
        2 => output_step(recipe, truth()),
        3 => input_step(zero, recipe, truth()),
        _ => input_step(recipe, zero, truth()),
    };
    match random.below(4) {
        0 | 1 => and(output_step(Term::Name(0), truth()), formula),
        2 => not(silent_step(formula)),
        _ => formula,
    }
}

/// A term one node deeper, with the given one on its left or right.
fn wrapped(random: &mut Random, term: Term, in_scope: usize) -> Term {
    let other = if in_scope > 0 { Term::Variable(in_scope - 1) } else { Term::Name(256) };
    let (term, other) = (Box::new(term), Box::new(other));
    match random.below(6) {
        0 => Term::Fst(term),
        1 => Term::Snd(term),
        2 => Term::Pair(other, term),
        3 => Term::Enc(term, other),
        4 => Term::Dec(other, term),
        _ => Term::Mac(term, other),
    }
}

/// A slice nested at a limit or just past it.
fn too_deep(random: &mut Random, index: usize) -> Vec<u8> {
    let past = usize::from(random.chance(75));
    if random.chance(20) {
        return faulty_and_deep(random, index);
    }
    if random.chance(30) {
        let term = (0..7 + past).fold(Term::Name(0), |term, _| wrapped(random, term, 0));
        return if index < 2 {
            encoding::process(&output(Term::Name(0), term, Process::Nil))
        } else {
            encoding::formula(&Formula::Equal(term, Term::Name(0)))
        };
    }
    if index < 2 {
        return encoding::process(&deep_process(random, past));
    }
    encoding::formula(&deep_formula(random, past))
}

/// A slice that ends at a kind past the limit, where that kind is at fault in another way too, or its fields are.
fn faulty_and_deep(random: &mut Random, index: usize) -> Vec<u8> {
    let (chain, listed) = match (index, random.chance(50)) {
        (2, true) => (vec![1; 48], 6),
        (2, false) => ([vec![0], vec![3; 8]].concat(), 8),
        (_, true) => (vec![7; 64], 8),
        (_, false) => ([vec![3], vec![4; 8]].concat(), 8),
    };
    let last =
        random.pick(&[vec![], vec![listed], vec![listed - 1], vec![133, 1], vec![128, 0], vec![0, 128, 0]]).clone();
    [chain, last].concat()
}

fn deep_process(random: &mut Random, past: usize) -> Process {
    if random.chance(40) {
        let binder = |random: &mut Random, process: Process| match random.below(3) {
            0 => new(process),
            1 => input(Term::Name(0), process),
            _ => binding(Term::Name(0), process),
        };
        return (0..12 + past).fold(Process::Nil, |process, _| binder(random, process));
    }
    (0..63 + past).fold(Process::Nil, |process, _| match random.below(5) {
        0 => output(Term::Name(0), Term::Name(1), process),
        1 => par(Process::Nil, process),
        2 => par(process, Process::Nil),
        _ => repl(process),
    })
}

fn deep_formula(random: &mut Random, past: usize) -> Formula {
    if random.chance(50) {
        return (0..16 + past).fold(truth(), |body, _| match random.below(3) {
            0 => output_step(Term::Name(0), body),
            1 => not(silent_step(body)),
            _ => silent_step(body),
        });
    }
    (0..47 + past).fold(truth(), |body, _| match random.below(3) {
        0 => and(truth(), body),
        1 => and(body, truth()),
        _ => not(body),
    })
}

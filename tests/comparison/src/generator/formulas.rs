//! Formulas that follow what a model offers: random steps from state to state, with labels that exist there.

use super::knowledge::Knowledge;
use crate::random::Random;
use second_checker::states::{State, Thread};
use second_checker::steps::{after_input, after_output, after_silent, all_offers, silent_steps, Offer, SilentStep};
use second_checker::syntax::{Formula, Process, Term};
use std::ops::ControlFlow;

pub fn not(formula: Formula) -> Formula {
    Formula::Not(Box::new(formula))
}

pub fn and(left: Formula, right: Formula) -> Formula {
    Formula::And(Box::new(left), Box::new(right))
}

pub fn output_step(channel: Term, body: Formula) -> Formula {
    Formula::OutputStep { channel, body: Box::new(body) }
}

pub fn input_step(channel: Term, message: Term, body: Formula) -> Formula {
    Formula::InputStep { channel, message, body: Box::new(body) }
}

pub fn silent_step(body: Formula) -> Formula {
    Formula::SilentStep(Box::new(body))
}

/// A formula that follows a model for at most so many steps on a path.
pub fn formula(random: &mut Random, model: &Process, steps: usize) -> Formula {
    match State::start(model) {
        Ok(state) => at(random, &state, steps, 2),
        Err(_) => Formula::Equal(Term::Name(0), Term::Name(0)),
    }
}

/// A formula for a state, with at most so many steps and so many `and` on a path.
pub fn at(random: &mut Random, state: &State, steps: usize, ands: usize) -> Formula {
    let knowledge = Knowledge::new(&state.aliases);
    if steps == 0 || state.is_over_limit() {
        return test(random, &knowledge);
    }
    match random.weighted(&[14, 5, 2, 3 * ands.min(1), 1, 1]) {
        0 => offered(random, state, &knowledge, steps, ands),
        1 => silent(random, state, steps, ands),
        2 => not(at(random, state, steps, ands)),
        3 => and(at(random, state, steps, ands - 1), at(random, state, steps - 1, ands - 1)),
        4 => invented(random, &knowledge, state, steps, ands),
        _ => test(random, &knowledge),
    }
}

/// An equality or its negation.
fn test(random: &mut Random, knowledge: &Knowledge) -> Formula {
    let (left, right) = knowledge.two(random);
    let equal = Formula::Equal(left, right);
    if random.chance(40) {
        not(equal)
    } else {
        equal
    }
}

/// A step on an offer of the state, where a recipe gives its channel; sometimes as a box.
fn offered(random: &mut Random, state: &State, knowledge: &Knowledge, steps: usize, ands: usize) -> Formula {
    let offers = all_offers(state);
    if offers.is_empty() {
        return test(random, knowledge);
    }
    let boxed = random.chance(15);
    let around = |body: Formula| if boxed { not(body) } else { body };
    let offer = random.pick(&offers);
    match &*offer.thread {
        Thread::Output { channel, .. } => match knowledge.recipe(channel) {
            Some(channel) => around(output_step(channel, around(body_after_output(random, state, offer, steps, ands)))),
            None => silent(random, state, steps, ands),
        },
        Thread::Input { channel, .. } => match knowledge.recipe(channel) {
            Some(channel) => {
                let message = knowledge.any(random);
                let body = body_after_input(random, state, offer, &message, steps, ands);
                around(input_step(channel, message, around(body)))
            }
            None => silent(random, state, steps, ands),
        },
        Thread::Repl { .. } => test(random, knowledge),
    }
}

fn body_after_output(random: &mut Random, state: &State, offer: &Offer, steps: usize, ands: usize) -> Formula {
    match after_output(state, offer) {
        Ok(next) => at(random, &next, steps - 1, ands),
        Err(_) => truth(),
    }
}

fn body_after_input(
    random: &mut Random,
    state: &State,
    offer: &Offer,
    recipe: &Term,
    steps: usize,
    ands: usize,
) -> Formula {
    let message = second_checker::messages::normal_form(recipe, &state.aliases);
    match message.and_then(|message| after_input(state, offer, message)) {
        Ok(next) => at(random, &next, steps - 1, ands),
        Err(_) => truth(),
    }
}

/// A silent step, where there is one; the formula goes on after one of the first few.
fn silent(random: &mut Random, state: &State, steps: usize, ands: usize) -> Formula {
    let wanted = random.below(4);
    let mut seen: Vec<SilentStep> = Vec::new();
    let _ = silent_steps(state, &mut |step| {
        seen.push(step);
        if seen.len() > wanted {
            ControlFlow::Break(())
        } else {
            ControlFlow::Continue(())
        }
    });
    let body = match seen.last().map(|step| after_silent(state, step)) {
        Some(Ok(next)) => at(random, &next, steps - 1, ands),
        Some(Err(_)) => truth(),
        None => test(random, &Knowledge::new(&state.aliases)),
    };
    silent_step(body)
}

/// A step with a label that need not exist. An output step's body may name the new alias.
fn invented(random: &mut Random, knowledge: &Knowledge, state: &State, steps: usize, ands: usize) -> Formula {
    let channel = knowledge.any(random);
    match random.below(3) {
        0 => {
            let last = Term::Variable(state.aliases.len());
            output_step(channel, Formula::Equal(last, knowledge.any(random)))
        }
        1 => input_step(channel, knowledge.any(random), at(random, state, steps - 1, ands)),
        _ => silent_step(at(random, state, steps - 1, ands)),
    }
}

pub fn truth() -> Formula {
    Formula::Equal(Term::Name(0), Term::Name(0))
}

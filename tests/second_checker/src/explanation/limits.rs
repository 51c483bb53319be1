//! The first visit that meets a limit, and what is over it there (document 01, "Judging and its count").

use super::possible::{inputs, outputs, silents, Possible};
use super::Step;
use crate::messages::{normal_form, TooLarge};
use crate::states::{State, BOUND_NODES, PRIVATE_NAMES, THREADS};
use crate::syntax::{Formula, Process, Term};

/// What is over a limit, and by how much.
#[derive(Clone, Debug, PartialEq, Eq)]
pub enum Excess {
    Threads(usize),
    PrivateNames(u32),
    Nodes(usize),
    /// A normal form of so many nodes, arising at the term with this address (in the model, or in the formula for a
    /// recipe).
    Message {
        nodes: usize,
        term: usize,
    },
}

/// The first visit, in the order of judging, that meets a limit.
#[derive(Clone, Debug)]
pub struct Met<'m> {
    /// The steps that lead to its state from the start state. Where the state cannot be settled, the last of them is
    /// the step that would lead to it.
    pub steps: Vec<Step<'m>>,
    /// All that is over a limit there. A normal form that is over its limit comes alone: nothing is worked after it.
    pub excess: Vec<Excess>,
    /// Whether it is a recipe of the formula node and not the state.
    pub recipe: bool,
}

/// Where judging the formula at the model first meets a limit. None where it meets none.
pub fn first_limit<'m>(formula: &Formula, model: &'m Process) -> Option<Met<'m>> {
    let mut met = reached(formula, State::start(model))?;
    met.steps.reverse();
    Some(met)
}

/// Here and below, the steps to the visit are gathered on the way back, the last one first.
fn reached<'m>(formula: &Formula, state: Result<State<'m>, TooLarge>) -> Option<Met<'m>> {
    match state {
        Ok(state) if !state.is_over_limit() => at(formula, &state),
        Ok(state) => Some(Met { steps: Vec::new(), excess: over(&state), recipe: false }),
        Err(too_large) => Some(Met { steps: Vec::new(), excess: vec![message(too_large)], recipe: false }),
    }
}

/// At a state that is under its limits.
fn at<'m>(formula: &Formula, state: &State<'m>) -> Option<Met<'m>> {
    match formula {
        Formula::Equal(left, right) => recipe(left, state).or_else(|| recipe(right, state)),
        Formula::Not(body) => at(body, state),
        Formula::And(left, right) => at(left, state).or_else(|| at(right, state)),
        Formula::OutputStep { channel, body } => after_each(outputs(channel, state), body, state),
        Formula::InputStep { channel, message, body } => after_each(inputs(channel, message, state), body, state),
        Formula::SilentStep(body) => after_each(Ok(silents(state)), body, state),
    }
}

/// The recipe, where it is over the limit.
fn recipe<'m>(recipe: &Term, state: &State<'m>) -> Option<Met<'m>> {
    normal_form(recipe, &state.aliases).err().map(of_recipe)
}

fn of_recipe<'m>(too_large: TooLarge) -> Met<'m> {
    Met { steps: Vec::new(), excess: vec![message(too_large)], recipe: true }
}

/// After the steps of a step formula, or at the recipe of its label that is over the limit.
fn after_each<'m>(steps: Result<Vec<Possible<'m>>, TooLarge>, body: &Formula, state: &State<'m>) -> Option<Met<'m>> {
    let after = |step: &Possible<'m>| {
        let mut met = reached(body, step.after(state))?;
        met.steps.push(step.told(state));
        Some(met)
    };
    match steps {
        Ok(steps) => steps.iter().find_map(after),
        Err(too_large) => Some(of_recipe(too_large)),
    }
}

fn message(TooLarge { nodes, term }: TooLarge) -> Excess {
    Excess::Message { nodes, term }
}

/// The limits on a state that it is over.
fn over(state: &State) -> Vec<Excess> {
    let threads = state.threads.len();
    let nodes = state.nodes();
    let limits = [
        (threads > THREADS, Excess::Threads(threads)),
        (state.names > PRIVATE_NAMES, Excess::PrivateNames(state.names)),
        (nodes > BOUND_NODES, Excess::Nodes(nodes)),
    ];
    limits.into_iter().filter(|(is_over, _)| *is_over).map(|(_, excess)| excess).collect()
}

//! Judging a formula at a state, with its count of visits and the limits met (document 01, "Judging and its count").

use crate::messages::{normal_form, Message, TooLarge};
use crate::states::State;
use crate::steps::{after_input, after_output, after_silent, inputs_on, outputs_on, silent_steps};
use crate::syntax::{Formula, Process, Term};
use std::ops::ControlFlow;

/// The count went over the budget: judging stops.
#[derive(Clone, Copy, Debug, PartialEq, Eq)]
pub struct Spent;

/// The visits made so far, and whether one of them met a limit.
#[derive(Clone, Copy, Debug, PartialEq, Eq)]
pub struct Judging {
    pub count: u32,
    pub met_limit: bool,
    budget: u32,
}

impl Judging {
    pub fn new(budget: u32) -> Judging {
        Judging { count: 0, met_limit: false, budget }
    }

    /// Judges a formula at a model's start state.
    pub fn model(&mut self, formula: &Formula, model: &Process) -> Result<bool, Spent> {
        self.reached(formula, State::start(model))
    }

    /// Judges at a state as it is reached. Its limits are looked at here, once for all formulas judged there. Truth
    /// after a limit is of no use to any answer, so it is given as false.
    pub(crate) fn reached(&mut self, formula: &Formula, state: Result<State, TooLarge>) -> Result<bool, Spent> {
        match state {
            Ok(state) if !state.is_over_limit() => self.judge(formula, &state),
            _ => {
                self.visit()?;
                self.met_limit = true;
                Ok(false)
            }
        }
    }

    fn visit(&mut self) -> Result<(), Spent> {
        if self.count == self.budget {
            return Err(Spent);
        }
        self.count += 1;
        Ok(())
    }

    fn judge(&mut self, formula: &Formula, state: &State) -> Result<bool, Spent> {
        self.visit()?;
        match formula {
            Formula::Equal(left, right) => {
                let recipes = self.recipes(left, right, state);
                Ok(recipes.is_some_and(|(left, right)| left == right))
            }
            Formula::Not(body) => Ok(!self.judge(body, state)?),
            Formula::And(left, right) => {
                let left = self.judge(left, state)?;
                let right = self.judge(right, state)?;
                Ok(left && right)
            }
            Formula::OutputStep { channel, body } => match self.recipe(channel, state) {
                Some(channel) => self.output_steps(&channel, body, state),
                None => Ok(false),
            },
            Formula::InputStep { channel, message, body } => match self.recipes(channel, message, state) {
                Some((channel, message)) => self.input_steps(&channel, &message, body, state),
                None => Ok(false),
            },
            Formula::SilentStep(body) => self.silent_steps(body, state),
        }
    }

    /// A recipe's message at a state, or none where a limit is met.
    fn recipe(&mut self, recipe: &Term, state: &State) -> Option<Message> {
        let message = normal_form(recipe, &state.aliases).ok();
        self.met_limit |= message.is_none();
        message
    }

    /// Two recipes' messages. An input step's message is worked even where no thread takes it.
    fn recipes(&mut self, left: &Term, right: &Term, state: &State) -> Option<(Message, Message)> {
        let left = self.recipe(left, state)?;
        Some((left, self.recipe(right, state)?))
    }

    fn output_steps(&mut self, channel: &Message, body: &Formula, state: &State) -> Result<bool, Spent> {
        let mut some = false;
        for offer in outputs_on(state, channel) {
            some |= self.reached(body, after_output(state, &offer))?;
        }
        Ok(some)
    }

    fn input_steps(
        &mut self,
        channel: &Message,
        message: &Message,
        body: &Formula,
        state: &State,
    ) -> Result<bool, Spent> {
        let mut some = false;
        for offer in inputs_on(state, channel) {
            some |= self.reached(body, after_input(state, &offer, message.clone()))?;
        }
        Ok(some)
    }

    fn silent_steps(&mut self, body: &Formula, state: &State) -> Result<bool, Spent> {
        let mut some = false;
        let ended = silent_steps(state, &mut |step| match self.reached(body, after_silent(state, &step)) {
            Ok(truth) => {
                some |= truth;
                ControlFlow::Continue(())
            }
            Err(spent) => ControlFlow::Break(spent),
        });
        match ended {
            ControlFlow::Continue(()) => Ok(some),
            ControlFlow::Break(spent) => Err(spent),
        }
    }
}

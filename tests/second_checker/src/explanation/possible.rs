//! The steps that a state has under the label of a step formula, in their order (document 01, "Steps").

use super::Step;
use crate::messages::{normal_form, Message, TooLarge};
use crate::states::State;
use crate::steps::{after_input, after_output, after_silent, inputs_on, outputs_on, silent_steps, Offer, SilentStep};
use crate::syntax::Term;
use std::ops::ControlFlow;

/// A step before it is taken.
pub(super) enum Possible<'m> {
    Output(Offer<'m>),
    Input(Offer<'m>, Message),
    Silent(SilentStep<'m>),
}

impl<'m> Possible<'m> {
    /// The state it leads to.
    pub(super) fn after(&self, state: &State<'m>) -> Result<State<'m>, TooLarge> {
        match self {
            Possible::Output(offer) => after_output(state, offer),
            Possible::Input(offer, message) => after_input(state, offer, message.clone()),
            Possible::Silent(step) => after_silent(state, step),
        }
    }

    pub(super) fn told(&self, state: &State<'m>) -> Step<'m> {
        match self {
            Possible::Output(offer) => Step::output(offer),
            Possible::Input(offer, message) => Step::input(offer, message.clone()),
            Possible::Silent(step) => Step::silent(step, state),
        }
    }
}

/// The output steps on a channel. An error is a recipe over the limit, here and below.
pub(super) fn outputs<'m>(channel: &Term, state: &State<'m>) -> Result<Vec<Possible<'m>>, TooLarge> {
    let channel = normal_form(channel, &state.aliases)?;
    Ok(outputs_on(state, &channel).into_iter().map(Possible::Output).collect())
}

/// The input steps with a channel and a message.
pub(super) fn inputs<'m>(channel: &Term, message: &Term, state: &State<'m>) -> Result<Vec<Possible<'m>>, TooLarge> {
    let channel = normal_form(channel, &state.aliases)?;
    let message = normal_form(message, &state.aliases)?;
    let input = |offer| Possible::Input(offer, message.clone());
    Ok(inputs_on(state, &channel).into_iter().map(input).collect())
}

/// The silent steps.
pub(super) fn silents<'m>(state: &State<'m>) -> Vec<Possible<'m>> {
    let mut found = Vec::new();
    let _: ControlFlow<()> = silent_steps(state, &mut |step| {
        found.push(Possible::Silent(step));
        ControlFlow::Continue(())
    });
    found
}

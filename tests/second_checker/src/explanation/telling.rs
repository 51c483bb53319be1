//! Finding the reason: a judgement that keeps what it sees (document 01, "Judging and its count").

use super::possible::{inputs, outputs, silents, Possible};
use super::{Cut, Reason, Tried};
use crate::judging::Judging;
use crate::messages::{normal_form, TooLarge};
use crate::states::State;
use crate::syntax::{Formula, Process};

/// Why the formula is true or false of the model. None where judging meets a limit; then `first_limit` tells which.
pub fn reason<'m>(formula: &Formula, model: &'m Process, cut: Cut) -> Option<Reason<'m>> {
    Telling { kept: cut.steps }.reached(formula, State::start(model), cut.levels)
}

/// Every function gives none as soon as a visit meets a limit. `levels` is how many are still to be told.
struct Telling {
    /// The most steps that are kept where none makes a step formula true.
    kept: usize,
}

impl Telling {
    fn reached<'m>(&self, formula: &Formula, state: Result<State<'m>, TooLarge>, levels: usize) -> Option<Reason<'m>> {
        let state = state.ok().filter(|state| !state.is_over_limit())?;
        self.at(formula, &state, levels)
    }

    fn at<'m>(&self, formula: &Formula, state: &State<'m>, levels: usize) -> Option<Reason<'m>> {
        let recipe = |recipe| normal_form(recipe, &state.aliases).ok();
        match formula {
            Formula::Equal(left, right) => Some(Reason::Equal { left: recipe(left)?, right: recipe(right)? }),
            Formula::Not(body) => Some(Reason::Not(Box::new(self.at(body, state, levels)?))),
            Formula::And(left, right) => {
                let left = self.at(left, state, levels)?;
                Some(Reason::and(left, self.at(right, state, levels)?))
            }
            Formula::OutputStep { channel, body } => {
                self.after_each(&outputs(channel, state).ok()?, body, state, levels)
            }
            Formula::InputStep { channel, message, body } => {
                self.after_each(&inputs(channel, message, state).ok()?, body, state, levels)
            }
            Formula::SilentStep(body) => self.after_each(&silents(state), body, state, levels),
        }
    }

    /// The reason for a step formula with these steps.
    fn after_each<'m>(
        &self,
        steps: &[Possible<'m>],
        body: &Formula,
        state: &State<'m>,
        levels: usize,
    ) -> Option<Reason<'m>> {
        if let [step] = steps {
            let (told, reason) = (step.told(state), self.reached(body, step.after(state), levels)?);
            return Some(match reason.truth() {
                true => Reason::Step { step: told, number: 1, of: 1, reason: Box::new(reason) },
                false => Reason::NoStep { tried: vec![Tried { number: 1, step: told, reason }], of: 1 },
            });
        }
        // Where there are several, it is found first after which of them the body is true: only these are told then, or
        // else all of them.
        let truths = truths(steps, body, state)?;
        match truths.contains(&true) {
            true => self.shortest(steps, &truths, body, state, levels),
            false => self.furthest(steps, body, state, levels),
        }
    }

    /// The first shortest reason after one of the steps that make a step formula true.
    fn shortest<'m>(
        &self,
        steps: &[Possible<'m>],
        truths: &[bool],
        body: &Formula,
        state: &State<'m>,
        levels: usize,
    ) -> Option<Reason<'m>> {
        let mut best: Option<(usize, Reason)> = None;
        for (index, step) in steps.iter().enumerate().filter(|(index, _)| truths[*index]) {
            let reason = self.reached(body, step.after(state), levels)?;
            if best.as_ref().is_none_or(|(_, best)| reason.length() < best.length()) {
                best = Some((index, reason));
            }
        }
        let (index, reason) = best?;
        let (step, reason) = (steps[index].told(state), Box::new(reason));
        Some(Reason::Step { step, number: index + 1, of: steps.len(), reason })
    }

    /// Of several steps, or of none, after which a step formula is false, those that go furthest, in their order.
    fn furthest<'m>(
        &self,
        steps: &[Possible<'m>],
        body: &Formula,
        state: &State<'m>,
        levels: usize,
    ) -> Option<Reason<'m>> {
        let kept = if levels == 0 { 1 } else { self.kept.max(1) };
        let mut tried: Vec<Tried> = Vec::new();
        for (index, step) in steps.iter().enumerate() {
            let reason = self.reached(body, step.after(state), levels.saturating_sub(1))?;
            tried.push(Tried { number: index + 1, step: step.told(state), reason });
            if tried.len() > kept {
                // The last of those that go least far is left out.
                let least = tried.iter().rev().min_by_key(|tried| tried.reason.reach()).map(|tried| tried.number);
                tried.retain(|tried| Some(tried.number) != least);
            }
        }
        Some(Reason::NoStep { tried, of: steps.len() })
    }
}

/// Whether the body is true after each of the steps. None also past the largest budget there is.
fn truths<'m>(steps: &[Possible<'m>], body: &Formula, state: &State<'m>) -> Option<Vec<bool>> {
    let mut judging = Judging::new(u32::MAX);
    let truths = steps.iter().map(|step| judging.reached(body, step.after(state)).ok()).collect::<Option<Vec<bool>>>();
    truths.filter(|_| !judging.met_limit)
}

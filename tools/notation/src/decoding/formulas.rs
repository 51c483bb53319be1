//! Formulas.

use super::terms::term;
use super::{Bytes, Decoded};
use crate::rules::{FORMULA_NODES, STEP_FORMULAS, TOO_DEEP};
use crate::syntax::Formula;

/// What is around a formula: formula nodes, step formulas among them, and output steps among those, which are the
/// aliases in scope.
#[derive(Clone, Copy)]
struct Around {
    nodes: usize,
    steps: usize,
    outputs: usize,
}

pub fn outermost(bytes: &mut Bytes) -> Decoded<Formula> {
    formula(bytes, Around { nodes: 0, steps: 0, outputs: 0 })
}

fn formula(bytes: &mut Bytes, around: Around) -> Decoded<Formula> {
    let kind = bytes.kind(6)?;
    let is_step = kind.value >= 3;
    kind.within(around.nodes == FORMULA_NODES, TOO_DEEP[3])?;
    kind.within(is_step && around.steps == STEP_FORMULAS, TOO_DEEP[4])?;
    let aliases = around.outputs;
    let inside = Around {
        nodes: around.nodes + 1,
        steps: around.steps + usize::from(is_step),
        outputs: aliases + usize::from(kind.value == 3),
    };
    Ok(match kind.value {
        0 => Formula::Equal(term(bytes, aliases)?, term(bytes, aliases)?),
        1 => Formula::Not(part(bytes, inside)?),
        2 => Formula::And(part(bytes, inside)?, part(bytes, inside)?),
        3 => Formula::OutputStep { channel: term(bytes, aliases)?, body: part(bytes, inside)? },
        4 => {
            let (channel, message) = (term(bytes, aliases)?, term(bytes, aliases)?);
            Formula::InputStep { channel, message, body: part(bytes, inside)? }
        }
        _ => Formula::SilentStep(part(bytes, inside)?),
    })
}

fn part(bytes: &mut Bytes, around: Around) -> Decoded<Box<Formula>> {
    formula(bytes, around).map(Box::new)
}

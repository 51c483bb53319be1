//! Processes.

use super::terms::term;
use super::{Bytes, Decoded};
use crate::rules::{PROCESS_NODES, TOO_DEEP, VARIABLES};
use crate::syntax::Process;

/// Where a process stands: the process nodes around it, and the variables in scope.
#[derive(Clone, Copy)]
struct Spot {
    around: usize,
    scope: usize,
}

pub fn model(bytes: &mut Bytes) -> Decoded<Process> {
    process(bytes, Spot { around: 0, scope: 0 })
}

fn process(bytes: &mut Bytes, spot: Spot) -> Decoded<Process> {
    let kind = bytes.kind(8)?;
    let binds = matches!(kind.value, 1 | 3 | 5);
    kind.within(spot.around == PROCESS_NODES, TOO_DEEP[1])?;
    kind.within(binds && spot.scope == VARIABLES, TOO_DEEP[2])?;
    let scope = spot.scope;
    let inside = Spot { around: spot.around + 1, scope: scope + usize::from(binds) };
    Ok(match kind.value {
        0 => Process::Nil,
        1 => Process::New(part(bytes, inside)?),
        2 => {
            let (channel, message) = (term(bytes, scope)?, term(bytes, scope)?);
            Process::Output { channel, message, then: part(bytes, inside)? }
        }
        3 => Process::Input { channel: term(bytes, scope)?, then: part(bytes, inside)? },
        4 => {
            let (left, right) = (term(bytes, scope)?, term(bytes, scope)?);
            let (then, otherwise) = (part(bytes, inside)?, part(bytes, inside)?);
            Process::If { left, right, then, otherwise }
        }
        5 => Process::Let { value: term(bytes, scope)?, then: part(bytes, inside)? },
        6 => Process::Par(part(bytes, inside)?, part(bytes, inside)?),
        _ => Process::Repl(part(bytes, inside)?),
    })
}

fn part(bytes: &mut Bytes, spot: Spot) -> Decoded<Box<Process>> {
    process(bytes, spot).map(Box::new)
}

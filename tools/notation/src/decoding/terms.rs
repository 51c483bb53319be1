//! Terms and recipes.

use super::{Bytes, Decoded};
use crate::rules::{TERM_NODES, TOO_DEEP};
use crate::syntax::Term;

/// A term where so many variables, or aliases, are in scope.
pub fn term(bytes: &mut Bytes, scope: usize) -> Decoded<Term> {
    below(bytes, scope, 0)
}

/// A term with so many term nodes around it.
fn below(bytes: &mut Bytes, scope: usize, around: usize) -> Decoded<Term> {
    let kind = bytes.kind(8)?.within(around == TERM_NODES, TOO_DEEP[0])?;
    let mut part = || below(bytes, scope, around + 1).map(Box::new);
    Ok(match kind.value {
        0 => name(bytes)?,
        1 => variable(bytes, scope)?,
        2 => Term::Pair(part()?, part()?),
        3 => Term::Fst(part()?),
        4 => Term::Snd(part()?),
        5 => Term::Enc(part()?, part()?),
        6 => Term::Dec(part()?, part()?),
        _ => Term::Mac(part()?, part()?),
    })
}

fn name(bytes: &mut Bytes) -> Decoded<Term> {
    Ok(Term::Name(bytes.number()?.value))
}

fn variable(bytes: &mut Bytes, scope: usize) -> Decoded<Term> {
    let number = bytes.number()?;
    let index = usize::from(number.value);
    number.unless(index >= scope, 6)?;
    Ok(Term::Variable(index))
}

//! A formula beside its reason, by how it is told: negations as `!=`, `or` and a box where that is what they spell, and the
//! sides of one `and` or `or` after another as sides of one.

use notation::tree::{Kind, Tree};
use second_checker::explanation::Reason;

pub enum Shape<'t, 'r, 'm> {
    /// An equation, or an inequality.
    Equation {
        formula: &'t Tree,
        differ: bool,
        reason: &'r Reason<'m>,
    },
    /// A step formula, or a box: not, this step formula, not.
    Modal {
        step: &'t Tree,
        boxed: bool,
        reason: &'r Reason<'m>,
    },
    /// `and`, or `or`.
    Sides {
        sides: [&'t Tree; 2],
        or: bool,
        reason: &'r Reason<'m>,
    },
    Negation {
        body: &'t Tree,
        reason: &'r Reason<'m>,
    },
}

/// A part of a formula, and its reason.
pub type Part<'t, 'r, 'm> = (&'t Tree, &'r Reason<'m>);

pub fn shape<'t, 'r, 'm>(formula: &'t Tree, reason: &'r Reason<'m>) -> Shape<'t, 'r, 'm> {
    let Reason::Not(inner) = reason else { return plain(formula, reason) };
    let body = &formula.parts[0];
    match body.kind {
        Kind::Equal if !is_true(body) => Shape::Equation { formula: body, differ: true, reason: inner },
        Kind::And => match denied_sides(formula) {
            Some(sides) => Shape::Sides { sides, or: true, reason: inner },
            None => Shape::Negation { body, reason: inner },
        },
        kind if kind.is_step() && body.parts.last().is_some_and(|part| part.kind == Kind::Not) => {
            Shape::Modal { step: body, boxed: true, reason: inner }
        }
        _ => Shape::Negation { body, reason: inner },
    }
}

fn plain<'t, 'r, 'm>(formula: &'t Tree, reason: &'r Reason<'m>) -> Shape<'t, 'r, 'm> {
    match formula.kind {
        Kind::Equal => Shape::Equation { formula, differ: false, reason },
        Kind::And => Shape::Sides { sides: [&formula.parts[0], &formula.parts[1]], or: false, reason },
        _ => Shape::Modal { step: formula, boxed: false, reason },
    }
}

/// Whether an equation is written as `true`: all of it then stands at one place.
pub fn is_true(equation: &Tree) -> bool {
    equation.parts.iter().all(|part| (part.kind, part.place) == (Kind::Name, equation.place))
}

/// The sides of an `or`: what not, and, not and not are around.
fn denied_sides(formula: &Tree) -> Option<[&Tree; 2]> {
    let both = formula.parts.first().filter(|both| formula.kind == Kind::Not && both.kind == Kind::And)?;
    let denied = |side: &Tree| side.kind == Kind::Not;
    both.parts.iter().all(denied).then(|| [&both.parts[0].parts[0], &both.parts[1].parts[0]])
}

/// How many sides a chain of `and`, or of `or`, has that goes on with this formula.
pub fn sides(formula: &Tree, or: bool) -> usize {
    let further = match or {
        true => denied_sides(formula).map(|[_, right]| right),
        false => (formula.kind == Kind::And).then(|| &formula.parts[1]),
    };
    further.map_or(1, |right| 1 + sides(right, or))
}

/// What a negation around a part's reason leaves, where the formula is told without that negation.
pub fn under<'r, 'm>(negated: bool, reason: &'r Reason<'m>) -> &'r Reason<'m> {
    match reason {
        Reason::Not(inner) if negated => inner,
        _ => reason,
    }
}

/// The sides that are told of a chain, each with its number from 1: all of them, or the one that decides.
pub fn told<'t, 'r, 'm>(
    sides: [&'t Tree; 2],
    or: bool,
    reason: &'r Reason<'m>,
    number: usize,
) -> Vec<(usize, Part<'t, 'r, 'm>)> {
    let [left, right] = sides;
    match reason {
        Reason::Both(one, other) => {
            let mut told = vec![(number, (left, under(or, one)))];
            told.extend(further(right, or, under(or, other), number + 1));
            told
        }
        Reason::Side { right: false, reason } => vec![(number, (left, under(or, reason)))],
        Reason::Side { right: true, reason } => further(right, or, under(or, reason), number + 1),
        _ => Vec::new(),
    }
}

/// The right side, which may be a chain of the same sort.
fn further<'t, 'r, 'm>(
    right: &'t Tree,
    or: bool,
    reason: &'r Reason<'m>,
    number: usize,
) -> Vec<(usize, Part<'t, 'r, 'm>)> {
    match shape(right, reason) {
        Shape::Sides { sides, or: same, reason } if same == or => told(sides, or, reason, number),
        _ => vec![(number, (right, reason))],
    }
}

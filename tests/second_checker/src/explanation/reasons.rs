//! Reasons for the truth of a formula at a state (document 01, "Steps").

use super::Step;
use crate::messages::Message;

/// How much of a reason is kept.
#[derive(Clone, Copy, Debug)]
pub struct Cut {
    /// Of several steps after which a body was tried, so many are kept at most, and one at least: those that go furthest.
    pub steps: usize,
    /// A level is a step formula that is false after several steps. Below so many of them, one step of another is kept.
    pub levels: usize,
}

/// Why a formula is true or false at a state. Its shape is that of the formula, as far as it is told.
#[derive(Clone, Debug)]
pub enum Reason<'m> {
    /// An equality: what both recipes give.
    Equal { left: Message, right: Message },
    /// A negation: the reason for its body, which is the other way round.
    Not(Box<Reason<'m>>),
    /// A conjunction that is true: the reasons for both sides.
    Both(Box<Reason<'m>>, Box<Reason<'m>>),
    /// A conjunction that is false: a side that is false, the one with the shorter reason where both are.
    Side { right: bool, reason: Box<Reason<'m>> },
    /// A step formula that is true: a step that makes it so, the first with the shortest reason; its number, from 1,
    /// among the steps with that label, and how many these are.
    Step { step: Step<'m>, number: usize, of: usize, reason: Box<Reason<'m>> },
    /// A step formula that is false: steps with its label, those that go furthest, each with its number, from 1, and the
    /// reason why the body is false after it; and how many there are in all.
    NoStep { tried: Vec<Tried<'m>>, of: usize },
}

/// A step after which a body is false, with its number, from 1, among the steps with its label.
#[derive(Clone, Debug)]
pub struct Tried<'m> {
    pub number: usize,
    pub step: Step<'m>,
    pub reason: Reason<'m>,
}

impl<'m> Reason<'m> {
    /// The truth that this is the reason for.
    pub fn truth(&self) -> bool {
        match self {
            Reason::Equal { left, right } => left == right,
            Reason::Not(body) => !body.truth(),
            Reason::Both(..) | Reason::Step { .. } => true,
            Reason::Side { .. } | Reason::NoStep { .. } => false,
        }
    }

    /// How many nodes are told.
    pub fn length(&self) -> usize {
        match self {
            Reason::Equal { .. } => 1,
            Reason::Not(reason) | Reason::Side { reason, .. } | Reason::Step { reason, .. } => 1 + reason.length(),
            Reason::Both(left, right) => 1 + left.length() + right.length(),
            Reason::NoStep { tried, .. } => 1 + tried.iter().map(|tried| tried.reason.length()).sum::<usize>(),
        }
    }

    /// How many steps it goes, one after the other.
    pub fn reach(&self) -> usize {
        match self {
            Reason::Equal { .. } => 0,
            Reason::Not(reason) | Reason::Side { reason, .. } => reason.reach(),
            Reason::Both(left, right) => left.reach().max(right.reach()),
            Reason::Step { reason, .. } => 1 + reason.reach(),
            Reason::NoStep { tried, .. } => tried.iter().map(|tried| 1 + tried.reason.reach()).max().unwrap_or(0),
        }
    }

    /// The reason for a conjunction, made of those for its sides.
    pub(super) fn and(left: Reason<'m>, right: Reason<'m>) -> Reason<'m> {
        match (left.truth(), right.truth()) {
            (true, true) => Reason::Both(Box::new(left), Box::new(right)),
            (true, false) => Reason::Side { right: true, reason: Box::new(right) },
            (false, false) if right.length() < left.length() => Reason::Side { right: true, reason: Box::new(right) },
            (false, _) => Reason::Side { right: false, reason: Box::new(left) },
        }
    }
}

//! Formulas, on one line where that fits. What `!=`, `or`, `[..]` and `true` are spelled as is printed as these.

use super::terms::recipe;
use super::Margin;
use crate::syntax::{Formula, Term};

/// A formula on one line.
pub fn formula(formula: &Formula) -> String {
    flat(formula, 0)
}

/// A formula whose first line starts at column `indent`.
pub(super) fn indented(formula: &Formula, indent: usize) -> String {
    broken(formula, 0, Margin::new(indent))
}

/// A formula by what it is written with.
enum Shape<'f> {
    Or(&'f Formula, &'f Formula),
    And(&'f Formula, &'f Formula),
    /// A prefix, its body, and how many aliases there are in that.
    Prefix(String, &'f Formula, usize),
    Atom(String),
}

/// `aliases` is the number of output steps around.
fn shape(formula: &Formula, aliases: usize) -> Shape<'_> {
    match formula {
        Formula::Equal(Term::Name(0), Term::Name(0)) => Shape::Atom("true".to_string()),
        Formula::Equal(left, right) => Shape::Atom(format!("{} = {}", recipe(left), recipe(right))),
        Formula::Not(body) => negated(body, aliases),
        Formula::And(left, right) => Shape::And(left, right),
        Formula::OutputStep { channel, body } => {
            let word = if body.has_alias(aliases) { format!("a{aliases}") } else { "_".to_string() };
            Shape::Prefix(format!("<out {} {word}>", recipe(channel)), body, aliases + 1)
        }
        Formula::InputStep { channel, message, body } => {
            Shape::Prefix(format!("<in {} {}>", recipe(channel), recipe(message)), body, aliases)
        }
        Formula::SilentStep(body) => Shape::Prefix("<tau>".to_string(), body, aliases),
    }
}

/// The shape of "not `body`".
fn negated(body: &Formula, aliases: usize) -> Shape<'_> {
    match (body, shape(body, aliases)) {
        (Formula::Equal(left, right), Shape::Atom(text)) if text != "true" => {
            Shape::Atom(format!("{} != {}", recipe(left), recipe(right)))
        }
        (_, Shape::And(Formula::Not(left), Formula::Not(right))) => Shape::Or(left, right),
        (_, Shape::Prefix(step, Formula::Not(inner), within)) if step.starts_with('<') => {
            Shape::Prefix(format!("[{}]", step.trim_matches(['<', '>'])), inner, within)
        }
        _ => Shape::Prefix("not".to_string(), body, aliases),
    }
}

/// How tightly a formula holds together: `or` 0, `and` 1, all else 2.
fn tightness(formula: &Formula, aliases: usize) -> u8 {
    match shape(formula, aliases) {
        Shape::Or(..) => 0,
        Shape::And(..) => 1,
        Shape::Prefix(..) | Shape::Atom(_) => 2,
    }
}

fn flat(formula: &Formula, aliases: usize) -> String {
    match shape(formula, aliases) {
        Shape::Or(left, right) => format!("{} or {}", flat_part(left, aliases, 1), flat_part(right, aliases, 0)),
        Shape::And(left, right) => format!("{} and {}", flat_part(left, aliases, 2), flat_part(right, aliases, 1)),
        Shape::Prefix(prefix, body, inner) => format!("{prefix} {}", flat_part(body, inner, 2)),
        Shape::Atom(text) => text,
    }
}

/// The same where a formula of at least this tightness can stand.
fn flat_part(formula: &Formula, aliases: usize, least: u8) -> String {
    let text = flat(formula, aliases);
    if tightness(formula, aliases) < least {
        format!("({text})")
    } else {
        text
    }
}

fn broken(formula: &Formula, aliases: usize, margin: Margin) -> String {
    let text = flat(formula, aliases);
    if margin.fits(&text) {
        return text;
    }
    let next = margin.newline();
    let part = |formula, least| broken_part(formula, aliases, least, Margin::new(margin.indent));
    match shape(formula, aliases) {
        Shape::Or(left, right) => format!("{}{next}or{next}{}", part(left, 1), part(right, 0)),
        Shape::And(left, right) => format!("{}{next}and{next}{}", part(left, 2), part(right, 1)),
        Shape::Prefix(prefix, body, inner) => {
            let (between, after) = margin.after(&prefix);
            format!("{prefix}{between}{}", broken_part(body, inner, 2, after))
        }
        Shape::Atom(text) => text,
    }
}

fn broken_part(formula: &Formula, aliases: usize, least: u8, margin: Margin) -> String {
    if tightness(formula, aliases) < least {
        let deeper = margin.deeper();
        format!("({}{}{})", deeper.newline(), broken(formula, aliases, deeper), margin.newline())
    } else {
        broken(formula, aliases, margin)
    }
}

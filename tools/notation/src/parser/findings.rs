//! A finding: names, abbreviations, two models, a formula, and the answer it should get.

use super::{habits, Parser};
use crate::fault::{in_order, Cause, Fault, Place};
use crate::lexer::lexemes;
use crate::rules;
use crate::slice::Slice;
use crate::text::lines;
use crate::tree::Tree;

#[derive(Clone, Debug, PartialEq, Eq)]
pub struct Finding {
    /// The comment on the first line.
    pub summary: String,
    /// The words of public names, with their numbers.
    pub names: Vec<(String, usize)>,
    /// The first model, the second model and the formula: as they are written, and as bytes.
    pub trees: [Tree; 3],
    pub slices: [Slice; 3],
    /// Result, slice, place and count, and where that is written.
    pub answer: Option<([u32; 4], Place)>,
}

/// What a text is read as.
#[derive(Debug)]
pub struct Reading {
    /// None if the text has faults, unless all that they say is that the bytes break a rule.
    pub finding: Option<Finding>,
    pub faults: Vec<Fault>,
    pub warnings: Vec<Fault>,
}

/// The slices, by what they hold.
const SLICES: [&str; 3] = ["the first model", "the second model", "the formula"];

/// Reads one finding without faults; nothing may follow it.
pub fn read(text: &str) -> Result<Finding, Vec<Fault>> {
    let reading = reading(text);
    reading.finding.filter(|_| reading.faults.is_empty()).ok_or(reading.faults)
}

/// Reads one finding, and notes as many faults as can be told apart.
pub fn reading(text: &str) -> Reading {
    let (lexemes, comments) = habits::without_comments(lexemes(text));
    let mut parser = Parser::new(lexemes);
    for place in comments {
        parser.note(place, Cause::Syntax, "a comment starts with `#`, and ends with its line");
    }
    parser.names();
    let first = parser.section("first", Parser::process);
    let second = parser.section("second", Parser::process);
    let formula = parser.section("formula", Parser::formula);
    let answer = parser.answer();
    parser.end();
    parser.unused_abbreviations();

    let trees = [first, second, formula];
    let read = parser.faults.iter().all(|fault| matches!(fault.cause, Cause::Rule(_)));
    parser.faults.extend(trees.iter().flatten().flat_map(rules::too_deep));
    match trees {
        [Some(first), Some(second), Some(formula)] if read => {
            complete(parser, summary(text), [first, second, formula], answer)
        }
        _ => Reading { finding: None, faults: in_order(parser.faults), warnings: Vec::new() },
    }
}

/// A reading of which the bytes are known.
fn complete(mut parser: Parser, summary: String, trees: [Tree; 3], answer: Option<([u32; 4], Place)>) -> Reading {
    let slices = [0, 1, 2].map(|index| Slice::of(&trees[index]));
    parser.faults.extend(slices.iter().zip(SLICES).filter_map(|(slice, what)| rules::too_long(slice, what)));
    for (place, message) in parser.scope.unused() {
        parser.note(place, Cause::Doubt, message);
    }
    let names = parser.scope.names().iter().map(|name| (name.word.clone(), name.number)).collect();
    let finding = Some(Finding { summary, names, trees, slices, answer });
    Reading { finding, faults: in_order(parser.faults), warnings: in_order(parser.warnings) }
}

fn summary(text: &str) -> String {
    let line = lines(text).first().copied().unwrap_or("");
    line.strip_prefix('#').unwrap_or("").trim().to_string()
}
